# made.awk QUOTES WRONG REACH SENTENCES: docs/READING.md to standard output, errors to standard error; see tools/reading.sh
BEGIN { FS = "\t" }

FNR == 1 { files++ }

$1 == "quote" && files == 1 { quotes++; of[quotes] = place($2, $3); said[quotes] = $4; from[quotes] = $2 ":" $3; next }
$1 == "text" && files == 1 { texts++; at[texts] = module($2); name[texts] = $3; where[texts] = $2; line[texts] = $4; next }
$1 == "wrong" && files == 2 {
    wrongs++
    label[wrongs] = $2
    table[wrongs] = $3
    wrong_at[wrongs] = $4
    old[wrongs] = $5
    heard[wrongs] = ""
    for (i = 6; i <= NF; i++) heard[wrongs] = heard[wrongs] "\t" $i
    next
}

# the worked cases, the shortest first, and which of them come to a definition
$1 == "case" && files == 3 { titled[$2] = $3; next }
$1 == "reach" && files == 3 { reached[$2 ":" $3] = $4; next }

# the sentences: blocks between empty lines; '> ' a sentence, '= ' definitions by hand, ': ' a remark, all else as it stands
files == 4 {
    kind = substr($0, 1, 2)
    if (kind == "> ") {
        if (last != "> ") begin()
        text[sentences] = joined(text[sentences], substr($0, 3))
    } else if (kind == "= ") by_hand[sentences] = joined(by_hand[sentences], substr($0, 3))
    else if (kind == ": ") remark[sentences] = joined(remark[sentences], substr($0, 3))
    else if ($0 != "" || last !~ /^[>=:] $/) { blocks++; block[blocks] = 0; plain[blocks] = $0 }
    last = kind
}

function begin() {
    blocks++
    block[blocks] = ++sentences
    text[sentences] = by_hand[sentences] = remark[sentences] = ""
}

END {
    cut_sentences()
    give_quotes()
    give_wrongs()
    hold_names()
    write_all()
}

# hold_names: a definition that a row names by hand, as `Calls.close_call`, stands in that file of the law, or of the second engine's rules;
# names with a hyphen are laws
function hold_names(    t, i, rest, one, field, part2) {
    for (t = 1; t <= texts; t++) {
        one = at[t]
        if (one !~ /^(recall_)?rules\//) continue
        sub(/.*\//, "", one)
        is_file[one] = 1
        stands[one, name[t]] = 1
        # a field or a case stands in the text of its type
        if (line[t] ~ /^ +(pub )?[A-Za-z_]+ /) {
            field = line[t]
            sub(/^ +(pub )?/, "", field)
            sub(/ .*/, "", field)
            stands[one, field] = 1
        }
    }
    for (i = 1; i <= sentences; i++) {
        rest = by_hand[i] " " remark[i]
        while (match(rest, /`[A-Z][A-Za-z]*\.[A-Za-z0-9_]+`/)) {
            one = substr(rest, RSTART + 1, RLENGTH - 2)
            rest = substr(rest, RSTART + RLENGTH)
            split(one, part2, ".")
            if (part2[1] in is_file && !((part2[1], part2[2]) in stands)) print "no definition " one ", named under " text[i] >"/dev/stderr"
        }
    }
}

function joined(a, b) { return a == "" ? b : a " " b }

# module PATH: crates/rules/specs/Calls.antt is rules/Calls
function module(path) { sub(/^crates\//, "", path); sub(/\/specs\//, "/", path); sub(/\.antt$/, "", path); return path }

# place PATH NAME: how READING names a definition
function place(path, n,    file) {
    file = path
    sub(/.*\//, "", file)
    sub(/\.antt$/, "", file)
    if (path ~ /^crates\/rules\//) return "`" file "." n "`"
    sub(/^crates\//, "", path)
    sub(/\.antt$/, "", path)
    return "`" n "` of `" path "`"
}

# key S: without the marks around it
function key(s) { gsub(/^[ .;,:]+|[ .;,:]+$/, "", s); return s }

# pieces S: the pieces of a quote, cut where it leaves words out, in piece[1..]; returns how many. Of several a short one, as "for", would
# be found in sentences that it is not of
function pieces(s,    n, i, m, p) {
    gsub(/…/, "..", s)
    n = split(s, p, /\.\./)
    m = 0
    for (i = 1; i <= n; i++) if (length(key(p[i])) > (n > 1 ? 5 : 2)) piece[++m] = key(p[i])
    return m
}

# cut_sentences: what is in quotes in each sentence; of a row of 01's table of house numbers without number and calls
function cut_sentences(    i, rest, one) {
    for (i = 1; i <= sentences; i++) {
        parts[i] = 0
        rest = text[i]
        while (match(rest, /"[^"]*"/)) {
            one = substr(rest, RSTART + 1, RLENGTH - 2)
            rest = substr(rest, RSTART + RLENGTH)
            if (one ~ /^[0-9]+: .*; [a-z, ]+$/) { sub(/^[0-9]+: /, "", one); sub(/; [a-z, ]+$/, "", one) }
            n = pieces(one)
            for (j = 1; j <= n; j++) part[i, ++parts[i]] = piece[j]
        }
    }
}

# nearest B: sets found[1..] to the sentences that a piece belongs to: those that are it, else the shortest that has it, else those in it
function nearest(b,    i, j, n, best, shortest) {
    n = 0
    for (i = 1; i <= sentences; i++) for (j = 1; j <= parts[i]; j++) if (part[i, j] == b) { found[++n] = i; break }
    if (n) return n
    for (i = 1; i <= sentences; i++) for (j = 1; j <= parts[i]; j++)
        if (index(part[i, j], b) && (!best || length(part[i, j]) < shortest)) { best = i; shortest = length(part[i, j]) }
    if (best) { found[1] = best; return 1 }
    for (i = 1; i <= sentences; i++) for (j = 1; j <= parts[i]; j++)
        if (length(part[i, j]) >= 12 && index(b, part[i, j])) { found[++n] = i; break }
    return n
}

# give_quotes: each definition to the sentences that it quotes
function give_quotes(    q, n, i, k, m, taken, own) {
    for (q = 1; q <= quotes; q++) {
        n = pieces(said[q])
        for (i = 1; i <= n; i++) own[i] = piece[i]
        taken = 0
        for (i = 1; i <= n; i++) {
            m = nearest(own[i])
            for (k = 1; k <= m; k++) give(found[k], of[q], from[q])
            if (m) taken++
        }
        if (taken < n && from[q] ~ /^crates\/rules\//) print from[q] " quotes what no sentence says: " said[q] >"/dev/stderr"
    }
}

# give SENTENCE NAME PLACE: the definition stands under it, once
function give(i, d, p) {
    if ((i, d) in given) return
    given[i, d] = 1
    definitions[i] = definitions[i] (definitions[i] == "" ? "" : ", ") d
    places[i] = places[i] "\t" p
    if (!(p in first)) first[p] = i
}

# give_wrongs: each wrong reading to the sentence that its comment quotes, else to the first of the definition that it changes
function give_wrongs(    w, t, p, to) {
    for (w = 1; w <= wrongs; w++) {
        p = ""
        for (t = 1; t <= texts; t++)
            if (index(line[t], old[w]) && (at[t] == "rules/" wrong_at[w] || at[t] == "demands/" wrong_at[w])) {
                p = where[t] ":" name[t]
                break
            }
        if (p == "") print "the wrong reading " label[w] " changes no definition" >"/dev/stderr"
        to = quoted(w)
        if (!to) to = first[p] ? first[p] : hand_first(of_place(p))
        if (to) refused[to] = joined_by(refused[to], "`" label[w] "` (" table[w] ")")
        else unquoted(of_place(p), "`" label[w] "` (" table[w] ")")
    }
}

# hand_first DEFINITION: the first sentence that names it by hand, or 0
function hand_first(d,    i) {
    for (i = 1; i <= sentences; i++) if (index(by_hand[i], d)) return i
    return 0
}

# of_place FILE:NAME: how READING names it
function of_place(p,    a) { split(p, a, ":"); return place(a[1], a[2]) }

# unquoted DEFINITION READING: a wrong reading of a definition that quotes no sentence
function unquoted(d, r) {
    if (!(d in without)) { without[d] = ""; order[++homes] = d }
    without[d] = joined_by(without[d], r)
}

function joined_by(a, b) { return a == "" ? b : (b == "" ? a : a ", " b) }

# quoted W: the sentence that the comment of a wrong reading quotes, or 0
function quoted(w,    n, i, q, m, k, got) {
    n = split(heard[w], q, "\t")
    got = 0
    for (i = 2; i <= n && !got; i++) {
        m = pieces(q[i])
        for (k = 1; k <= m && !got; k++) if (length(piece[k]) > 5 && nearest(piece[k])) got = found[1]
    }
    return got
}

function write_all(    b, i) {
    for (b = 1; b <= blocks; b++) {
        i = block[b]
        if (i) write_one(i)
        else { if (b > 1 && block[b - 1] && plain[b] ~ /^#/) print ""; print plain[b] }
    }
    print ""
    print "# Wrong readings of definitions that quote no sentence"
    print ""
    for (i = 1; i <= homes; i++) wrap("- ", "  ", order[i] ": " without[order[i]])
}

# titled_as CASE: how READING names it
function titled_as(c,    a, n) {
    c = titled[c]
    if (sub(/^cases\./, "", c)) return "`" c "`"
    n = split(c, a, ".")
    return "`" a[n] "` of `" a[1] "/" a[2] "/" a[3] "`"
}

# worked I: the three shortest worked cases that come to a definition of the sentence, and how many more do
function worked(i,    p, n, j, c, m, k, one, all, best, out) {
    n = split(places[i], p, "\t")
    split("", one)
    for (j = 2; j <= n; j++) {
        m = split(reached[p[j]], c, " ")
        for (k = 1; k <= m; k++) if (!(c[k] in one)) { one[c[k]] = 1; all++ }
    }
    for (j = 1; j <= 3 && j <= all; j++) {
        best = -1
        for (k in one) if (best < 0 || k + 0 < best) best = k + 0
        out = joined_by(out, titled_as(best))
        delete one[best]
    }
    return out (all > 3 ? " and " all - 3 " more" : "")
}

function write_one(i,    all, cases) {
    wrap("- ", "  ", text[i])
    all = joined_by(made_alone(definitions[i], by_hand[i]), by_hand[i])
    if (all != "") wrap("  - ", "    ", all)
    if (remark[i] != "") wrap("  - ", "    ", remark[i])
    if (places[i] != "" && (cases = worked(i)) != "") wrap("  - ", "    ", "worked: " cases)
    if (refused[i] != "") wrap("  - ", "    ", "refused: " refused[i])
    if (all == "" && remark[i] == "") print "a sentence without definition or remark: " text[i] >"/dev/stderr"
}

# made_alone MADE HAND: those of the first list that the second does not name
function made_alone(made, hand,    n, d, i, out) {
    n = split(made, d, ", ")
    out = ""
    for (i = 1; i <= n; i++) if (!index(hand, d[i])) out = joined_by(out, d[i])
    return out
}
