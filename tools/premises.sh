#!/bin/sh
# premises.sh: every premise of a theorem that docs/DEMANDS.md names, and of every statement in a proofs/Cited, is plain data, the trace,
# what a call's contract allows or a fact of the types, or it stands in tools/premises/table.txt with a proved witness that it can be met.
# Reads the statements of the crates and the page; proves nothing and needs no kit. A line for each premise that is in the table: theorem,
# crates, premise. The last line is 'N passed, M failed'.
set -eu
. "$(dirname "$0")/words.sh"
no_words "$@"
cd "$(dirname "$0")/.."
page=docs/DEMANDS.md
work=target/premises
mkdir -p "$work"

# Where a theorem is looked for: the statements about the calls, and what was read from the source. One that is not there is a law of the
# crates below; a law below that has a theorem's name is what that one rests on, and no statement of its own.
stated='demands_engine demands_door demands_rolling demands_recall demands_referee door door_rolling door_c door_rolling_c'
below='demands recording recall card checker remember cues reading rules judge streams door_bench door_bench_c rolling memory rows'

# files CRATE..: their statements
files() {
    for crate; do
        for file in "crates/$crate/proofs"/*.antt; do [ ! -f "$file" ] || echo "$file"; done
    done
}

# premises FILE..: for each public statement a line for each premise, and a last one for what it says: name, crate, kind, text, and the
# names that are bound by then, by tabs. A premise of a module is one of each statement in it. Fields of records are left out.
premises() {
    awk '
    FNR == 1 { flush(); depth = 0; header = "" }
    /^ *--/ || /^ *$/ { next }
    {
        match($0, /^ */)
        n = RLENGTH
        text = substr($0, n + 1)
        if (header != "") {
            header = header " " text
            headed()
            next
        }
        if (name != "") {
            if (n > at) { type = type " " text; next }
            flush()
        }
        while (depth && level[depth] >= n) depth--
        if (text ~ /^module _/ || text ~ /^(pub )?(record|data) [^{]/) {
            kinds = text ~ /^module/ ? "module" : "record"
            header = text
            hat = n
            headed()
        } else if (text ~ /^pub [^ ]+ :/) {
            name = text
            sub(/^pub /, "", name)
            sub(/ :.*/, "", name)
            type = text
            sub(/^pub [^ ]+ : ?/, "", type)
            at = n
            crate = FILENAME
            sub(/^crates\//, "", crate)
            sub(/\/.*/, "", crate)
        }
    }
    END { flush() }

    # a header that is whole opens a block
    function headed() {
        if (header !~ /(^| )where$/) return
        depth++
        level[depth] = hat
        kind[depth] = kinds
        sub(/ *where$/, "", header)
        sub(/^module _ */, "", header)
        given[depth] = header
        header = ""
    }

    function flush(    i, j, before, n, t, d, k, part) {
        if (name == "") return
        if (!(depth && kind[depth] == "record")) {
            before = ""
            names = " "
            for (i = 1; i <= depth; i++) if (kind[i] == "module") before = before " " given[i]
            if (before != "" && !bound(spaced(before))) said("premise", before)
            n = split(spaced(type), t, " ")
            d = 0
            k = 1
            part[1] = ""
            for (i = 1; i <= n; i++) {
                if (t[i] == "(" || t[i] == "{") d++
                if (t[i] == ")" || t[i] == "}") d--
                if (t[i] == "→" && d == 0) part[++k] = ""
                else part[k] = part[k] " " t[i]
            }
            for (j = 1; j < k; j++) if (!bound(spaced(part[j]))) said("premise", part[j])
            inside(spaced(part[k]))
            said("says", part[k])
        }
        name = ""
    }

    # a premise of a part of what is said; that something is not so has none
    function inside(s,    n, t, i, j, d, from, text) {
        n = split(s, t, " ")
        d = 0
        for (i = 1; i <= n; i++) {
            if (t[i] == "(" || t[i] == "{") from[++d] = i + 1
            else if (t[i] == ")" || t[i] == "}") d--
            else if (t[i] ~ /\.$/) from[d] = i + 1
            else if (t[i] == "→" && d) {
                text = ""
                for (j = from[d]; j < i; j++) text = text " " t[j]
                if (t[i + 1] != "⊥" && !bound(text)) said("premise", text)
                from[d] = i + 1
            }
        }
    }

    # bound(S): S is a row of (names : type) or {names : type}; then each type is said
    function bound(s,    n, t, i, j, d, colon, types, text) {
        n = split(s, t, " ")
        d = 0
        for (i = 1; i <= n; i++) {
            if (t[i] == "(" || t[i] == "{") {
                if (++d == 1) { colon = 0; text = "" }
            } else if (t[i] == ")" || t[i] == "}") {
                if (--d == 0) {
                    if (!colon) return 0
                    types = types "\t" text
                    continue
                }
            } else if (d == 0) return 0
            if (d == 1 && t[i] == ":" && !colon) colon = 1
            else if (colon) text = text " " t[i]
            else if (t[i] !~ /^[({]$/) names = names t[i] " "
        }
        n = split(types, t, "\t")
        for (j = 2; j <= n; j++) said("premise", t[j])
        return n > 1
    }

    function spaced(s) {
        gsub(/[(]/, " ( ", s)
        gsub(/[)]/, " ) ", s)
        gsub(/[{]/, " { ", s)
        gsub(/[}]/, " } ", s)
        return s
    }

    # the rolling card has its splicer and its memory in a field: the text is that of the others
    function said(how, s) {
        gsub(/ +/, " ", s)
        gsub(/[(] /, "(", s)
        gsub(/ [)]/, ")", s)
        gsub(/[{] /, "{", s)
        gsub(/ [}]/, "}", s)
        gsub(/[)] \. /, "). ", s)
        while (match(s, /[)] \.[a-z0-9]/)) s = substr(s, 1, RSTART) substr(s, RSTART + 2)
        gsub(/\.(splicer|core)/, "", s)
        sub(/^ /, "", s)
        sub(/ $/, "", s)
        print name "\t" crate "\t" how "\t" s "\t" names
    }' "$@"
}

# left: of those lines the premises that are none of the four, once for each crate
left() {
    awk -F '\t' '
    BEGIN {
        words("ℕ List Bool Input RollInput Memory Made Result Seen RollSeen Request Refusal Call RollingCall Loans Row Event", data)
        # what C can hand in, as plain records of words below 2^32 and bytes
        words("Handed Name Judged", data)
        # the stage of a referee and what is lent to it: Fresh, Fed, BegunInC and FedInC say what these are
        words("Referee Lent", data)
        # what the reads of a program answered, and why it ends
        words("Came Stop", data)
        words("Record Act Rolling Cue Stream Splicer Both Recollection Reply Answer engine.Input door-calls.Input engine.Result", data)
        # what a contract speaks of, as the toolchain has it
        handed = "Type 1|Lfts [0-9]+|Bor [(]List ℕ[)]|Ura M|Logic 𝓤|store[.]Memory → SProp 𝓤|Routine → Fun 𝓤"
        handed = "^(" handed "|(Args|Res) [a-z-]+[.]signature κs|AtExit [a-z-]+[.]ended κs)$"
        # the trace: fresh, then any calls, each result one that its contract allows
        words("Trace engine.Trace More Point Leads Run Beside FromFresh", trace)
        # what a contract allows: the code is proved to meet it, and Cited holds it to the source
        words("Allowed AllowedAt Counts Primary ReadsMux ReadsFeed ReadsAir ReadsDue ReadsStep ReadsSessions Pages", trace)
        words("ReadsList WritesList", trace)
        words("Tells TellsFresh Remembers Forgets Recollects Judges Finds", trace)
        # a referee from its fresh on, then any pieces; what its end and its due answer
        words("Fresh Fed BegunInC FedInC Ends Dues", trace)
        # what may stand in one of these beside names that are bound: then it is of any calls, of that kind
        words("an_open a_close a_message a_tick a_move a_cue a_known an_instant a_reading made ++ ∷", among)
        words(".words .bytes .counter .memory .log left late_of log_after pairs", among)
        # what the types say of an input: tied to them by Cited
        words("Typed engine.Typed door-calls.Typed RollTyped Byte Bytes Wired", types)
    }
    $3 == "premise" && !plain($4) && !traced($4, $5) && !typed($4, $5) { print $1 "\t" $2 "\t" $4 }

    # apart(S): each projection a word of its own, as m .words
    function apart(s,    out) {
        while (match(s, /[a-z0-9)]\.[a-z]/)) {
            out = out substr(s, 1, RSTART) " "
            s = substr(s, RSTART + 1)
        }
        return out s
    }

    function words(s, set,    n, t, i) {
        n = split(s, t, " ")
        for (i = 1; i <= n; i++) set[t[i]] = 1
    }

    # every word of it is a type of data
    function plain(s,    n, t, i) {
        if (s ~ handed) return 1
        gsub(/[(){}]/, " ", s)
        n = split(s, t, " ")
        for (i = 1; i <= n; i++) if (!(t[i] in data)) return 0
        return 1
    }

    function is_bound(word, names) { return index(names, " " word " ") > 0 }

    # of any calls: a number, or an empty list, would leave some out; what the check of recordings, and a referee at its end and of what is
    # due, promise is one equation each
    function traced(s, names,    n, t) {
        sub(/^[rs] ≡ words_of [(]checked l[)]$/, "Finds l", s)
        sub(/^v ≡ verdict_words [(]end_by [(]stage_in t.stage[)][)]$/, "Ends v t", s)
        sub(/^i ∷ n ∷ \[\] ≡ part_of [(]stage_in t.stage[)]$/, "Dues i n t", s)
        s = apart(s)
        gsub(/[(){}]/, " ", s)
        n = split(s, t, " ")
        return t[1] in trace && rest_bound(t, 2, n, names)
    }

    # of any inputs
    function typed(s, names,    n, t, i) {
        # a name is an array
        if (s == "length name ≡ 32") return is_bound("name", names)
        gsub(/[(){}]/, " ", s)
        n = split(s, t, " ")
        if (n == 3 && t[2] == "<" && t[3] == "4294967296") return is_bound(t[1], names)
        i = t[1] == "All" ? 2 : 1
        return t[i] in types && rest_bound(t, i + 1, n, names)
    }

    function rest_bound(t, from, n, names,    i) {
        for (i = from; i <= n; i++) if (!(t[i] in among) && !is_bound(t[i], names)) return 0
        return 1
    }' "$@"
}

# the page, and behind it the table, a row for each block
{
    cat "$page"
    printf '\n## Premises\n\n'
    awk '
    /^#/ { next }
    /^[a-z]+: / { key = $1; sub(/^[a-z]+: /, ""); value[key] = $0; next }
    /^  / { sub(/^ +/, ""); value[key] = value[key] " " $0; next }
    /^$/ { row() }
    END { row() }
    function row() {
        if (value["premise:"] == "") return
        print "| " value["premise:"] " | " value["theorems:"] " | " value["says:"] " | " value["witness:"] " |"
        value["premise:"] = ""
    }' tools/premises/table.txt
} >"$work/page"
page=$work/page

# named: the names in backticks above the section "Premises"
named() {
    awk '
    /^## Premises$/ { exit }
    {
        n = split($0, part, "`")
        for (i = 2; i <= n; i += 2) if (part[i] ~ /^[a-z][A-Za-z0-9_]*(-[A-Za-z0-9_]+)*$/) print part[i]
    }' "$page" | sort -u
}

# table: of each row for each theorem 'row', theorem and premise, and for each witness 'witness', its name and its file or crate, by tabs
table() {
    awk '
    /^## / { on = $0 == "## Premises" }
    !on || !/^\| `/ { next }
    {
        split($0, cell, " [|] ")
        premise = quoted(cell[1], 1)
        for (k = 1; (theorem = quoted(cell[2], k)) != ""; k++) print "row\t" theorem "\t" premise
        for (k = 1; k == 1 || quoted(cell[4], k) != ""; k += 2) print "witness\t" quoted(cell[4], k) "\t" quoted(cell[4], k + 1)
    }

    # the k-th text in backticks
    function quoted(s, k,    n, part) {
        n = split(s, part, "`")
        return 2 * k <= n ? part[2 * k] : ""
    }' "$page"
}

named >"$work/names"
premises $(files $stated) >"$work/stated"
premises $(files $below) >"$work/below"
premises $(files $stated $below | grep '/Cited\.antt$') >"$work/cited"

# the statements of the names: those about the calls, or else the laws below; and all that was read from the source
awk -F '\t' -v names="$work/names" -v stated="$work/stated" '
BEGIN {
    while ((getline line <names) > 0) wanted[line] = 1
    while ((getline line <stated) > 0) {
        split(line, cell, "\t")
        if (cell[1] in wanted) { found[cell[1]] = 1; print line }
    }
}
$1 in wanted && !($1 in found)' "$work/below" | cat - "$work/cited" >"$work/statements"
cut -f 1 "$work/statements" | sort -u >"$work/found"
left "$work/statements" | sort -u >"$work/left"
cut -f 1,3 "$work/left" | sort -u >"$work/premises"
table >"$work/table"
sed -n 's/^row	//p' "$work/table" | sort >"$work/rows"

passed=0
failed=0
wrong() {
    echo "premises: $*: FAILED"
    failed=$((failed + 1))
}

# a name with a hyphen is a theorem's: each is stated; one with an underline may also be a crate's, a function's or a definition's
while read -r name; do
    case $name in
    *-*) grep -qx -e "$name" "$work/found" || wrong "no statement $name" ;;
    *_*)
        grep -qx -e "$name" "$work/found" || [ -d "crates/$name" ] ||
            git grep -qE "fn $name\(|^ *((abbrev|unfoldable|pub) )*$name :" -- 'crates/*/src/*.rt' 'crates/*/specs/*.antt' ||
            wrong "no statement, crate, function or definition $name"
        ;;
    esac
done <"$work/names"

# each premise that is left has a row, and each row a premise
sort -u "$work/rows" >"$work/once"
while IFS='	' read -r theorem premise; do
    crates=$(awk -F '\t' -v t="$theorem" -v p="$premise" '$1 == t && $3 == p { printf "%s%s", n++ ? ", " : "", $2 }' "$work/left")
    if grep -qxF -e "$theorem	$premise" "$work/once"; then
        echo "premises: $theorem: $crates: $premise"
        passed=$((passed + 1))
    else
        wrong "$theorem: $crates: $premise: not in tools/premises/table.txt"
    fi
done <"$work/premises"
while IFS='	' read -r theorem premise; do
    grep -qxF -e "$theorem	$premise" "$work/premises" || wrong "$theorem: in tools/premises/table.txt, and no premise: $premise"
done <"$work/once"
[ "$(wc -l <"$work/rows")" -eq "$(wc -l <"$work/once")" ] || wrong 'a row stands twice'

# is_stated NAME PLACE: the name is stated in the file, which the crate's Lib lists and so the prover checks, or somewhere in the crate
is_stated() {
    case $2 in
    */*)
        [ -f "crates/$2.antt" ] && grep -qx -e "pub mod ${2##*/}" "crates/${2%/*}/Lib.antt" && grep -qE -e "^ *pub $1 :" "crates/$2.antt"
        ;;
    *) [ -d "crates/$2/proofs" ] && cat "crates/$2/proofs"/*.antt | grep -qE -e "^ *pub $1 :" ;;
    esac
}

# each row has a witness, which is stated where the row says
sed -n 's/^witness	//p' "$work/table" | sort -u >"$work/witnesses"
while IFS='	' read -r witness place; do
    if [ -n "$witness" ] && [ -n "$place" ] && is_stated "$witness" "$place"; then
        passed=$((passed + 1))
    else
        wrong "no witness '$witness' of '$place'"
    fi
done <"$work/witnesses"
echo "$passed passed, $failed failed"
[ "$failed" -eq 0 ]
