# made.awk: a crate's functions with contracts and edits, from the stream of tools/promises.sh; errors to standard error

/^source / { file = $2; said = ""; name = ""; next }
/^edit / { keep(); file = ""; edit = $2; what = ""; home = ""; place = ""; next }

{ line = substr($0, 2) }

# in a source: the comment above a function, its name, its contract
file != "" {
    texts++
    text[texts] = line
    where[texts] = file
    if (line ~ /^ *\/\/ /) { sub(/^ *\/\/ */, "", line); said = said (said == "" ? "" : " ") line; owner[texts] = name; next }
    # an attribute between comment and function
    if (attribute || line ~ /^ *#\[/) { attribute = line !~ /\] *$/ && line !~ /fn /; if (line !~ /fn /) { owner[texts] = name; next } }
    if (line ~ /^ *(#\[.*\] *)?(pub )?(const )?(unsafe )?(extern "C" )?(unsafe )?fn /) {
        name = line
        sub(/^.*fn /, "", name)
        sub(/[(<].*/, "", name)
        id = ++functions
        called[id] = name
        in_file[id] = file
        comment[id] = said
        is_public[id] = line ~ /pub |extern "C"/
        inside = 1
        current = id
    } else if (inside && line ~ /^ *(requires|ensures|decreases|where|measure) /) {
        clauses[current]++
        clause[current, clauses[current]] = squeezed(line)
        more = line !~ /\} *$/
    } else if (inside && more) {
        clause[current, clauses[current]] = clause[current, clauses[current]] " " squeezed(line)
        more = line !~ /\} *$/
    } else if (inside && line ~ /^ *\{ *$/) inside = 0
    owner[texts] = current
    said = ""
    next
}

# in an edit: what it says, and where its first text stands
edit != "" {
    if (line ~ /^# gate/) next
    if (line ~ /^# /) what = what (what == "" ? "" : " ") substr(line, 3)
    if (line ~ /^file: /) place = substr(line, 7)
    if (line ~ /^old: / && home == "" && line !~ /^old: (ghost )?use /) home = find(place, substr(line, 6))
}

END {
    keep()
    shown = 0
    for (i = 1; i <= functions; i++) {
        if (!clauses[i] && refused[i] == "") continue
        if (!shown++) print ""
        wrap("- ", "  ", "`" called[i] "`" (is_public[i] ? "" : " (private)") (comment[i] == "" ? "" : ": " comment[i]))
        for (k = 1; k <= clauses[i]; k++) show(clause[i, k])
        if (refused[i] != "") wrap("  - ", "    ", "refused: " refused[i])
    }
    if (others != "") {
        print ""
        print "Wrong definitions and statements that are refused:"
        print ""
        n = split(others, o, "\n")
        for (i = 1; i <= n; i++) wrap("- ", "  ", o[i])
    }
}

function squeezed(s) { gsub(/^ +| +$/, "", s); gsub(/  +/, " ", s); return s }

# show CLAUSE: a line of a contract, as code
function show(c) {
    gsub(/\{ */, "{ ", c)
    gsub(/ *\}/, " }", c)
    wrap("  - `", "    ", c "`")
}

function keep(    one) {
    if (edit == "") return
    one = "`" edit "`" (what == "" ? "" : ": " what)
    if (home == "missing") print crate "/" edit ": its text is in no file" >"/dev/stderr"
    else if (home ~ /^[0-9]+$/ && home > 0) refused[home] = refused[home] (refused[home] == "" ? "" : "; ") one
    else others = others (others == "" ? "" : "\n") one
    edit = ""
}

# find FILE TEXT: the function that it stands in; "other" for definitions and proofs
function find(f, s,    i) {
    if (f !~ /^src\//) return "other"
    for (i = 1; i <= texts; i++) if (where[i] == f && index(text[i], s)) return owner[i] == "" ? "other" : owner[i]
    return "missing"
}
