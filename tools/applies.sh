#!/bin/sh
# applies.sh: every edit of the repository (crates/*/*/*.edit: must-fail, more-edits, the readings of `cases`, wrong-runs) can still be made
# in the files that it names: each old text stands there once, and becomes another. It proves nothing and takes a second. A line for each
# that cannot. The last line is 'N passed, M failed'.
set -eu
. "$(dirname "$0")/words.sh"
no_words "$@"
cd "$(dirname "$0")/.."
work=target/applies
mkdir -p "$work"
find crates -name '*.edit' | sort >"$work/list"

# A reading of `cases` is made in the definitions, those of rules or of demands, or in a table, and names the table that is to refuse it.
# A text of wrong-runs may have several lines (tools/wrong-cards.sh).
LC_ALL=C awk '
function bad(why) {
    if (!found) print "applies: " substr(edit, 8, length(edit) - 12) ": BAD EDIT: " why
    found = 1
}
function is_there(file,    line, status) {
    status = (getline line <file)
    close(file)
    return status > 0
}
# the file with what earlier pairs of this edit made of it
function text_of(file,    line, text) {
    if (file in edited) return edited[file]
    if (!(file in texts)) {
        while ((getline line <file) > 0) text = text line "\n"
        close(file)
        texts[file] = text
    }
    return texts[file]
}
# puts the pair that was read into the first of the crates where its old text stands once
function put(    i, n, places, file, text, at, rest, why) {
    if (!is_pair) return
    is_pair = 0
    pairs++
    why = "is not in"
    n = split(crates, places, " ")
    for (i = 1; i <= n; i++) {
        file = "crates/" places[i] "/" path
        text = text_of(file)
        at = old == "" ? 0 : index(text, old)
        if (!at) continue
        rest = substr(text, at + length(old))
        if (index(rest, old)) { why = "is more than once in"; continue }
        edited[file] = substr(text, 1, at - 1) new rest
        if (old != new) changes++
        return
    }
    bad("an old text " why " " path)
}
function read_line(line) {
    if (line ~ /^old: /) { put(); old = substr(line, 6); part = "old" }
    else if (line ~ /^new:/) { new = substr(line, 5); sub(/^ /, "", new); part = "new"; is_pair = 1; if (!is_long) put() }
    else if (line ~ /^file: /) { put(); path = substr(line, 7); part = "" }
    else if (line ~ /^#/) { put(); part = ""; if (line ~ /^# table: /) table = substr(line, 10) }
    else if (is_long && part == "old") old = old "\n" line
    else if (is_long && part == "new") new = new "\n" line
}
{
    edit = $0
    found = pairs = changes = is_pair = 0
    old = new = path = part = table = ""
    split(edit, folders, "/")
    is_reading = folders[3] ~ /readings$/
    is_long = folders[3] == "wrong-runs"
    crates = is_reading ? "rules demands cases" : folders[2]
    while ((getline line <edit) > 0) read_line(line)
    close(edit)
    put()
    if (!pairs) bad("it has no old and new text")
    else if (!changes) bad("it changes nothing")
    if (is_reading && !is_there("crates/cases/specs/" table ".antt")) bad("it names no table")
    for (file in edited) delete edited[file]
    if (found) failed++
}
END {
    print "applies: " NR - failed " of " NR " edits can be made"
    print (failed ? "0 passed, " failed : "1 passed, 0") " failed"
    exit failed > 0
}' "$work/list"
