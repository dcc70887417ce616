#!/bin/sh
# docs.sh: what pages say of the house: every link leads to a file and a heading that are there, and so does a page with a heading in quotes
# behind it; every name in backticks exists: a path, a script, a function, a definition, a theorem, an edit, a macro; every cost that a
# header names is in a table of MEASURES, and every figure of a page there or in header, code or sentences; every decision that is named is
# one. Notes and decisions speak of what was, so of these only lines, links and headings are held. And no line above 140 columns, in pages,
# headers, C, Rust and scripts (tools/shape.sh holds those of .rt and .antt). A line for each that is wrong. The last line is 'N passed, M
# failed'.
set -eu
. "$(dirname "$0")/words.sh"
no_words "$@"
cd "$(dirname "$0")/.."
work=target/docs
mkdir -p "$work"
LC_ALL=C
export LC_ALL
# what stands in tools/demands, promises and measures is part of pages that are made
pages=$(git ls-files '*.md' | grep -vE '^(target|tools/demands|tools/promises|tools/measures)/')

# anchors PAGE: the headings of a page as a browser names them
anchors() {
    sed -n 's/^##* //p' "$1" | tr 'A-Z' 'a-z' | sed 's/[^a-z0-9 _-]//g; s/ /-/g'
}

# lines: those above 140 columns; characters are counted, not bytes. Code and links that cannot be cut are no exception. Not held are what
# has one thing to a line by its form: edits, scenarios, wireshark/messages.txt, law/equal.txt; and what is recorded
lines() {
    git ls-files '*.md' '*.h' '*.c' '*.rs' '*.sh' '*.awk' '*.lua' '*.css' '*.js' '*.html' '*.toml' '*.service' '*.1' .ci/run crates.txt \
        tools/reading/sentences.txt tools/premises/table.txt >"$work/held"
    xargs awk '
    { s = $0; gsub(/[\200-\277]/, "", s) }
    length(s) > 140 { print FILENAME ":" FNR " has " length(s) " columns" }' <"$work/held"
}

# links PAGE: each target of a link with the page's folder
links() {
    awk '
    /^    / || /^```/ { next }
    {
        gsub(/`[^`]*`/, "")
        while (match($0, /\]\([^)]*\)/)) { print substr($0, RSTART + 2, RLENGTH - 3); $0 = substr($0, RSTART + RLENGTH) }
    }' "$1" | grep -vE '^(https?|mailto):' || true
}

# broken: links that lead nowhere
broken() {
    for page in $pages; do
        links "$page" | while IFS= read -r link; do
            file=${link%%#*}
            to=$page
            [ -z "$file" ] || to=$(dirname "$page")/$file
            if [ ! -e "$to" ]; then
                echo "$page: no $link"
            elif [ "$link" != "$file" ] && ! anchors "$to" | grep -qxF -- "${link#*#}"; then
                echo "$page: no heading $link"
            fi
        done
    done
}

# sections: headings that a text names, in quotes behind a page, and that the page has not; the beginning of one is enough
sections() {
    git ls-files '*.md' '*.h' '*.c' '*.rs' '*.sh' | xargs -d '\n' grep -oE '[A-Za-z0-9-]+\.md\)?, "[^"]+"' | tr -d ')' |
        while IFS= read -r line; do
            where=${line%%:*} named=${line#*:}
            page=${named%%,*} heading=${named#*, \"}
            found=$(git ls-files "$page" "*/$page" | tr '\n' ' ')
            # shellcheck disable=SC2086
            [ -n "$found" ] && grep -q "^##* ${heading%\"}" $found || echo "$where: $page has no \"${heading%\"}\""
        done
}

# words: every word of the sources, and every path with its last parts
words() {
    git ls-files | grep -vE '\.(md|png|rec|pcap|pcapng|patch)$' | xargs -d '\n' grep -IhoE "[A-Za-z0-9_][A-Za-z0-9_'·-]*" | sort -u
    git ls-files | sed 's/\.[a-z]*$//' | tr '/' '\n' | sort -u
}

# names PAGE: what stands in backticks, in parts that must exist: words of two letters and more; whole commands and examples are not held
names() {
    awk -v page="$1" '
    /^    / { next }
    /^```/ { on = !on; next }
    on { next }
    {
        while (match($0, /`[^`]+`/)) {
            one = substr($0, RSTART + 1, RLENGTH - 2)
            $0 = substr($0, RSTART + RLENGTH)
            if (one ~ /^[A-Za-z][A-Za-z0-9_.:\/-]*$/) print page ":" FNR "\t" one
        }
    }' "$1"
}

# owned: each crate with what is its own: crate::function, and crate/edit
owned() {
    git ls-files 'crates/*/src/*.rt' | xargs grep -oE '(fn|struct|enum|const|mod) [A-Za-z_0-9]+' |
        sed -E 's#^crates/([a-z_]+)/[^:]*:[a-z]+ (.*)#\1::\2#'
    git ls-files 'crates/*.edit' | sed -E 's#^crates/([a-z_]+)/.*/([^/]*)\.edit$#\1/\2#'
}

# elsewhere: of names in backticks the functions and edits of a crate that it has not, though another may; model names its own modules so
elsewhere() {
    owned | sort -u >"$work/owned"
    ls crates >"$work/crates"
    awk -F '\t' '
    FILENAME ~ /crates$/ { crates[$1] = 1; next }
    FILENAME ~ /owned$/ { known[$1] = 1; next }
    $1 ~ /^model\// || $2 ~ /\/(src|specs|proofs|must-fail|more-edits|readings|more-readings)$/ { next }
    $2 ~ /^[a-z_]+(::|\/)[A-Za-z_0-9]+$/ { one = $2; sub(/(::|\/).*/, "", one); if (one in crates && !($2 in known)) print $1 ": no " $2 }
    ' "$work/crates" "$work/owned" "$work/names"
}

# undecided: numbers of decisions that are named anywhere, and of which DECISIONS has none
undecided() {
    sed -nE 's/^(### |- )([0-9]+)[.:] .*/\2/p' docs/DECISIONS.md >"$work/decided"
    git ls-files | grep -vE '\.(png|rec|pcap|pcapng)$' | xargs -d '\n' grep -IoE 'DECISIONS,? [0-9]+((, | and | to )[0-9]+)*' |
        awk -F ':' -v decided="$work/decided" '
        BEGIN { while ((getline one <decided) > 0) known[one] = 1 }
        {
            n = split($2, each, /[^0-9]+/)
            for (i = 1; i <= n; i++) if (each[i] != "" && !(each[i] in known)) print $1 ": no decision " each[i]
        }'
}

# figures: numbers of 20 and more that the headers' costs name and no table of MEASURES has; some and up to are no figures of a table
figures() {
    tr -d ',' <docs/MEASURES.md | grep -oE '[0-9]+' | sort -u >"$work/measured"
    awk '/Cost: /, /Threads: /' include/*.h |
        sed -E 's/.*Cost: //; s/Threads: .*//; s/(some|up to) [0-9,]+( (KB|million))?//g' | tr -d ',' |
        grep -oE '(^|[^A-Za-z0-9_.])[0-9]{2,}' | grep -oE '[0-9]+' | sort -u |
        awk -v measured="$work/measured" '
        BEGIN { while ((getline one <measured) > 0) known[one] = 1 }
        $1 >= 20 && !($1 in known) { print "no table of docs/MEASURES.md has " $1 ", which a header names" }'
}

# minutes: README's of the gate, if they are not those of MEASURES
minutes() {
    of=$(sed -nE 's/.*together some ([0-9]+) minutes.*/\1/p' docs/MEASURES.md)
    grep -q " some $of minutes on two cores" README.md || echo "README.md: the gate takes some $of minutes by docs/MEASURES.md"
}

# taken: figures of 100 and more in the pages for drivers, bench and proof readers that neither MEASURES nor header, code or sentence has.
# The rollover in seconds, a port, a year and a byte of an example are the pages' own; examples are not held
taken() {
    {
        cat "$work/measured"
        cat include/*.h crates/*/src/*.rt tools/reading/sentences.txt | tr -d ',_' | grep -oE '[0-9]+'
        printf '47721\n8168\n2106\n2426\n'
    } | sort -u >"$work/figures"
    for page in README.md docs/INTEGRATION.md docs/BENCH.md docs/DEMANDS.md docs/TOUR.md; do
        sed -E 's/^    .*//; s/DECISIONS [0-9, ]+//' "$page" | grep -noE '(^|[ (])[0-9][0-9,]*[0-9]{2}([ .,;:)]|$)' | tr -d ' ,.;)(' |
            awk -F : -v page="$page" -v figures="$work/figures" '
            BEGIN { while ((getline one <figures) > 0) known[one] = 1 }
            $2 >= 100 && !($2 in known) { print page ":" $1 ": " $2 " is in no table, header, code or sentence" }'
    done
}

words | sort -u >"$work/words"
lines >"$work/wrong"
broken >>"$work/wrong"
sections >>"$work/wrong"
figures >>"$work/wrong"
undecided >>"$work/wrong"
taken >>"$work/wrong"
minutes >>"$work/wrong"
for page in $(echo "$pages" | grep -vE '^(docs/notes/|CHANGELOG|docs/DECISIONS|docs/PORT)'); do names "$page"; done >"$work/names"
awk -F '\t' '
NR == FNR { known[$1] = 1; next }
{
    one = $2
    sub(/\.(antt|rt|rs|sh|c|h|md|txt|edit|a|lua|awk|1|out|rec|py|html|json)$/, "", one)
    n = split(one, p, /::|[.\/:]/)
    for (i = 1; i <= n; i++) if (length(p[i]) > 1 && !(p[i] in known)) { print $1 ": no " $2; next }
}' "$work/words" "$work/names" >>"$work/wrong"
elsewhere >>"$work/wrong"
sed 's/^/docs: /; s/$/: FAILED/' "$work/wrong"
failed=$(wc -l <"$work/wrong")
echo "$(wc -l <"$work/names") passed, $failed failed"
[ "$failed" -eq 0 ]
