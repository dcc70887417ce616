# list.awk [flat=1]: the lines of tools/demands.sh, kind, name and words, as a list under headings. The requests of document 02 and what
# comes behind them stand under one heading, none with flat=1, each before its first theorem
BEGIN { FS = "\t" }
$1 == "heading" { flush(); held = $2; next }
$1 == "theorem" {
    flush()
    part = ""
    if (flat || asked || held ~ /^Document 02, CR [0-9]+$/) {
        part = held
        sub(/^Document 02, /, "", part)
        if (part != "") part = "**" part ".** "
        held = asked++ || flat ? "" : "Document 02, by its requests, and the reads"
    }
    if (held != "") printf "\n### %s\n", held
    held = ""
    names = part "`" $2 "`"
    words = $3
}
$1 == "with" { names = names (names == "" ? "" : ", ") "`" $2 "`" }
END { flush() }

function flush() { if (names != "") wrap("- ", "  ", names ": " words); names = "" }
