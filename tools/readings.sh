#!/bin/sh
# readings.sh [--all | LABEL..]: tries wrong readings of documents 01 and 02, edits of the definitions in crates/rules and crates/demands:
# those of crates/cases/readings, as the gate does; with --all those of crates/cases/more-readings too; or the named ones.
# Each edit names a table of the crate cases, and that table alone must refuse it: definitions and table are put into one crate of a scratch
# repository elsewhere, with no law and no other table beside them. The last line is 'N passed, M failed'.
set -eu
. "$(dirname "$0")/words.sh"
cd "$(dirname "$0")/.."
needs rt
case ${1:-} in
'') set -- crates/cases/readings/*.edit ;;
--all) set -- crates/cases/readings/*.edit crates/cases/more-readings/*.edit ;;
*)
    for label; do
        ls crates/cases/*readings/"$label.edit" >/dev/null 2>&1 || refuse "no reading '$label'"
    done
    set -- $(for label; do ls crates/cases/*readings/"$label.edit"; done)
    ;;
esac
apart
work=$room
log=target/readings/log
mkdir -p "$work/crates" target/readings

# crate_of TABLE: the name of its crate, and of no library of the kit
crate_of() { echo "table_$1" | tr 'A-Z' 'a-z'; }

# moved TABLE FILE: the text of a file, with all modules in the table's crate
moved() {
    sed -E "s/Rattle\.(rules|demands|cases)\.specs\./Rattle.$(crate_of "$1").specs./g" "$2"
}

# needed TABLE: the files of definitions and tables that it imports, directly or through others, and its own
needed() {
    awk -v first="crates/cases/specs/$1.antt" '
    BEGIN { visit(first) }
    function visit(file,    line, list, n, i, own) {
        if (file in seen) return
        seen[file] = 1
        print file
        n = 0
        while ((getline line <file) > 0) if (line ~ /^(pub )?use Rattle\.(rules|demands|cases)\.specs\./) list[++n] = line
        close(file)
        for (i = 1; i <= n; i++) if ((own = path(list[i])) != "") visit(own)
    }
    # path LINE: the file that an import names; none for a type of the code
    function path(line,    crate) {
        sub(/^(pub )?use Rattle\./, "", line)
        crate = line
        sub(/\..*/, "", crate)
        sub(/^[a-z]*\.specs\./, "", line)
        sub(/(\.\{| as ).*/, "", line)
        if (line ~ /^declared/) return ""
        gsub(/\./, "/", line)
        return "crates/" crate "/specs/" line ".antt"
    }'
}

# build TABLE: its crate
build() {
    crate=$work/crates/$(crate_of "$1")
    mkdir -p "$crate/specs/Follows" "$crate/must-fail"
    cp -R crates/rules/src "$crate/src"
    for file in $(needed "$1"); do moved "$1" "$file" >"$crate/specs/${file#crates/*/specs/}"; done
    ls "$crate/specs/Follows" | sed -n 's/\.antt$//p' | sed 's/^/pub mod /' >"$work/lib"
    if [ -s "$work/lib" ]; then mv "$work/lib" "$crate/specs/Follows.antt"; else rmdir "$crate/specs/Follows"; fi
    ls "$crate/specs" | sed -n 's/\.antt$//p' | sed 's/^/pub mod /' >"$work/lib"
    mv "$work/lib" "$crate/specs/Lib.antt"
    echo "$(crate_of "$1"):" >>"$work/crates.txt"
}

edits=0
for edit; do
    table=$(sed -n 's/^# table: //p' "$edit")
    [ -f "crates/cases/specs/$table.antt" ] || { echo "readings.sh: $edit names no table" >&2; exit 2; }
    [ -d "$work/crates/$(crate_of "$table")" ] || build "$table"
    moved "$table" "$edit" >"$work/crates/$(crate_of "$table")/must-fail/$(basename "$edit")"
    edits=$((edits + 1))
done

trial() { (cd "$work" && rt must-fail); }
watched "$log" "$edits" 'rt: must-fail*' trial || true
grep -q '^rt: must-fail' "$log" || tail -n 20 "$log" | cut -c 1-400
refused=0
for edit; do
    table=$(sed -n 's/^# table: //p' "$edit")
    label=$(basename "$edit" .edit)
    if grep -qF "rt: must-fail $(crate_of "$table")/$label.edit: refused, as it must be: ./specs/$table.antt:" "$log"; then
        refused=$((refused + 1))
    else
        echo "readings.sh: $label is not refused by $table"
    fi
done
echo "$refused passed, $((edits - refused)) failed"
[ "$refused" -eq "$edits" ]
