#!/bin/sh
# try-archive.sh [OUT.a]: an UNPROVED x86-64 archive of the functions that crate `door_c` exports, of crate `door` and all it reaches, from
# their sources as they stand, to measure and try code before it is proved; CRATE names another crate than `door`. Without OUT.a:
# target/try/libdoor.a, and librolldoor.a and libbench.a beside it. A tool for development: no part of the gate, and no product.
#   ARCHIVE=target/try/libdoor.a sh tools/measure.sh counts     instructions of its calls
#   SPLICER_LIB=target/try                                      for cargo in bindings/ and model/beside/
# How: `rt try` compiles a program whose main calls each of these functions once, on nothing, and its LLVM module is kept. The C form of
# each is written behind the module as the kit writes it for an archive: a slice comes as a pointer and a length, all else as it is. What
# `rt try` has checked when it runs is assumed, as in an archive. The module is then compiled as the kit compiles an archive's; what
# `rt try` writes into fresh memory stays in it, so counts come out a little higher.
set -eu
. "$(dirname "$0")/words.sh"
case $#${1:-} in
0 | 1*.a) ;;
*) refuse "only OUT.a, not '$*'" ;;
esac
needs rt
find_kit
cd "$(dirname "$0")/.."
door=${CRATE:-door}
if [ $# -eq 0 ]; then
    CRATE=door sh tools/try-archive.sh target/try/libdoor.a
    CRATE=door_rolling sh tools/try-archive.sh target/try/librolldoor.a
    CRATE=door_bench sh tools/try-archive.sh target/try/libbench.a
    exit
fi
out=$1
target=x86_64-unknown-linux-gnu
work=$PWD/target/try
[ "$door" = door ] || work=$work-$door
mkdir -p "$work"
apart
trial=$room/repo
here=$PWD

fail() {
    echo "try-archive.sh: $*" >&2
    exit 1
}

# the repository with one more crate, a program
mkdir -p "$trial/.git" "$trial/crates/trial/src"
{ cat crates.txt && echo "trial: $(reached "$door" | tr '\n' ' ')"; } >"$trial/crates.txt"
for part in crates/*/src crates/*/specs; do
    mkdir -p "$trial/$(dirname "$part")"
    cp -R "$part" "$trial/$part"
done

# The exported functions by the source, a line each: its name, then each parameter's type without spaces, names of lifetimes and its name.
# FUNCTION(PARAMETERS) may stand in one line or in several; an array of N has a `;` in it, a slice has none.
source=crates/${door}_c/src/lib.rt
[ -f "$source" ] || source=crates/$door/src/lib.rt
awk '
    /^#\[unsafe\(no_mangle\)\]/ { on = 1; text = ""; next }
    on { sub(/\/\/.*/, ""); text = text " " $0; if (index(text, ")")) { say(); on = 0 } }
    function say(    n, i, words, line) {
        line = text
        sub(/^.*fn +/, "", line)
        sub(/[(<].*/, "", line)
        sub(/^[^(]*\(/, "", text)
        sub(/\).*/, "", text)
        n = split(text, words, ",")
        for (i = 1; i <= n; i++)
            if (words[i] ~ /:/) {
                sub(/^[^:]*: */, "", words[i])
                sub(/&'"'"'[a-z]+ +/, "\\&", words[i])
                sub(/mut +/, "mut_", words[i])
                gsub(/ /, "", words[i])
                line = line " " words[i]
            }
        print line
    }' "$source" >"$work/exported"
[ -s "$work/exported" ] || fail "the door exports nothing"

# main: a call of each on nothing: empty slices, arrays of zeros, zeros
{
    echo '#![tactic(auto)]'
    # the names of lengths
    awk '/^use / { on = 1 } on || /^(pub )?const [A-Z_]+: usize = .*;$/ { print } /;$/ { on = 0 }' "$source"
    echo 'fn main() {'
    awk -v door="$door" '
    {
        call = ""
        for (i = 2; i <= NF; i++) {
            is_mut = sub(/^&mut_/, "\\&", $i)
            value = "0"
            if ($i ~ /^&\[.*;.*\]$/) { value = $i; sub(/^&\[[^;]*;/, "[0; ", value) }
            else if ($i ~ /^&\[/) value = "[]"
            if ($i ~ /^&/) value = "&" (is_mut ? "mut " : "") value
            call = call (i > 2 ? ", " : "") value
        }
        print "    " door "::" $1 "(" call ");"
    }' "$work/exported"
    echo '}'
} >"$trial/crates/trial/src/main.rt"

# its own run is on nothing too, and what it says of that is no matter
(cd "$trial/crates/trial" && sh "$here/tools/kept-module.sh" "$room" try --steps 1 </dev/null) >"$work/try.log" 2>&1 ||
    [ -f "$room/module.bc" ] || { cat "$work/try.log" >&2; fail "the sources do not compile"; }

# compiled FLAG..: the kit's clang, as the kit calls it for an archive
compiled() {
    "$kit/toolchain/bin/clang" --target=$target -march=x86-64 -ffunction-sections -fdata-sections -mllvm -trap-unreachable \
        -mllvm -no-trap-after-noreturn --no-default-config -no-canonical-prefixes -x ir "$@"
}

compiled -S -emit-llvm -O0 -Xclang -disable-llvm-passes "$room/module.bc" -o "$work/checked.ll"
# behind a check that fails nothing runs
awk '
    /^define .*@"rattle-llvm-checks::/ { on = 1 }
    !on || !/call void @llvm.trap\(\)/ { print }
    /^}/ { on = 0 }' "$work/checked.ll" >"$work/module.ll"

# behind the module: the C form of each; a struct that is returned goes through memory, its address first (one of more than 16 bytes)
awk -v list="$work/exported" -v door="$door" '
    BEGIN { inside = "^define internal .*@\"" door "::[a-z0-9_]+\"\\("; before = "^.*@\"" door "::" }
    BEGIN {
        while ((getline line < list) > 0) {
            n = split(line, types, " ")
            slices[types[1]] = ""
            for (i = 2; i <= n; i++)
                slices[types[1]] = slices[types[1]] (i > 2 ? " " : "") (types[i] ~ /^&(mut_)?\[[^;]*\]$/ ? 1 : 0)
        }
    }
    { print (/^define i32 @main\(\)/ ? "define internal i32 @main() {" : $0) }
    $0 ~ inside {
        name = $0
        sub(before, "", name)
        sub(/".*/, "", name)
        if (name in slices) { heads[name] = $0; order[++count] = name }
    }
    END {
        for (name in slices) if (!(name in heads)) exit 1
        for (i = 1; i <= count; i++) export(order[i])
    }
    function export(name,    head, back, types, n, i, wide, m, through, pars, args, body, k) {
        head = heads[name]
        back = head
        sub(/^define internal /, "", back)
        sub(/ *@".*/, "", back)
        sub(/^[^(]*\(/, "", head)
        sub(/\) #.*/, "", head)
        n = split(head, types, /, */)
        m = split(slices[name], wide, " ")
        through = n - m - wides(wide, m)
        if (through < 0 || through > 1 || (through && back != "void")) exit 1
        for (i = 1; i <= n; i++) {
            sub(/ %.*/, "", types[i])
            pars = pars (i > 1 ? ", " : "") types[i] " %a" i
            k = types[i]
            sub(/ .*/, "", k)
            args = args (i > 1 ? ", " : "") k " %a" i
        }
        k = back
        sub(/^.* /, "", k)
        print "\ndefine " (through ? "noundef ptr" : back) " @" name "(" pars ") #0 {"
        if (back == "void") {
            print "  call void @\"" door "::" name "\"(" args ")"
            print (through ? "  ret ptr %a1" : "  ret void")
        } else {
            print "  %r = call " back " @\"" door "::" name "\"(" args ")"
            print "  ret " k " %r"
        }
        print "}"
    }
    # wides LIST N: how many parameters are slices, each of which takes two
    function wides(wide, m,    i, sum) { sum = 0; for (i = 1; i <= m; i++) sum += wide[i]; return sum }
    ' "$work/module.ll" >"$work/door.ll" || fail "the door's functions are not those of the module"

compiled -c -Werror -fPIC -O3 "$work/door.ll" -o "$work/door.o"
mkdir -p "$(dirname "$out")"
rm -f "$out"
"$kit/toolchain/bin/llvm-ar" --format=gnu rc "$out" "$work/door.o"
echo "$out: NOT PROVED, $(wc -l <"$work/exported") functions: $(sed 's/ .*//' "$work/exported" | tr '\n' ' ')"
