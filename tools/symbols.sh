#!/bin/sh
# symbols.sh: the functions that each archive exports are those that its header declares, with the header's version in their names, those of
# the crate below whose requires and ensures its proofs/Cited goes through, and those that the Rust wrapper links; and the version of all
# that bears one is CHANGELOG's. One line for each difference.
# The last line is 'N passed, M failed'.
set -eu
. "$(dirname "$0")/words.sh"
no_words "$@"
needs rt
find_kit
cd "$(dirname "$0")/.."
work=target/symbols
rm -rf "$work"
mkdir -p "$work"
# the kit's clang is llvm-nm too, by that name
apart
ln -s "$kit/toolchain/bin/clang" "$room/llvm-nm"
passed=0
failed=0

# exported NAME: every global symbol that its archive defines
exported() {
    "$room/llvm-nm" --extern-only --defined-only --just-symbol-name "target/staticlib/lib$1.a" | sed '/:$/d; /^$/d'
}

# declared HEADER..: every function that is declared and has no body there
declared() {
    sed -nE '/^(static|typedef) /!s/^[a-z][A-Za-z0-9_ ]*[ *]([A-Za-z_][A-Za-z0-9_]*)\(.*/\1/p' "$@"
}

# cited CRATE: every function of which its Cited equates requires and ensures with something
cited() {
    awk '
    { text = text " " $0 }
    match($0, /\.(contracts|proofs)\.(«)?[a-z0-9_]+(»)? as [A-Za-z0-9_-]+$/) {
        split(substr($0, RSTART, RLENGTH), words, / as /)
        gsub(/^.*\.|«|»/, "", words[1])
        symbol[words[2]] = words[1]
    }
    END {
        for (alias in symbol) {
            n = split(text, parts, "[ (]" alias "\\.clauses ")
            requires = ensures = 0
            for (i = 2; i <= n; i++) {
                sub(/≡.*/, "", parts[i])
                if (parts[i] ~ /\.requires /) requires = 1
                if (parts[i] ~ /\.ensures /) ensures = 1
            }
            if (requires && ensures) print symbol[alias]
        }
    }' "crates/$1/proofs/Cited.antt"
}

# linked: every function that the Rust wrapper declares
linked() {
    find bindings/src -name '*.rs' -exec cat {} + | awk '
    /extern "C" \{/ { inside = 1; next }
    /^}/ { inside = 0 }
    inside && /link_name = "/ { split($0, parts, "\""); symbol = parts[2] }
    inside && match($0, /fn +[a-z0-9_]+/) { print symbol == "" ? substr($0, RSTART + 3, RLENGTH - 3) : symbol; symbol = "" }'
}

# same A B: the lists $work/A and $work/B are one; a line for each name that is not, or not as often, in the other
same() {
    LC_ALL=C comm -3 "$work/$1" "$work/$2" >"$work/differ"
    if [ ! -s "$work/$1" ]; then
        echo "symbols: nothing is in $1"
        failed=$((failed + 1))
    elif [ ! -s "$work/differ" ]; then
        passed=$((passed + 1))
    else
        awk -F '\t' -v a="$1" -v b="$2" '
            $1 != "" { print "symbols: " $1 " is in " a " and not in " b }
            $1 == "" { print "symbols: " $2 " is in " b " and not in " a }' "$work/differ"
        failed=$((failed + $(wc -l <"$work/differ")))
    fi
}

# list NAME COMMAND..: its lines in order, as $work/NAME
list() {
    sorted=$1
    shift
    "$@" >"$work/unsorted" && LC_ALL=C sort "$work/unsorted" >"$work/$sorted"
}

# versioned HEADER LIST PREFIX: each name of the list has the header's version behind the prefix
versioned() {
    version=$(sed -nE 's/^#define SPLICER_(BENCH_)?VERSION ([0-9]+)$/\2/p' "$1")
    if grep -v "^$3${version}_" "$work/$2" >"$work/differ"; then
        sed "s|\$| of $2 is none of version $version|; s/^/symbols: /" "$work/differ"
        failed=$((failed + $(wc -l <"$work/differ")))
    else
        passed=$((passed + 1))
    fi
}

# one_version: CHANGELOG's first is that of the header's macros, of the Rust crate and of the desk
one_version() {
    first=$(sed -n 's/^## \([0-9.]*\).*/\1/p' CHANGELOG.md | head -n 1)
    {
        sed -n 's/^#define SPLICER_VERSION_STRING "\(.*\)"/\1.0 splicer.h/p' include/splicer.h
        for package in bindings desk; do sed -n "s/^version = \"\(.*\)\"/\1 $package/p" $package/Cargo.toml; done
    } | awk -v first="$first" '
        $1 == first ".0" { good++; next }
        { print "symbols: " $2 " is " $1 ", CHANGELOG.md " first }
        END { exit good != 3 }'
}

# promised CRATE: the name, parameters and clauses of each of its functions for C
promised() {
    awk '
    /^pub (extern "C" )?fn splicer_/ { on = 1; text = "" }
    on && /^\{/ {
        on = 0
        gsub(/[ \t]+/, " ", text)
        gsub(/\( /, "(", text)
        gsub(/, \)/, ")", text)
        sub(/extern "C" /, "", text)
        print text
    }
    on { text = text " " $0 }' "crates/$1/src/lib.rt"
}

if one_version; then
    passed=$((passed + 1))
else
    failed=$((failed + 1))
fi
for name in door rolldoor bench; do
    archive "$work/log" "$name" >"$work/said" || { cat "$work/said"; echo '0 passed, 1 failed'; exit 1; }
    list "lib$name.a" exported "$name"
    below=$(crate_of "$name")
    list "Cited-of-$name" cited "${below%_c}"
    same "lib$name.a" "Cited-of-$name"
    list "promises-of-$below" promised "$below"
    list "promises-of-${below%_c}" promised "${below%_c}"
    same "promises-of-$below" "promises-of-${below%_c}"
done
headers=$(ls include/*.h | grep -v '/splicer_bench\.h$')
list libdoor.a-and-librolldoor.a cat "$work/libdoor.a" "$work/librolldoor.a"
# shellcheck disable=SC2086
list splicer.h declared $headers
list splicer_bench.h declared include/splicer_bench.h
same libdoor.a-and-librolldoor.a splicer.h
same libbench.a splicer_bench.h
versioned include/splicer.h splicer.h splicer_
versioned include/splicer_bench.h splicer_bench.h splicer_bench_
list the-archives cat "$work/libdoor.a-and-librolldoor.a" "$work/libbench.a"
list bindings linked
same the-archives bindings
echo "symbols: $(wc -l <"$work/the-archives") functions in three archives"
echo "$passed passed, $failed failed"
[ "$failed" -eq 0 ]
