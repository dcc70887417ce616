#!/bin/sh
# headers.sh [FUNCTION]: every inline function of include/ is held: tools/headers/held.c calls each beside the bare archives, on random
# input, and each wrong header of tools/headers/wrong, two at least for every function, is refused by it; those of FUNCTION alone if it is
# named. The comment of each says what is refused, its cost and who may call beside it. By the kit's compiler and linker. The last line is
# 'N passed, M failed'.
set -eu
. "$(dirname "$0")/words.sh"
[ $# -le 1 ] || refuse "one FUNCTION, not '$*'"
only=${1:-}
cd "$(dirname "$0")/.."
# inline: the names of the inline functions of include/
inline() {
    sed -nE 's/^static inline [A-Za-z0-9_ ]*[ *](splicer_[a-z0-9_]+)\(.*/\1/p' include/*.h | sort
}
[ -z "$only" ] || inline | grep -qx -- "$only" || refuse "no inline function '$only' in include/"
needs rt
find_kit
work=target/headers
rm -rf "$work"
mkdir -p "$work/wrong"
passed=0
failed=0

# held NAME TEST..: counts it, and shows what a failed one said
held() {
    name=$1
    shift
    if "$@" >"$work/log" 2>&1; then
        passed=$((passed + 1))
    else
        cat "$work/log"
        echo "headers: $name: FAILED"
        failed=$((failed + 1))
    fi
}

# words: the words of the Rust wrapper as lists of C
words() {
    awk '
    /^const [A-Z]+: \[&str; / { name = $2; sub(/:/, "", name); sub(/.*= \[/, "static const char *const " tolower(name) "[] = {"); on = 1 }
    on { print }
    /\];$/ { on = 0 }' bindings/src/texts.rs | sed 's/\];$/};/'
}

# archives: those of the proved crates
archives() {
    archive "$work/archive" door && archive "$work/archive" rolldoor && archive "$work/archive" bench
}

# built INCLUDE: the program with the headers of a folder
built() {
    sh tools/build-driver.sh "$work/held" tools/headers/held.c target/staticlib/libdoor.a target/staticlib/librolldoor.a \
        target/staticlib/libbench.a "-I$1" "-I$work" -O0 -Wno-unused-parameter
}

# right: the headers as they are
right() {
    built include && sh tools/run-program.sh "$work/held"
}

# called: the program calls each inline function
called() {
    inline | while read -r function; do
        cat tools/headers/*.c tools/headers/*.h | grep -q "\b$function(" || { echo "$function is not called"; return 1; }
    done
}

# enough: each has two wrong ones at least
enough() {
    inline | while read -r function; do
        [ "$(grep -c "^$function: " tools/headers/wrong)" -ge 2 ] || { echo "$function has fewer than two"; return 1; }
    done
}

# described: the comment of each says what is refused, its cost and who may call beside it; no request is named by its number
described() {
    ! grep -nE 'CR [0-9]' include/*.h && cat include/*.h | awk '
    /^\/\*/ { said = "" }
    { said = said $0 }
    /^static inline / && !(said ~ /Refused: .*Cost: .*Threads: /) { print; bad = 1 }
    /^static inline / { said = "" }
    END { exit bad }'
}

# edited: the header of standard input with the old text of a function as the new one; it must stand there once
edited() {
    LC_ALL=C FUNCTION=$function OLD=$old NEW=$new awk '
    BEGIN { name = ENVIRON["FUNCTION"] "("; old = ENVIRON["OLD"]; new = ENVIRON["NEW"] }
    /^static inline / && index($0, name) && !inside { inside = 1 }
    inside { text = text $0 "\n"; if (/^}/) { inside = 0; change() } next }
    { print }
    function change(    at, rest) {
        at = index(text, old)
        rest = substr(text, at + length(old))
        if (at && !index(rest, old)) made++
        printf "%s", substr(text, 1, at - 1) new rest
    }
    END { exit made != 1 }'
}

# refused: a wrong header compiles, and the program names a difference
refused() {
    cp include/*.h "$work/wrong/"
    file=$(grep -lE "^static inline .*[ *]$function\(" include/*.h)
    edited <"$file" >"$work/wrong/$(basename "$file")" || { echo 'the old text does not stand there once'; return 1; }
    built "$work/wrong" || return 1
    status=0
    sh tools/run-program.sh "$work/held" >"$work/said" || status=$?
    [ "$status" -eq 1 ] && grep -q ' differs$' "$work/said"
}

held 'the archives' archives
words >"$work/words.h"
held 'every inline function is called' called
held 'two wrong headers for each' enough
held 'refusals, cost and threads of each' described
held 'the headers as they are' right
all=0
while IFS= read -r title; do
    case $title in '' | '#'*) continue ;; esac
    IFS= read -r old && IFS= read -r new || new=
    old=${old#- } new=${new#+} new=${new# } function=${title%%:*}
    [ -z "$only" ] || [ "$only" = "$function" ] || continue
    all=$((all + 1))
    held "$title: not refused" refused </dev/null
done <tools/headers/wrong
echo "headers: $(inline | wc -l) inline functions, $all wrong headers"
echo "$passed passed, $failed failed"
[ "$failed" -eq 0 ]
