#!/bin/sh
# use-release.sh RELEASE.tar.gz: unpacks a release into a folder of its own, outside of the repository, and uses it as its README says, by
# this machine's cc, c++, pkg-config and cargo and nothing else of ours: the README's drivers in C99, C11, C++11, C++20 and Rust, the
# examples, the crate by itself, the programs, and MANIFEST and splicer.spdx against the files. Of one for another processor only these two
# and its processor are looked at. The last line is 'N passed, M failed'.
set -eu
. "$(dirname "$0")/words.sh"
[ $# -eq 1 ] || refuse 'usage: use-release.sh RELEASE.tar.gz'
[ -f "$1" ] || refuse "no file $1"
needs cc c++ ar pkg-config tar sha256sum
needs_rust 1.81
package=$(readlink -f "$1")
name=$(basename "$package" .tar.gz)
work=$(mktemp -d)
trap 'rm -rf "$work"' EXIT
cd "$work"
# nothing of a caller's leads back to the repository
unset SPLICER_LIB RATTLE_HOME CARGO_TARGET_DIR RUSTFLAGS
passed=0
failed=0
release=$work/there/$name
mkdir there own
tar -x -C there -f "$package"

# held NAME TEST..: counts it; a test may go to another folder
held() {
    what=$1
    shift
    if ("$@") >"$work/log" 2>&1; then
        passed=$((passed + 1))
    else
        cat "$work/log"
        echo "use-release: $what: FAILED"
        failed=$((failed + 1))
    fi
}

# block KIND N: the Nth block of that kind in the README
block() {
    awk -v kind="\`\`\`$1" -v n="$2" '$0 == "```" { on = 0 } on { print } $0 == kind && ++at == n { on = 1 }' "$release/README.md"
}

# manifest: its first line names the release, and it has each file with its sum
manifest() {
    cd "$release"
    [ "$(head -n 1 MANIFEST)" = "$name" ] || { head -n 1 MANIFEST; return 1; }
    grep -E '^[0-9a-f]{64}  ' MANIFEST >"$work/sums"
    sha256sum -c --quiet "$work/sums" || return 1
    find . -type f ! -name MANIFEST | LC_ALL=C sort >"$work/files"
    cut -c 67- "$work/sums" | diff "$work/files" -
}

# spdx: it lists the same files with the same sums
spdx() {
    cd "$release"
    awk '/^FileName: / { file = $2 } /^FileChecksum: SHA256: / { print $3 "  " file }' splicer.spdx >"$work/spdx"
    find . -type f ! -name MANIFEST ! -name splicer.spdx | LC_ALL=C sort | xargs sha256sum | diff - "$work/spdx"
}

# machines FILE..: the processor's number in the head of each ELF file, once
machines() {
    for file; do
        case $(od -An -tx1 -N 4 "$file" | tr -d ' ') in
        7f454c46) od -An -tx1 -j 18 -N 1 "$file" | tr -d ' ' ;;
        esac
    done | sort -u
}

# one_processor: every program and every archive's member is for the one that the name says
one_processor() {
    mkdir -p "$work/members"
    cd "$work/members"
    for archive in "$release"/lib/*.a; do
        ar x "$archive"
        for member in *.o; do mv "$member" "$(basename "$archive").$member.kept"; done
    done
    case $name in
    *-x86_64) wanted=3e ;;
    *-aarch64) wanted=b7 ;;
    esac
    found=$(machines "$release"/bin/* "$release"/libexec/splicer/* "$work"/members/*)
    [ "$found" = "$wanted" ] || { echo "processors $found"; return 1; }
}

# prints FILE COMMAND..: the command's output is the file
prints() {
    wanted=$1
    shift
    "$@" >"$work/printed" && diff "$wanted" "$work/printed"
}

# driver COMPILER WORD..: the README's driver
driver() {
    # shellcheck disable=SC2046
    "$@" $(pkg-config --cflags splicer) -c driver.c -o driver.o && "$1" driver.o $(pkg-config --libs splicer) -o driver &&
        prints readme.out ./driver
}

# example NAME PACKAGE..: one of the examples by pkg-config, against its output
example() {
    example=$1
    shift
    # shellcheck disable=SC2046
    cc -std=c99 -pedantic -Wall -Wextra -Werror "$release/examples/$example.c" $(pkg-config --cflags --libs "$@") -o "$example" &&
        prints "$release/examples/$example.out" "./$example"
}

# rust: the README's driver in Rust by a path dependency
rust() {
    mkdir -p crate/src
    block toml 1 | sed "s|RELEASE|$release|" >crate/Cargo.toml
    block rust 1 >crate/src/main.rs
    block text 2 >rust.out
    cargo build --quiet --offline --manifest-path crate/Cargo.toml && prints rust.out crate/target/debug/driver
}

# the_crate: it builds where it stands
the_crate() {
    cd "$release/rust" && cargo build --quiet --offline --locked
}

# documented: the crate's documentation without the archives, as docs.rs builds it
documented() {
    mkdir -p docs && cp -R "$release/rust" "$release/NOTICE" docs/ &&
        DOCS_RS=1 RUSTDOCFLAGS='-D warnings' cargo doc --quiet --offline --no-deps --features bench --manifest-path docs/rust/Cargo.toml
}

# ends STATUS COMMAND..: the command's status
ends() {
    wanted=$1 status=0
    shift
    "$@" || status=$?
    [ "$status" -eq "$wanted" ] || { echo "status $status"; return 1; }
}

# findings PROGRAM LIST: its first line of each recording, and its status by it
findings() {
    while read -r file line; do
        case $file$line in
        empty.rec*) wanted=2 line= ;;
        *none) wanted=0 ;;
        *reccall*) wanted=1 ;;
        *) wanted=2 ;;
        esac
        status=0
        "$release/bin/$1" <"$release/examples/recordings/$file" >said || status=$?
        said=$(head -n 1 said)
        [ "$said $status" = "$line $wanted" ] || { echo "$file: wanted $line $wanted, got $said $status"; return 1; }
    done <"$release/examples/recordings/$2"
}

# differs: what the referee says of the day with a wrong end beside the call: the record that was due, and the one that was found
differs() {
    ends 1 "$release/bin/referee" <"$release/examples/recordings/day-wrong-end.rec" >said && prints - cat said <<END_OF_LINES
call 45
wanted 52000009000D0074FFFF000001F50100000000001B7740
found 52000009000D0074FFFF0000232A0100000000001B7740
END_OF_LINES
}

# live: the referee tells a wrong call while its input is still open
live() {
    rm -f said
    mkfifo pipe
    "$release/bin/referee" <pipe >said &
    exec 4>pipe
    printf 'O\000E\006' >&4
    for second in 1 2 3 4 5 6 7 8 9 10; do
        [ ! -s said ] || break
        sleep 1
    done
    head -n 1 said
    [ "$(head -n 1 said)" = 'call 1' ] || return 1
    exec 4>&-
    ends 1 wait $!
}

# whole_case PROGRAM: it answers 01's whole case
whole_case() {
    printf 'O\000M\000\000\005\000\010\377\377\377\377\000\000\000\000\000\000\000\000C\000C\000' | "$release/bin/$1" >case
    printf 'R\000\000\000\000\000\000\147\377\377E\007' | cmp - case
}

# used: by drivers and people
used() {
    cd "$work/own"
    block c 1 >driver.c
    block text 1 >readme.out
    for standard in c99 c11; do held "a driver in $standard" driver cc -std=$standard -pedantic -Wall -Wextra -Werror; done
    for standard in c++11 c++20; do held "a driver in $standard" driver c++ -x c++ -std=$standard -pedantic -Wall -Wextra -Werror; done
    held 'examples/driver.c' example driver splicer
    held 'examples/cues.c' example cues splicer
    held 'examples/rolling.c' example rolling splicer
    held 'examples/whole.c' example whole splicer
    held 'examples/remember.c, by two packages' example remember splicer-bench splicer
    held 'examples/referee.c, by two packages' example referee splicer-bench splicer
    version=${name#splicer-}
    held "the packages' version" prints - sh -c 'pkg-config --modversion splicer splicer-bench' <<END_OF_VERSIONS
${version%-*}
${version%-*}
END_OF_VERSIONS
    held 'a driver in Rust' rust
    held "the crate's documentation without the archives" documented
    held 'the crate where it stands' the_crate
    held 'checker on every recording' findings checker findings
    held 'referee on every recording' findings referee verdicts
    held 'referee, what was due and what was found' differs
    held 'referee, while it is recorded' live
    for program in checker referee; do
        held "$program, a file name as argument" ends 2 "$release/bin/$program" "$release/examples/recordings/day.rec"
        held "$program, a directory" ends 2 sh -c "\"$release/bin/$program\" <\"$release\""
        held "$program's page" test -s "$release/share/man/man1/$program.1"
    done
    for program in card remember; do
        if [ -f "$release/bin/$program" ]; then held "$program on the whole case" whole_case $program; fi
    done
    held 'desk --version' prints - "$release/bin/desk" --version <<END_OF_VERSION
desk ${version%-*}.0
END_OF_VERSION
    held 'desk asrun' "$release/bin/desk" asrun "$release/examples/recordings/day.rec"
    for program in splicerd adserver; do
        held "$program --version" prints - "$release/bin/$program" --version <<END_OF_VERSION
$program ${version%-*}.0
END_OF_VERSION
    done
    held 'adserver, no splicer' ends 2 "$release/bin/adserver" --to 127.0.0.1:9 init
}

PKG_CONFIG_PATH=$release/lib/pkgconfig
export PKG_CONFIG_PATH
held 'MANIFEST' manifest
held 'splicer.spdx' spdx
held 'one processor' one_processor
if [ "${name##*-}" = "$(uname -m)" ]; then
    used
else
    echo "use-release: it is not for $(uname -m): only looked at"
fi
echo "use-release: $name, $(find "$release" -type f ! -path '*/rust/target/*' | wc -l) files"
echo "$passed passed, $failed failed"
[ "$failed" -eq 0 ]
