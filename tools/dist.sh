#!/bin/sh
# dist.sh [--proved | --gate] [x86_64 | aarch64]: a release for one processor, this machine's if none is named,
# target/dist/splicer-VERSION-PROCESSOR.tar.gz: headers, archives, pkg-config files, programs, the desk's program, splicerd and adserver
# with their man pages and a systemd unit, the Rust crate, examples, docs, README, CHANGELOG, NOTICE, splicer.spdx (what is in it, by
# SPDX) and MANIFEST (commit, versions of kit and compilers, the sum of the logic that the proofs were checked by, and of each file). It
# is built twice of what is committed, from nothing and in two folders outside of this one, by `rt ci --anew`, and compared byte by byte;
# then it is unpacked and used (tools/use-release.sh). With --proved both folders take what `rt ci` passed on this machine as proved, and
# the programs as built; the archives are proved and built anew. With --gate it is built once, of the files as they stand and of the
# archives and programs that the gate proved and built here, into target/dist/gate; its `desk`, `splicerd` and `adserver` are built without
# optimisation, and its MANIFEST says so. The last line is 'N passed, M failed'.
set -eu
. "$(dirname "$0")/words.sh"
how=
processor=$(uname -m)
case ${1:-} in
--proved | --gate) how=$1 && shift ;;
esac
case $#${1:-} in
0) ;;
1x86_64 | 1aarch64) processor=$1 ;;
*) refuse "only --proved or --gate, then x86_64 or aarch64, not '$*'" ;;
esac
case $processor in
x86_64 | aarch64) ;;
*) refuse "no release for $processor: x86_64 or aarch64" ;;
esac
needs rt git tar sha256sum sha1sum
needs_rust 1.82
find_kit
cd "$(dirname "$0")/.."
here=$PWD
# what is committed now, whatever is committed while this runs
head=$(git rev-parse HEAD)
target=$processor-unknown-linux-gnu
# the compiler that links programs for the processor
cc=cc
[ "$processor" = "$(uname -m)" ] || cc=$(echo "$processor" | tr _ -)-linux-gnu-gcc
needs "$cc"
work=$here/target/dist
[ "$how" != --gate ] || work=$work/gate
passed=0
failed=0
version=$(sed -n 's/^## \([0-9.]*\).*/\1/p' CHANGELOG.md | head -n 1)
state=$(sed -n 's/^#define SPLICER_VERSION \([0-9]*\)$/\1/p' include/splicer.h)
[ "${version%%.*}" = "$state" ] || refuse "CHANGELOG.md's first version $version is none of SPLICER_VERSION $state"
release=splicer-$version-$processor
rm -rf "$work"
mkdir -p "$work"

# held NAME TEST..: counts it
held() {
    what=$1
    shift
    if "$@" >"$work/held" 2>&1; then
        echo "dist: $what: good"
        passed=$((passed + 1))
    else
        cat "$work/held"
        echo "dist: $what: FAILED"
        failed=$((failed + 1))
    fi
}

# pc NAME LIBRARIES TEXT: a pkg-config file; it finds its folder by itself
pc() {
    echo 'prefix=${pcfiledir}/../..'
    echo "Name: $1"
    echo "Description: $3"
    echo "Version: $version"
    echo 'Cflags: -I${prefix}/include'
    echo "Libs: -L\${prefix}/lib $2"
}

# commit: that of the sources, and whether they are as it has them
commit() {
    changed=
    [ "$how" != --gate ] || [ -z "$(git -C "$here" status --porcelain)" ] || changed=', with changes that are not committed'
    echo "$head$changed"
}

# when: the commit's time
when() {
    TZ=UTC git -C "$here" log -1 --date=format-local:%Y-%m-%dT%H:%M:%SZ --format=%cd "$head"
}

# proved CRATE FILE: what rt said of its proof, which is nothing where it took one over
proved() {
    echo "proved, of $1: $(grep . "$2" || echo 'by an earlier rt ci on the same machine, of the same sources by the same kit')"
}

# manifest: of the files in the present folder, and what they were made by
manifest() {
    echo "$release"
    echo "commit $(commit)"
    echo "processor $processor"
    echo "version of the state and of the archive's functions $state"
    echo "kit $(rt version)"
    for name in door rolldoor bench; do proved "$(crate_of "$name")" "$parts/lib$name.a.proved"; done
    for program in $programs; do proved "$program" "$source/target/bin/$program.proved"; done
    echo "compiler of archives and proved programs $("$kit/toolchain/bin/clang" --version | head -n 1)"
    echo "compiler of desk, splicerd and adserver $(rustc --version), $optimised"
    find . -type f ! -name MANIFEST | LC_ALL=C sort | xargs sha256sum
}

# the programs that the kit makes: for x86-64 alone
programs=
[ "$processor" != x86_64 ] || programs='card checker referee remember'
# those that judge a recording: in bin/ stands what gives their exit status, which they cannot. One that is not among the kit's is a small
# one in C over the same proved archive
judges='checker referee'
optimised='opt-level 3'
[ "$how" != --gate ] || optimised='opt-level 0, for trials only'

# desk: the desk's program in the present folder of sources. By rustc itself: cargo puts a hash of the folder's name into what it builds
desk() {
    of=$(sed -n 's/^version = "\(.*\)"/\1/p' desk/Cargo.toml)
    level=${optimised#opt-level }
    rust="rustc --edition 2021 --target $target -C linker=$cc -C opt-level=${level%%,*} -C metadata=splicer --remap-path-prefix=$PWD=."
    $rust --crate-type rlib --crate-name rules -o "$parts/librules.rlib" model/rules/src/lib.rs || return 1
    $rust --crate-type rlib --crate-name model --extern "rules=$parts/librules.rlib" -o "$parts/libmodel.rlib" model/src/lib.rs || return 1
    CARGO_PKG_VERSION=$of $rust -L "$parts" --crate-name desk --extern "model=$parts/libmodel.rlib" -o "$parts/desk" desk/src/main.rs
}

# network: splicerd and adserver of the present folder of sources, over the archives. By cargo, which puts a hash of the folder's name into
# what it builds, so in one and the same folder for every build
network() {
    rm -rf "$work/network"
    mkdir -p "$work/network/lib"
    cp -R splicerd bindings model "$work/network/" && cp "$parts"/lib*.a "$work/network/lib/" || return 1
    rm -f "$work/network/splicerd/Cargo.lock"
    how_built=release
    [ "$how" != --gate ] || how_built=dev
    (
        cd "$work/network/splicerd"
        SPLICER_LIB=$work/network/lib CARGO_TARGET_DIR=$work/network/target RUSTFLAGS="--remap-path-prefix=$work/network=. -C linker=$cc" \
            cargo build --quiet --offline --bins --profile "$how_built" --target "$target"
    ) || return 1
    [ "$how_built" = release ] || how_built=debug
    for program in splicerd adserver; do cp "$work/network/target/$target/$how_built/$program" "$parts/" || return 1; done
    cp "$work/network/splicerd/Cargo.lock" "$parts/splicerd.lock"
}

# proved_parts: the archives and the programs of proved crates, of the present folder of sources
proved_parts() {
    for name in door rolldoor bench; do
        if [ "$processor" = x86_64 ]; then
            archive "$parts/$name.log" "$name" && cp "target/staticlib/lib$name.a" "target/staticlib/lib$name.a.proved" "$parts/"
        else
            sh tools/archive-for.sh "$target" "$parts/lib$name.a" "$name"
        fi || return 1
    done
    if [ -n "$programs" ]; then
        # shellcheck disable=SC2086
        programs "$parts/programs.log" $programs || return 1
        for program in $programs; do cp "target/bin/$program" "$parts/" || return 1; done
    fi
    for program in $judges; do
        case " $programs " in
        *" $program "*) ;;
        *) "$cc" -std=c99 -O2 -Iinclude "tools/release/$program.c" "$parts/libbench.a" -o "$parts/$program" || return 1 ;;
        esac
    done
}

# gathered: the files of a release, of the sources in $source and what was built in $parts
gathered() {
    mkdir -p bin include lib/pkgconfig libexec/splicer share/man/man1
    cp "$source"/include/*.h include/
    cp "$parts"/lib*.a lib/
    pc splicer '-lrolldoor -ldoor' 'proved splicer core, one output channel, four API connections (J.280)' >lib/pkgconfig/splicer.pc
    pc splicer-bench -lbench 'for the bench: proved checker and referee of recordings, second engine' >lib/pkgconfig/splicer-bench.pc
    for program in $programs desk splicerd adserver; do cp "$parts/$program" bin/; done
    cp "$source/tools/release/judged.sh" libexec/splicer/
    for program in $judges; do
        cp "$parts/$program" libexec/splicer/
        cp "$source/tools/release/judge.sh" "bin/$program"
        chmod +x "bin/$program"
    done
    cp "$source/desk/desk.1" "$source/splicerd/splicerd.1" "$source/splicerd/adserver.1" "$source"/tools/release/*.1 share/man/man1/
    mkdir -p lib/systemd/system
    cp "$source/splicerd/splicerd.service" lib/systemd/system/
    cp -R "$source/examples" "$source/wireshark" "$source/docs" "$source/CHANGELOG.md" .
    mkdir rust
    for part in Cargo.toml Cargo.lock README.md build.rs src tests examples; do cp -R "$source/bindings/$part" rust/; done
    cp "$source/tools/release/README.md" "$source/NOTICE" .
    sh "$source/tools/spdx.sh" "$release" "$(commit | cut -d , -f 1)" "$(when)" "$parts/splicerd.lock" >../splicer.spdx
    mv ../splicer.spdx .
    manifest >MANIFEST
}

# committed FOLDER: the sources as they are committed, and proved; for rt it is the top of a repository
committed() {
    mkdir -p "$1/.git" "$1/target"
    git archive "$head" | tar -x -C "$1"
    anew=--anew
    [ "$how" != --proved ] || anew=
    echo "proving all that is committed, each edit and run with it (many minutes)"
    # shellcheck disable=SC2086
    (cd "$1" && rt ci $anew >target/rt-ci 2>&1 && proved_by_ci '' target/rt-ci) || { tail -n 20 "$1/target/rt-ci" >&2; return 1; }
}

# built FOLDER: a release in FOLDER
built() {
    source=$1/source
    parts=$1/parts
    mkdir -p "$parts" "$1/$release"
    if [ "$how" = --gate ]; then
        source=$here
    else
        committed "$source"
    fi
    (cd "$source" && proved_parts && echo 'building desk' && desk && echo 'building splicerd' && network)
    (cd "$1/$release" && gathered)
    tar -C "$1" --sort=name --owner=0 --group=0 --numeric-owner --mtime="@$(git log -1 --format=%ct "$head")" -cf - "$release" |
        gzip -n >"$1.tar.gz"
}

# used: the release, unpacked elsewhere, by who has nothing else of ours; one for another processor is only looked at
used() {
    sh tools/use-release.sh "$work/$release.tar.gz" >"$work/used" 2>&1 || :
    cat "$work/used"
    sums=$(grep -oE '[0-9]+ passed, [0-9]+ failed' "$work/used" | tail -n 1)
    sums=${sums:-0 passed, 1 failed}
    passed=$((passed + ${sums%% *}))
    sums=${sums#*, }
    failed=$((failed + ${sums%% *}))
}

if [ "$how" = --gate ]; then
    built "$work/one"
else
    [ -z "$(git status --porcelain)" ] || echo 'dist: what is not committed is left out'
    apart
    for folder in one a-second-folder; do
        echo "dist: building in $folder"
        built "$room/$folder"
    done
    held 'both folders alike, file by file' diff -r "$room/one/$release" "$room/a-second-folder/$release"
    held 'both packages alike' cmp "$room/one.tar.gz" "$room/a-second-folder.tar.gz"
    mv "$room/one.tar.gz" "$work/"
fi
mv "$work/one.tar.gz" "$work/$release.tar.gz"
used
echo "dist: ${work#"$here/"}/$release.tar.gz, sha256 $(sha256sum <"$work/$release.tar.gz" | cut -d ' ' -f 1)"
echo "$passed passed, $failed failed"
[ "$failed" -eq 0 ]
