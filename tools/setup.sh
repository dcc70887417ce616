#!/bin/sh
# setup.sh [x86 | libraries]: what the comparisons and the release need beside the kit: cargo and rustc, 1.82 or later, a C compiler to
# link with, a C++ compiler and pkg-config, and the libraries of splicerd, Debian's librust-*-dev; with libraries, these alone. With x86,
# also what builds x86-64 programs in Rust, runs and counts them (tools/measure.sh, and tools/beside.sh with ROUTE=x86; the gate needs
# none of it): on x86-64 gcc, objdump and Debian's emulator, which takes plugins; on Arm the library and the linker for x86-64 too.
# Installs Debian's where there are none (as root), and removes nothing: an older cargo that is there is named, and not replaced, as
# Debian's newer packages conflict with the old ones.
set -eu
. "$(dirname "$0")/words.sh"
case $#${1:-} in
0 | 1x86 | 1libraries) ;;
*) refuse "only x86 or libraries, not '$*'" ;;
esac

# install PACKAGE..: removes nothing that is there, and does not wait long for a network that does not answer
install() {
    needs apt-get
    [ "$(id -u)" -eq 0 ] || { echo "setup.sh: not root: as root, apt-get install $*" >&2; exit 2; }
    apt-get install -y --no-install-recommends --no-remove -o Acquire::http::Timeout=20 -o Acquire::Retries=1 "$@"
}

update() {
    command -v apt-get >/dev/null 2>&1 && [ "$(id -u)" -eq 0 ] || return 0
    apt-get update -o Acquire::http::Timeout=20 -o Acquire::Retries=1
}

# lacks TOOL..: whether one of them is not here
lacks() {
    for tool; do
        command -v "$tool" >/dev/null 2>&1 || return 0
    done
    return 1
}

# lacks_crate NAME VERSION: whether Debian's package of a library is not here
lacks_crate() {
    for found in /usr/share/cargo/registry/"$1-$2".*; do
        [ ! -d "$found" ] || return 1
    done
}

# libraries: those of splicerd/Cargo.toml
libraries() {
    lacking=
    for crate in mio=0.8 socket2=0.4 signal-hook=0.3 serde_json=1 clap=4 httparse=1 rlimit=0.8; do
        if lacks_crate "${crate%=*}" "${crate#*=}"; then lacking="$lacking librust-$(echo "${crate%=*}" | tr _ -)-dev"; fi
    done
    [ -n "$lacking" ] || return 0
    update
    # shellcheck disable=SC2086
    install $lacking
}

if [ "${1:-}" = libraries ]; then
    libraries
    echo "1 passed, 0 failed"
    exit 0
fi
if lacks cargo; then
    update
    # Debian 12's plain cargo, 1.65, is too old
    install cargo-web rustc-web || install cargo rustc
fi
needs_rust 1.82
if lacks cc; then
    update
    install gcc libc6-dev
fi
if lacks c++ pkg-config; then
    update
    install g++ pkg-config
fi
libraries
cargo --version
if lacks rt; then
    echo 'setup.sh: the Rattle kit (rt) is not here: nothing can be proved; the second program and the desk run without it'
fi
if [ "${1:-}" = x86 ]; then
    case $(uname -m) in
    x86_64)
        if lacks gcc objdump qemu-x86_64; then
            update
            install gcc libc6-dev binutils qemu-user
        fi
        ;;
    aarch64)
        # rustc-web and its library for x86-64 are of one version
        dpkg --add-architecture amd64
        trap 'dpkg --remove-architecture amd64 2>/dev/null || :' EXIT
        update
        install rustc-web libstd-rust-web-dev:amd64 gcc gcc-x86-64-linux-gnu libc6-dev-amd64-cross qemu-user
        trap - EXIT
        ;;
    *)
        echo "setup.sh: no way known for $(uname -m)" >&2
        exit 2
        ;;
    esac
fi
echo "1 passed, 0 failed"
