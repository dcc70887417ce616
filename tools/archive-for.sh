#!/bin/sh
# archive-for.sh TARGET OUT.a [NAME]: the proved archive libNAME.a (door, rolldoor or bench; door if it is not given) for a 64-bit
# little-endian processor: x86_64-unknown-linux-gnu and aarch64-unknown-linux-gnu, for which the kit itself compiles what it proved, or
# riscv64-unknown-linux-gnu. For that one the LLVM module that the kit hands to its compiler for x86-64 is kept and compiled for it, by the
# kit's clang too: the functions take pointers and numbers only and return nothing or a number of 64 bits, so no rule of x86-64 about
# structs stands in the module. On a machine that is not x86-64 the gate compares the archive with the second program (beside.sh). For any
# other, run examples/driver.c over it first.
set -eu
. "$(dirname "$0")/words.sh"
cd "$(dirname "$0")/.."
[ $# -eq 2 ] || [ $# -eq 3 ] || refuse 'usage: archive-for.sh TARGET OUT.a [NAME]'
name=${3:-door}
case $name in
door | rolldoor | bench) ;;
*) refuse "'$name' is no archive: door, rolldoor, bench" ;;
esac
case $1 in
aarch64-unknown-linux-gnu | riscv64-* | x86_64-unknown-linux-gnu) ;;
*) refuse "'$1' is no 64-bit little-endian processor that was tried: x86_64-, aarch64-, riscv64-unknown-linux-gnu" ;;
esac
needs rt
find_kit
work=target/archive-for
mkdir -p "$work"
target=$1
crate=$(crate_of "$name")
case $target in
x86_64-*) static_library "$work/log" "$crate" "$2" --cpu=x86-64 ;;
aarch64-*) static_library "$work/log" "$crate" "$2" "--target=$target" ;;
*) false ;;
esac && { echo "$2: for $target, of crate $crate"; exit; }
case $target in riscv64-*) ;; *) exit 1 ;; esac

# compiled FLAG..: the kit's clang for the target
compiled() {
    "$kit/toolchain/bin/clang" --target="$target" --no-default-config -Wno-override-module -ffunction-sections -fdata-sections -x ir "$@"
}

apart
here=$PWD
proving "$work/log" "$crate" sh "$here/tools/kept-module.sh" "$room" lib --cpu=x86-64
# as text, without the name of x86-64's processor, which another has no use for
compiled -S -emit-llvm -O0 -Xclang -disable-llvm-passes "$room/module.bc" -o "$work/module.ll"
sed 's/ "target-cpu"="x86-64"//' "$work/module.ll" >"$work/$name.ll"
if grep '^define ' "$work/$name.ll" | grep -vE '^define (internal |([a-z_]+ )*(void|i64) @)' >&2; then
    echo "archive-for.sh: these return something, by the rule of x86-64" >&2
    exit 1
fi
compiled -c -fPIC -O3 "$work/$name.ll" -o "$work/$name.o"
mkdir -p "$(dirname "$2")"
rm -f "$2"
"$kit/toolchain/bin/llvm-ar" --format=gnu rc "$2" "$work/$name.o"
echo "$2: for $target, of the module that the kit made of crate $crate for x86-64"
