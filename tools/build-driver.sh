#!/bin/sh
# build-driver.sh OUT SOURCE.c ARCHIVE [ARCHIVE.a|FLAG..]: an x86-64 program of a C source and archives that the kit made
# (tools/archives.sh), compiled and linked by the kit alone. Run it by run-program.sh. The kit has no C headers: the source declares what it
# calls.
set -eu
. "$(dirname "$0")/words.sh"
[ $# -ge 3 ] || refuse 'usage: build-driver.sh OUT SOURCE.c ARCHIVE [ARCHIVE.a|FLAG..]'
for file in "$2" "$3"; do
    [ -f "$file" ] || refuse "no file $file"
done
find_kit
out=$1 source=$2 archive=$3
shift 3
more=
while :; do
    case ${1:-} in
    *.a) more="$more $1" && shift ;;
    *) break ;;
    esac
done
target=x86_64-unknown-linux-gnu
"$kit/toolchain/bin/clang" --target=$target -march=x86-64 -std=c11 -Wall -Wextra -Werror -O3 -fPIC -DSPLICER_NO_STANDARD_HEADERS \
    "$@" -c "$source" -o "$out.o"
"$kit/bin/rattle-link" --target $target --toolchain "$kit/toolchain" -o "$out" "$out.o" "$archive" $more >"$out.log" 2>&1 ||
    { cat "$out.log" >&2; exit 1; }
rm -f "$out.o" "$out.log"
