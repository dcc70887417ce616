#!/bin/sh
# kept-module.sh FOLDER WORD..: runs `rt WORD..` in the present folder, by a copy of the kit made of links (FOLDER/kit) whose clang keeps
# the largest LLVM module that it is handed: FOLDER/module.bc. FOLDER lies outside of this project's, where rt refuses links.
set -eu
. "$(dirname "$0")/words.sh"
[ $# -ge 2 ] || refuse 'usage: kept-module.sh FOLDER WORD..'
needs rt
find_kit
mkdir -p "$1"
work=$(cd "$1" && pwd -P)
shift
rm -rf "$work/kit" "$work/module.bc"

# links FOLDER: a link in the copy to each file of the kit's folder
links() {
    [ ! -L "$work/kit/$1" ] || rm "$work/kit/$1"
    mkdir -p "$work/kit/$1"
    for file in "$kit/$1"/*; do
        ln -s "$file" "$work/kit/$1/"
    done
}

links .
links bin
# rt finds its kit by where its own file lies
for file in rt rtlib.py; do
    rm "$work/kit/bin/$file"
    cp "$kit/bin/$file" "$work/kit/bin/"
done
links toolchain
links toolchain/bin
rm "$work/kit/toolchain/bin/clang"
cat >"$work/kit/toolchain/bin/clang" <<END
#!/bin/sh
for word in "\$@"; do
    case \$word in
    *.bc)
        if [ ! -f "$work/module.bc" ] || [ "\$(wc -c <"\$word")" -gt "\$(wc -c <"$work/module.bc")" ]; then
            cp "\$word" "$work/module.bc"
        fi
        ;;
    esac
done
exec "$kit/toolchain/bin/clang" "\$@"
END
chmod +x "$work/kit/toolchain/bin/clang"
"$work/kit/bin/rt" "$@"
[ -f "$work/module.bc" ] || { echo "kept-module.sh: rt $* compiled nothing" >&2; exit 1; }
