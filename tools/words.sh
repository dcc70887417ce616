# words.sh: for the scripts of this folder, to be sourced before anything else. It answers --help with the script's first comment, and has
# the words with which each of them refuses an argument, names what is missing and shows how far it is.
case ${1:-} in
--help | -h)
    sed -n '2,/^[^#]/s/^# \{0,1\}//p' "$0"
    exit 0
    ;;
esac

# refuse WORD..: a wrong argument: nothing was built
refuse() {
    echo "$(basename "$0"): $*; --help says what it takes" >&2
    exit 2
}

# no_words "$@": for a script that takes none
no_words() {
    [ $# -eq 0 ] || refuse "it takes no argument, and got '$1'"
}

# makes NAME "$@": for a script that makes a page and takes only --check: sets work to its folder target/NAME, in the project's folder, and
# check to yes or nothing; words are bytes
makes() {
    work=target/$1 check=
    shift
    case $#${1:-} in
    0) ;;
    1--check) check=yes ;;
    *) refuse "only --check, not '$*'" ;;
    esac
    cd "$(dirname "$0")/.."
    mkdir -p "$work"
    LC_ALL=C
    export LC_ALL
}

# as_made MADE PAGE ERRORS: the last lines of such a script: each line of ERRORS is a failure; MADE becomes the page or, with --check, is
# held to it. Sets failed
as_made() {
    script=$(basename "$0" .sh)
    sed "s/^/$script: /; s/\$/: FAILED/" "$3"
    failed=$(($(wc -l <"$3")))
    if [ -z "$check" ]; then
        cp "$1" "$2"
    elif ! cmp -s "$1" "$2"; then
        echo "$script: $2 is not as made (sh tools/$script.sh makes it): FAILED"
        diff "$1" "$2" | head -n 20 || true
        failed=$((failed + 1))
    fi
}

# needs TOOL..: a line for each that is missing, and then no further
needs() {
    lacking=
    for tool; do
        command -v "$tool" >/dev/null 2>&1 && continue
        lacking=yes
        case $tool in
        rt) echo "$(basename "$0"): rt is missing: unpack the Rattle kit and put its folder bin/ into PATH" >&2 ;;
        cargo | rustc) echo "$(basename "$0"): $tool is missing: sh tools/setup.sh installs Debian's, or take one from rustup.rs" >&2 ;;
        *) echo "$(basename "$0"): $tool is missing" >&2 ;;
        esac
    done
    [ -z "$lacking" ] || exit 2
}

# needs_rust VERSION: cargo and rustc of that version, major.minor, or a later one
needs_rust() {
    needs cargo rustc
    for tool in cargo rustc; do
        is=$("$tool" --version | cut -d ' ' -f 2)
        minor=${is#*.}
        [ "${is%%.*}" -gt "${1%.*}" ] || [ "${minor%%.*}" -ge "${1#*.}" ] || {
            echo "$(basename "$0"): $tool $is is too old, $1 or later is needed: Debian's cargo-web and rustc-web, or rustup.rs" >&2
            exit 2
        }
    done
}

# find_kit: sets kit to the kit's folder
find_kit() {
    [ -n "${RATTLE_HOME:-}" ] || needs rt
    kit=${RATTLE_HOME:-$(cd "$(dirname "$(readlink -f "$(command -v rt)")")/.." && pwd -P)}
    [ -x "$kit/toolchain/bin/clang" ] || {
        echo "$(basename "$0"): $kit is no Rattle kit (RATTLE_HOME names another)" >&2
        exit 2
    }
}

# apart: sets room to a new folder outside of this one, which is gone when the script ends. For copies of sources and for links: `rt ci`
# reads every folder here, and stops at a link, at a crates.txt and at a .rt or .antt file that belongs to no listed crate
apart() {
    room=$(mktemp -d)
    trap 'rm -rf "$room"' EXIT
    trap 'exit 1' HUP INT TERM
}

# crates_listed: the listed crates, a line each: name, what it is (- or staticlib), what it uses
crates_listed() {
    awk '
    { sub(/#.*/, ""); at = index($0, ":") }
    at {
        n = split(substr($0, 1, at - 1), words, " ")
        print words[1], (n > 1 && words[2] == "staticlib" ? words[2] : "-") substr($0, at + 1)
    }' crates.txt
}

# reached NAME: the listed crates that it depends on, and itself
reached() {
    crates_listed | awk -v name="$1" '
    { deps[$1] = $0 }
    END { visit(name) }
    function visit(one,    n, i, list) {
        if (one in seen || !(one in deps)) return
        seen[one] = 1
        print one
        n = split(deps[one], list, " ")
        for (i = 3; i <= n; i++) visit(list[i])
    }'
}

# watched LOG ALL PATTERN COMMAND..: runs it; each line that fits the pattern is shown as it comes, with how many of ALL are left. LOG gets
# all that the command says. Its status is the command's.
watched() {
    log=$1 all=$(($2)) pattern=$3
    shift 3
    { status=0; "$@" 2>&1 || status=$?; echo "$status" >"$log.status"; } | {
        at=0
        : >"$log"
        while IFS= read -r line; do
            printf '%s\n' "$line" >>"$log"
            case $line in
            'rt: ok'*) ;;
            $pattern)
                at=$((at + 1))
                line=${line#rt: }
                case $line in
                'crate '*': modules loaded='*) line=${line#crate } line="${line%%:*} checked" ;;
                esac
                echo "  $at of $all: $line; $((all - at)) left"
                ;;
            esac
        done
    }
    status=$(cat "$log.status")
    rm "$log.status"
    return "$status"
}

# proving LOG NAME COMMAND..: the command, which runs rt in the folder of the crate NAME; a line for each crate as it is checked; what rt
# said is shown if it fails. What is proved already has no line
proving() {
    said=$1 one=$2
    shift 2
    echo "proving $one and what is needed for it (some minutes where nothing is proved yet)"
    watched "$said" "$(reached "$one" | wc -l)" 'crate *: modules loaded=*' in_crate "$one" "$@" || { cat "$said" >&2; return 1; }
}

# in_crate NAME COMMAND..: in its folder, with nothing to read
in_crate() { (cd "crates/$1" && shift && "$@" </dev/null); }

# sources NAME..: one number of the kit, of crates.txt and of the crates' sources
sources() {
    {
        rt version
        cat crates.txt
        for one; do
            find "crates/$one" -path "crates/$one/out" -prune -o '(' -name '*.rt' -o -name '*.antt' ')' -print
        done | LC_ALL=C sort | xargs sha256sum
    } | sha256sum | cut -d ' ' -f 1
}

# made_of FILE CRATE: one number of the sources that the file is made of, and of it
made_of() {
    # shellcheck disable=SC2046
    { sources $(reached "$2") && sha256sum "$1"; } | sha256sum | cut -d ' ' -f 1
}

# is_made FILE CRATE: whether an earlier step made it of these sources
is_made() { [ -f "$1" ] && [ -f "$1.made" ] && [ "$(cat "$1.made")" = "$(made_of "$1" "$2")" ]; }

# crate_of NAME: the static library that people link as libNAME.a: a thin crate with the exports, over the crate that has the functions
crate_of() {
    case $1 in
    rolldoor) echo door_rolling_c ;;
    bench) echo door_bench_c ;;
    *) echo "$1_c" ;;
    esac
}

# is_of_ci NAME: whether the libraries that it uses are those that `rt ci` proved from nothing here, of the present sources (.ci/run notes
# their number in target/proved); one that an own check built since has a stamp
is_of_ci() {
    [ -f target/proved ] || return 1
    for one in $(reached "$1"); do
        [ "$one" = "$1" ] || { [ -f "crates/$one/out/rlib/$one.rlib/format" ] && [ ! -f "crates/$one/out/rlib/stamp" ]; } || return 1
    done
    # shellcheck disable=SC2046
    [ "$(cat target/proved)" = "$(sources $(crates_listed | cut -d ' ' -f 1))" ]
}

# static_library LOG CRATE OUT.a FLAG..: proves the static library and has the kit compile it by these flags. Over the libraries of `rt ci`,
# where these are here, in the words with which rt calls the compiler; else by `rt lib`, which first checks what it has not checked
static_library() {
    said=$1 made=$2 out=$3
    shift 3
    mkdir -p "$(dirname "$out")" "crates/$made/out"
    rm -f "$out"
    if is_of_ci "$made"; then
        find_kit
        for one in $(crates_listed | awk -v name="$made" '$1 == name { for (i = 3; i <= NF; i++) print $i }'); do
            set -- "$@" --extern "$one=../$one/out/rlib/$one.rlib"
        done
        for one in $(reached "$made"); do
            [ "$one" = "$made" ] || set -- "$@" -L "dependency=../$one/out/rlib"
        done
        in_crate "$made" "$kit/bin/rattle" build --crate-name "$made" src/lib.rt --extern "std=$kit/rlibs/std.rlib" \
            -L "dependency=$kit/rlibs" --antt-project "$kit/rattle/logic/antt-project.json" --logic-built "$kit/logic_built" \
            --links "$made=" --crate-type staticlib --toolchain "$kit/toolchain" --backend llvm "$@" -o "out/lib$made.a" >"$said" 2>&1 ||
            { cat "$said" >&2; return 1; }
    else
        proving "$said" "$made" rt lib "$@" || return 1
    fi
    grep -q '^logic=proved ' "$said" && cp "crates/$made/out/lib$made.a" "$out" || return 1
    sed -n 's/^logic=proved //p' "$said" | tail -n 1 >"$out.proved"
}

# archive LOG NAME: target/staticlib/libNAME.a of the proved crate that it is of, for every x86-64; one that an earlier step made of the
# same sources is taken as it is
archive() {
    file=target/staticlib/lib$2.a
    if is_made "$file" "$(crate_of "$2")"; then
        echo "$file is there, of these sources"
    else
        static_library "$1" "$(crate_of "$2")" "$file" --cpu=x86-64 && made_of "$file" "$(crate_of "$2")" >"$file.made"
    fi
}

# program LOG NAME: target/bin/NAME, the program of that proved crate, by the kit for x86-64; one that an earlier step made of the same
# sources is taken as it is. `rt run` runs it once, on nothing: its stamp, and not its status, says that it is proved and built
program() {
    file=target/bin/$2
    if is_made "$file" "$2"; then
        echo "$file is there, of these sources"
    else
        proving "$1" "$2" sh -c 'rt run || [ -f "out/$1.stamp" ]' rt "$2" && [ -f "crates/$2/out/$2.stamp" ] &&
            taken "$2" "$(sed -n 's/^logic=proved //p' "$1" | tail -n 1)"
    fi
}

# programs LOG NAME..: the same for each
programs() {
    to=$1
    shift
    for each; do program "$to" "$each" || return 1; done
}

# taken NAME SAID: target/bin/NAME is the program that rt has just built in the crate's folder, with what it said of its proof
taken() {
    mkdir -p target/bin
    cp "crates/$1/out/$1" "target/bin/$1" && echo "$2" >"target/bin/$1.proved" && made_of "target/bin/$1" "$1" >"target/bin/$1.made"
}

# proved_by_ci HAD LOG: what `rt ci`, which has passed here and said what LOG has, leaves as proved: target/proved has the sources' number,
# if no libraries were here before (HAD), which rt puts back in the place of its own, or those of an earlier `rt ci` of the same sources;
# target/bin has the programs
proved_by_ci() {
    rm -rf target/bin
    # shellcheck disable=SC2046
    number=$(sources $(crates_listed | cut -d ' ' -f 1))
    if [ -z "$1" ]; then
        echo "$number" >target/proved
    elif [ ! -f target/proved ] || [ "$(cat target/proved)" != "$number" ]; then
        rm -f target/proved
    fi
    for program in crates/*/src/main.rt; do
        program=${program#crates/} program=${program%%/*}
        said=$(sed -n "/^== $program\$/,/^rt: $program proved\$/s/^logic=proved //p" "$2" | tail -n 1)
        taken "$program" "$said" || return 1
    done
}
