#!/bin/sh
# uses.sh: every script of this folder knows --help, and refuses a wrong argument with 2 and one line before it builds anything, an old
# cargo too; without the kit run-program.sh says so, and example.sh shows the day and ends well. The last line is 'N passed, M failed'.
set -eu
. "$(dirname "$0")/words.sh"
no_words "$@"
cd "$(dirname "$0")/.."
work=target/uses
mkdir -p "$work"
apart
passed=0
failed=0

# held NAME TEST..: counts it
held() {
    name=$1
    shift
    if "$@"; then
        passed=$((passed + 1))
    else
        echo "uses: $name: FAILED"
        failed=$((failed + 1))
    fi
}

# helps SCRIPT: some lines, of which the first names the script
helps() {
    sh "$1" --help >"$work/said" 2>&1 && head -n 1 "$work/said" | grep -q "^$(basename "$1")"
}

# refuses SCRIPT WORD..: status 2, one line, within the time that a start takes
refuses() {
    status=0
    sh "$@" >"$work/said" 2>"$work/wrong" </dev/null || status=$?
    [ "$status" -eq 2 ] && [ ! -s "$work/said" ] && [ "$(wc -l <"$work/wrong")" -eq 1 ]
}

# nowhere: beside.sh on a route that is none
nowhere() {
    (
        ROUTE=nowhere
        export ROUTE
        refuses tools/beside.sh
    )
}

# old SCRIPT [WORD..]: status 2 and one line with the version where cargo and rustc are Debian 12's plain ones
old() {
    mkdir -p "$work/old"
    for tool in cargo rustc; do
        printf '#!/bin/sh\necho "%s 1.65.0"\n' $tool >"$work/old/$tool"
        chmod +x "$work/old/$tool"
    done
    (
        PATH=$PWD/$work/old:$PATH
        export PATH
        refuses "$@"
    ) && grep -q '1.65.0 is too old' "$work/wrong"
}

# alone: run-program.sh where there is no kit
alone() {
    status=0
    env -u RATTLE_HOME PATH=/usr/bin:/bin sh tools/run-program.sh tools/uses.sh >"$work/said" 2>&1 || status=$?
    [ "$status" -eq 2 ] && grep -q 'rt is missing' "$work/said"
}

# first_look: example.sh where there is no kit: the day, then what the kit would add, and a good end
first_look() {
    for tool in cargo rustc; do ln -sf "$(command -v $tool)" "$room/$tool"; done
    env -u RATTLE_HOME PATH="$room:/usr/bin:/bin" sh tools/example.sh >"$work/said" 2>&1 &&
        grep -q 'Init_Request' "$work/said" && grep -q 'with the Rattle kit' "$work/said"
}

for script in tools/*.sh; do
    case $script in */words.sh | */ran.sh) continue ;; esac
    held "$script --help" helps "$script"
    held "$script --wrong-word" refuses "$script" --wrong-word
done
held 'readings.sh, no such reading' refuses tools/readings.sh no_such_reading
held 'edits.sh, no such crate' refuses tools/edits.sh no_such_crate
held 'edits.sh --gate, no such crate' refuses tools/edits.sh --gate no_such_crate
held 'edits.sh, no such edit' refuses tools/edits.sh door/no_such_edit
held 'definitions.sh, no number' refuses tools/definitions.sh 1 two
held 'measure.sh, no such part' refuses tools/measure.sh counts weight
held 'archive-for.sh, a 32-bit processor' refuses tools/archive-for.sh armv7-unknown-linux-gnu target/x.a
held 'archives.sh, a crate' refuses tools/archives.sh door_rolling
held 'programs.sh, a library' refuses tools/programs.sh engine
held 'archive-for.sh, a crate without an archive' refuses tools/archive-for.sh aarch64-unknown-linux-gnu target/x.a engine
held 'archive-for.sh, one word' refuses tools/archive-for.sh aarch64-unknown-linux-gnu
held 'beside.sh, a value is missing' refuses tools/beside.sh --seed
held 'beside.sh, no number' refuses tools/beside.sh --n many
held 'beside.sh, no such route' nowhere
held 'referee.sh, no number' refuses tools/referee.sh --n many
held 'setup.sh, no such word' refuses tools/setup.sh arm
for script in setup desk compare beside cases example dissector splicerd; do
    held "$script.sh with an old cargo" old "tools/$script.sh"
done
held 'build-driver.sh, no source' refuses tools/build-driver.sh target/x no.c no.a
held 'mutate.sh, no number' refuses tools/mutate.sh --n many
held 'mutate.sh, no such part' refuses tools/mutate.sh --n 5 pages
held 'dissector.sh, no number' refuses tools/dissector.sh --mutated many
held 'run-program.sh, no program' refuses tools/run-program.sh no-program
held 'run-program.sh --plain, no program' refuses tools/run-program.sh --plain
held 'dist.sh, no such processor' refuses tools/dist.sh --proved riscv64
held 'dist.sh, two processors' refuses tools/dist.sh x86_64 aarch64
held 'use-release.sh, no file' refuses tools/use-release.sh no.tar.gz
held 'headers.sh, no such function' refuses tools/headers.sh splicer_7_fresh
held 'spdx.sh, two words' refuses tools/spdx.sh name commit
if [ ! -x /usr/bin/rt ] && [ ! -x /bin/rt ]; then
    held 'run-program.sh without the kit' alone
    held 'example.sh without the kit' first_look
fi
echo "$passed passed, $failed failed"
[ "$failed" -eq 0 ]
