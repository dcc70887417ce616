# judged.sh: to be sourced: a program that judges a recording, as the checker, with an exit status, which the kit's programs cannot give.
# 0: its line is none, or a cut end alone. 1: it names a call. 2: it refused the recording, or nothing was read; then one line says why on
# standard error. An argument, a directory, a closed input and a read that fails are refused, and no line of the program is shown: what
# could not be read is no recording. Where standard error is a terminal it shows how much was read.

# judged NAME WORDS COMMAND..: runs the command on standard input and ends with its status. NAME chooses how much is read; WORDS is how many
# arguments NAME was given
judged() {
    judged_name=$1 judged_words=$2
    shift 2
    LC_ALL=C
    export LC_ALL
    [ "$judged_words" -eq 0 ] || judged_refused "it takes no argument: the recording comes on standard input, $judged_name <RECORDING"
    (exec 3<&0) 2>/dev/null || judged_refused 'standard input is closed: nothing was read'
    judged_work=$(mktemp -d) || judged_refused 'no folder for temporary files'
    trap 'rm -rf "$judged_work"' EXIT
    trap 'exit 2' HUP INT TERM
    judged_first
    judged_input | "$@" | judged_lines
    judged_read_well || judged_refused "standard input cannot be read to its end: $(judged_why)"
    exit "$(cat "$judged_work/status")"
}

judged_refused() {
    echo "$judged_name: $1" >&2
    exit 2
}

# judged_first: the first byte by itself, since a program cannot tell an empty input from one that cannot be read
judged_first() {
    dd bs=1 count=1 >"$judged_work/first" 2>"$judged_work/why" || judged_refused "standard input cannot be read: $(judged_why)"
    [ -s "$judged_work/first" ] || judged_refused 'nothing was read: standard input is empty'
}

# judged_input: the first byte and what follows; how the reading ended is known before the program sees its end
judged_input() {
    cat "$judged_work/first"
    judged_ended=0
    # 65,536 bytes are the checker's longest recording, and one more says that it is longer
    if [ -t 2 ]; then
        judged_shown
    elif [ "$judged_name" = checker ]; then
        head -c 65536 2>"$judged_work/why"
    else
        cat 2>"$judged_work/why"
    fi || judged_ended=$?
    echo "$judged_ended" >"$judged_work/read"
}

# judged_shown: what follows, in pieces, with the bytes so far on the terminal
judged_shown() {
    judged_got=1 judged_piece=1048576
    while :; do
        [ "$judged_name" != checker ] || judged_piece=$((65537 - judged_got))
        [ "$judged_piece" -gt 0 ] || break
        dd bs="$judged_piece" count=1 >"$judged_work/piece" 2>"$judged_work/why" || return 1
        [ -s "$judged_work/piece" ] || break
        cat "$judged_work/piece" || return $?
        judged_got=$((judged_got + $(wc -c <"$judged_work/piece")))
        printf '\r\033[K%s: %s bytes read' "$judged_name" "$judged_got" >&2
    done
    judged_clear
}

# judged_clear: takes the figure back from the terminal
judged_clear() {
    [ ! -t 2 ] || printf '\r\033[K' >&2
}

# judged_lines: the program's lines as they come, the first of which gives the status
judged_lines() {
    echo 2 >"$judged_work/status"
    judged_at=0
    while IFS= read -r judged_line; do
        judged_at=$((judged_at + 1))
        [ "$judged_at" -gt 1 ] || judged_status "$judged_line" >"$judged_work/status"
        if judged_read_well; then
            judged_clear
            printf '%s\n' "$judged_line"
        fi
    done
}

judged_status() {
    case $1 in
    none* | cut*) echo 0 ;;
    call*) echo 1 ;;
    *) echo 2 ;;
    esac
}

# judged_read_well: whether no read has failed so far. A program that has stopped ends its reader by a signal, which is no failed read
judged_read_well() {
    case $(cat "$judged_work/read" 2>/dev/null) in
    '' | 0 | 141) return 0 ;;
    *) return 1 ;;
    esac
}

# judged_why: the last words of what the reader said
judged_why() {
    head -n 1 "$judged_work/why" | sed 's/.*: //'
}
