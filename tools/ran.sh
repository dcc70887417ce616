# ran.sh: for scripts that add up counts; to be sourced with `work` set to a folder for logs. Sums are in passed and failed.
passed=0
failed=0

# ran NAME COMMAND..: says that it begins, runs it, shows what it prints as it comes and adds every count 'N passed, M failed' or
# 'N passed; M failed' in it; a failure that it does not count is one more. Its status is the command's
ran() {
    name=$1
    shift
    before=$failed
    echo "$(basename "$work"): $name"
    { ended=0; "$@" 2>&1 || ended=$?; echo "$ended" >"$work/$name.status"; } | tee "$work/$name.log"
    status=$(cat "$work/$name.status")
    sums=$(grep -oE '[0-9]+ passed[,;] [0-9]+ failed' "$work/$name.log" | awk '{ p += $1; f += $3 } END { print p + 0, f + 0 }')
    passed=$((passed + ${sums% *}))
    failed=$((failed + ${sums#* }))
    if [ "$status" -ne 0 ] && [ "$failed" -eq "$before" ]; then
        failed=$((failed + 1))
    fi
    return "$status"
}
