# shellcheck shell=bash
# What the gate and the tests count with; a script sources it.

passed=0 failed=0
shown=$(mktemp) || exit 1 # what the last stage printed
trap 'rm -f "$shown"' EXIT

# One failure more, and why.
fault() {
    printf '%s\n' "$*" >&2
    failed=$((failed + 1))
}

# Runs a command and shows what it prints. Its count is the last line 'N passed, M failed' of that.
# It is a failure in itself when it counts nothing, or ends badly and counts no failure.
stage() { # NAME COMMAND...
    local name=$1 status count
    shift
    "$@" 2>&1 | tee "$shown"
    status=${PIPESTATUS[0]}
    count=$(grep -E '^[0-9]+ passed, [0-9]+ failed$' "$shown" | tail -n 1)
    # shellcheck disable=SC2086
    set -- ${count:-0 passed, 0 failed}
    passed=$((passed + $1))
    failed=$((failed + $3))
    if [ "$1" -eq 0 ] && [ "$3" -eq 0 ]; then
        fault "$name: nothing ran that could pass (status $status)"
    elif [ "$status" -ne 0 ] && [ "$3" -eq 0 ]; then
        fault "$name: no failure was counted, and it ended with status $status"
    fi
}

# Prints the count, the very last line, and ends the script.
finish() {
    printf '%d passed, %d failed\n' "$passed" "$failed"
    [ "$failed" -eq 0 ]
    exit
}
