# Steps that are counted, for the scripts that source this file. A script sets out, the folder of its logs, and calls finish
# last: the last line is 'N passed, M failed', and the status is 0 only if N is above 0 and M is 0.

passed=0
failed=0

finish() {
    [[ $passed -gt 0 ]] || [[ $failed -gt 0 ]] || failed=1
    echo "$passed passed, $failed failed"
    [[ $failed -eq 0 ]]
    exit
}

pass() {
    echo "passed: $1"
    passed=$((passed + 1))
}

fail() {
    echo "FAILED: $1"
    failed=$((failed + 1))
}

# For what nothing after it can do without.
need() {
    local what=$1
    shift
    "$@" && return
    fail "$what"
    finish
}

have() {
    type -P "$1" > /dev/null
}

# Runs a command, keeps its output in a log, shows it, and returns its status.
logged() {
    local log=$out/$1.log status
    shift
    "$@" > "$log" 2>&1
    status=$?
    cat "$log"
    return "$status"
}

# Adds the counts of a step; one with a bad status or without a single test has failed.
add_counts() {
    local name=$1 status=$2 step_passed=$((10#$3)) step_failed=$((10#$4))
    passed=$((passed + step_passed))
    failed=$((failed + step_failed))
    [[ $step_failed -eq 0 ]] || return
    [[ $status -eq 0 ]] || fail "$name ended with status $status"
    [[ $step_passed -gt 0 ]] || fail "$name tested nothing"
}

# A step whose last line is 'N passed, M failed'.
counted() {
    local name=$1 status last
    shift
    echo "== $name"
    logged "$name" "$@"
    status=$?
    last=$(tail -n 1 "$out/$name.log")
    if [[ ! $last =~ ^([0-9]+)\ passed,\ ([0-9]+)\ failed$ ]]; then
        fail "$name ended with status $status and no count"
        return
    fi
    add_counts "$name" "$status" "${BASH_REMATCH[1]}" "${BASH_REMATCH[2]}"
}

# A step that is one test, passed if the command succeeds.
single() {
    local name=$1
    shift
    if logged "$name" "$@"; then
        pass "$name"
    else
        fail "$name"
    fi
}
