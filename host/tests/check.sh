# Sourced by the shell tests: counts checks and failures. STRICT makes a check that is left out a failure.
work=$(mktemp -d) || exit 1
trap 'rm -rf "$work"' EXIT
checks=0
failures=0

# failed WHAT: counts a failure and shows what the command wrote.
failed() {
    failures=$((failures + 1))
    echo "failed: $1"
    cat "$work/said"
}

# expect WHAT COMMAND...: the command must succeed.
expect() {
    checks=$((checks + 1))
    what=$1
    shift
    "$@" > "$work/said" 2>&1 || failed "$what"
}

# ends WHAT STATUS MESSAGE COMMAND...: the command must end with this status, say this and nothing else on standard
# error, and write nothing to standard output.
ends() {
    checks=$((checks + 1))
    what=$1 status=$2 message=$3
    shift 3
    "$@" > "$work/wrote" 2> "$work/said"
    got=$?
    test $got -eq "$status" && test ! -s "$work/wrote" && test "$(cat "$work/said")" = "$message" && return
    failed "$what: status $got; expected $status and: $message"
}

# skip WHAT: tells that it is left out.
skip() {
    echo "skipped: $1"
    test -z "$STRICT" || failures=$((failures + 1))
}

# finish NAME: the closing line; ends the test.
finish() {
    echo "$1: $checks checks, $failures failures"
    test $failures -eq 0
    exit
}
