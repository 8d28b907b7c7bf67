#!/bin/sh
# The host in C: it compiles without a warning, it runs to its end, and valgrind finds no fault in it.
# Its last line is 'N passed, M failed'.
cd "$(dirname "$0")/.." || exit 1
passed=0
failed=0

try() {
    name=$1
    shift
    if "$@"; then
        passed=$((passed + 1))
    else
        failed=$((failed + 1))
        echo "failed: $name"
    fi
}

says_so() {
    [ "$(target/host/host | tail -n 1)" = "each track was queued once" ] && target/host/host
}

try "compiles" make target/host/host
try "queues each track once" says_so
try "no fault in memory" valgrind --quiet --error-exitcode=1 --leak-check=full target/host/host
echo "$passed passed, $failed failed"
[ "$failed" -eq 0 ]
