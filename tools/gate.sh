#!/usr/bin/env bash
# The gate. Every step runs, also after a failed one, so that one run shows all that fails:
#
#   layout          tools/layout.sh: of Rattle, and of C, Rust and shell where their commands are on the machine
#   proofs          rt ci: every proof, every must-fail edit, every program with stored output
#   must-fail edits each was refused, by a fact that no longer holds
#   host            the libraries for C, the test programs and the harness are built, and host/tests/run.py passes
#   memory          what the core's calls take fits the device
#
# The last line is 'N passed, M failed', summed over the steps; the exit status is 0 only where M is 0.
set -u

passed=0
failed=0

finish() {
    printf '\n%d passed, %d failed\n' "$passed" "$failed"
    [ "$failed" -eq 0 ]
    exit
}

fail() { # MESSAGE
    printf 'gate: %s\n' "$1"
    failed=$((failed + 1))
}

cd "$(dirname "$0")/.." || { fail 'no way to the repository'; finish; }
output=$(mktemp) || { fail 'no temporary file'; finish; }
trap 'rm -f "$output"' EXIT

# A step that counts as one, by its exit status.
check() { # TITLE COMMAND...
    local title=$1
    shift
    printf '\n== %s\n' "$title"
    if "$@"; then
        passed=$((passed + 1))
    else
        fail "$title: failed"
    fi
}

# A step whose last line is 'N passed, M failed'. No such line, nothing counted, or an exit status that contradicts
# the line is a failure of its own.
check_counted() { # TITLE COMMAND...
    local title=$1 status last
    shift
    printf '\n== %s\n' "$title"
    "$@" | tee "$output"
    status=${PIPESTATUS[0]}
    last=$(tail -n 1 "$output")
    if ! [[ $last =~ ^(0|[1-9][0-9]{0,8})\ passed,\ (0|[1-9][0-9]{0,8})\ failed$ ]]; then
        fail "$title: ended with status $status and no line of counts"
        return
    fi
    passed=$((passed + BASH_REMATCH[1]))
    failed=$((failed + BASH_REMATCH[2]))
    if [ "$last" = '0 passed, 0 failed' ]; then
        fail "$title: nothing ran"
    elif [ "$status" -ne 0 ] && [ "${BASH_REMATCH[2]}" -eq 0 ]; then
        fail "$title: ended with status $status"
    fi
}

# Flags of a make around this one, as -n or -j, aren't meant for it.
build() { env -u MAKEFLAGS -u MFLAGS make --no-print-directory "$@"; }

check 'layout' tools/layout.sh
check_counted 'proofs' rt ci
check 'must-fail edits' tools/must_fail.sh "$output"
printf '\n== host programs\n'
if build test-programs; then
    check_counted 'host tests' python3 host/tests/run.py
    check 'memory' build memory
else
    fail 'the libraries or the host programs could not be built, so the host tests did not run and memory was not measured'
fi
finish
