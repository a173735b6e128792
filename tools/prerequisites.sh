#!/bin/sh
# tools/prerequisites.sh [TARGET...]
#
# Checks that every command that these targets of the Makefile use can be found, or without targets every command that one of
# them uses; names each that can't, with what it is for. A target that stands nowhere below, as a file, needs what all need.
set -u

targets=" $* "
missing=0

# Whether one of these targets is asked for. All of them are where none is named, on either side.
asked() { # [TARGET...]
    if [ $# -eq 0 ] || [ "$targets" = '  ' ]; then
        return 0
    fi
    for target in "$@"; do
        case $targets in
        *" $target "*) return 0 ;;
        esac
    done
    return 1
}

need() { # COMMAND PURPOSE [TARGET...]
    command=$1
    purpose=$2
    shift 2
    if asked "$@" && ! command -v "$command" >/dev/null 2>&1; then
        printf 'missing command: %s (%s)\n' "$command" "$purpose" >&2
        missing=1
    fi
}

need rt 'the Rattle toolchain: proves the crates and builds the library'
need gcc 'compiles the control program, the host tests and the benchmarks, and links the harness'
need make 'runs the targets of the Makefile'
need cargo 'builds the test harness in Rust' test test-programs harness fuzz
need python3 'runs the host tests, adds up the memory, measures the listing, and writes figures of documents' test bench memory figures
need nm 'says which calls are linked, for the memory budget' test memory
need size 'says how much is linked, for the memory budget' test memory
need g++ 'compiles the header as C++, a host test' test
need groff 'renders the man pages, a host test' test
need valgrind 'looks for memory errors in the host tests' test

exit "$missing"
