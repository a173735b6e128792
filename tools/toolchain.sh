#!/bin/sh
# Checks that the Rattle toolchain is the one that rattle.version names.
set -u
cd "$(dirname "$0")/.." || exit 1

pinned=$(cat rattle.version) || exit 1
found=$(rt version) || exit 1

if [ "$found" != "$pinned" ]; then
    {
        printf 'another Rattle toolchain than the pinned one\n'
        printf '  pinned: %s\n' "$pinned"
        printf '  found:  %s\n' "$found"
        printf 'The proofs were checked with the pinned one. To move to another, see that make test passes with it\n'
        printf 'and write what "rt version" prints into the file rattle.version.\n'
    } >&2
    exit 1
fi
