#!/bin/sh
# Checks the layout of the sources, one language after the other, also after a failure. Where the command for a language is not
# on the machine, its sources are not checked: that is said, and is no failure.
set -u
cd "${0%/*}/.." || exit 1

status=0

checked() { # LANGUAGE COMMAND [ARGUMENT...]
    language=$1
    shift
    if ! command -v "$1" >/dev/null 2>&1; then
        printf 'layout of %s: not checked, no %s on this machine\n' "$language" "$1"
    elif "$@"; then
        printf 'layout of %s: ok\n' "$language"
    else
        printf 'layout of %s: wrong\n' "$language"
        status=1
    fi
}

# rt itself only lays out; the compiler beside it says what is not laid out.
rattle=rt
sources=
if command -v rt >/dev/null 2>&1; then
    rattle=$(dirname "$(readlink -f "$(command -v rt)")")/rattle
    sources=$(find crates -name out -prune -o \( -name '*.rt' -o -name '*.antt' \) -print)
fi
# shellcheck disable=SC2086
checked Rattle "$rattle" fmt --check $sources
# Another version of clang-format would lay some lines out differently.
checked C clang-format-14 --dry-run -Werror host/*.[ch] host/tests/*.[ch] bench/*.[ch] bench/baseline/*.[ch] examples/*.c
checked Rust cargo-fmt --check --manifest-path host/harness/Cargo.toml
checked shell shellcheck .ci/run tools/*.sh

exit "$status"
