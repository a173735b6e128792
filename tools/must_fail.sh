#!/usr/bin/env bash
# must_fail.sh FILE: checks what rt ci said of the must-fail edits, which FILE holds: each stored edit was refused, none is bad, and none was
# refused for a name alone, which says nothing about the contract.
set -u
cd "$(dirname "$0")/.." || exit 1
shopt -s nullglob

said=$1
stored=(crates/*/must-fail/*.edit)
bad=0

complain() { # MESSAGE
    printf '%s\n' "$1"
    bad=1
}

ok=$(grep -E '^rt: ok;' "$said") || complain 'rt ci has no line "rt: ok"'
refused=$(grep -oE 'must-fail edits: [0-9]+ refused' <<<"$ok" | grep -oE '[0-9]+')
[ "$refused" = "${#stored[@]}" ] || complain "${#stored[@]} edits are stored, ${refused:-none} were refused"
if grep -qE ', [0-9]+ bad' <<<"$ok"; then
    complain "$(grep -F 'BAD EDIT' "$said")"
fi
if grep -qF 'only because a proof file names what the edit took away' "$said"; then
    complain "$(grep -F 'only because a proof file names what the edit took away' "$said")"
fi

printf '%d edits\n' "${#stored[@]}"
exit "$bad"
