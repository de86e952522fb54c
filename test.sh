#!/usr/bin/env bash
# The tests: every crate proved from nothing in the toolchain's layout, every must-fail edit refused, every program run and compared.
# An edit that no longer fits its file shows nothing of a contract, and fails here too. The last line is 'N passed, M failed'.
set -u
cd "$(dirname "$0")" || exit 1
said=$(mktemp) || exit 1
trap 'rm -f "$said"' EXIT
rt ci 2>&1 | tee "$said"
status=${PIPESTATUS[0]}
if [ "$status" -eq 0 ] && ! grep -q '^rt: ok' "$said"; then
    echo 'rt ci said nothing of the whole repository'
    echo '0 passed, 1 failed'
    exit 1
fi
if grep '^rt: ok' "$said" | grep -q ', [0-9][0-9]* bad'; then
    echo 'a must-fail edit no longer fits its file'
    echo '0 passed, 1 failed'
    exit 1
fi
exit "$status"
