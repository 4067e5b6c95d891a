#!/bin/sh
# Turns the proofs of the crates that are named and checks each: what isn't proved yet is printed.
set -u
for crate in "$@"; do
    echo "== $crate"
    python3 tools/port/answers.py "$crate"
    (cd "crates/$crate" && rt fmt >/dev/null 2>&1; rt check --fix-imports 2>&1 | grep -v '^statements\|^checked\|^logic /\|^note: to see how\|^note: a goal may be\|: proved$\|^rt: ')
done
