#!/bin/sh
# Checks the crates that are named, and prints what is open.
for crate in "$@"; do
    echo "== $crate"
    (cd "crates/$crate" && rt check --fix-imports 2>&1 | grep -v '^statements\|^checked\|^library\|^logic /\|^note: to see how\|^note: a goal may be\|: proved$\|^rt: \|^so far')
done
