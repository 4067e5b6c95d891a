#!/bin/sh
# Judges the sample files, or those of the folders named, with the bench program, and types the sample texts with the
# typist; both are proved and built first where that is still to be done. Prints the name of each folder or text and the
# program's line.
set -eu
started=$(pwd)
root=$(cd "$(dirname "$0")/.." && pwd)
cd "$root"
mkdir -p target
echo "proving and building the bench program and the typist (some seven minutes, the first time)" >&2
for program in bench typist; do
    if ! (cd "crates/$program" && rt run </dev/null) >target/samples.log 2>&1; then
        echo "samples.sh: rt run failed in crates/$program; target/samples.log says why" >&2
        exit 1
    fi
done

judge() {
    if [ ! -d "$1" ]; then
        echo "samples.sh: $1: no such folder" >&2
        exit 1
    fi
    printf '%s: ' "$(basename "$1")"
    (cd "$1" && "$root/crates/bench/out/bench")
}

if [ $# -gt 0 ]; then
    cd "$started"
    for folder; do
        judge "$folder"
    done
    exit
fi
data=$root/crates/readings/data
for folder in "$data"/*/; do
    [ "$folder" = "$data/texts/" ] || judge "$folder"
done
typed=$(mktemp -d)
trap 'rm -rf "$typed"' EXIT
for text in "$data"/texts/*.txt; do
    printf 'texts/%s: ' "$(basename "$text" .txt)"
    (cd "$typed" && "$root/crates/typist/out/typist" "$text")
done
