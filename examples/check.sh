#!/bin/sh
# Compiles the C examples against the proved library (tools/library.sh) and runs them: `empty` by itself, `judge` on
# every sample folder that has both files: each line must be the one that crates/readings/stdout has; and `order` on a
# block as it was sent, of which it must make the sample of the same block in order, byte for byte, and on one of no
# nodes; and `type` on the text of a sample's pattern, which it must write byte for byte, and on one with a newline.
# First it looks at what the library wants of whoever links it: a unit may have no C library.
set -eu
cd "$(dirname "$0")/.."
wanted=$(nm -u target/staticlib/libjudge.a | awk '$1 == "U" { print $2 }' | sort -u | tr '\n' ' ')
if [ "$wanted" != "memcpy memset " ]; then
    echo "check.sh: the library wants $wanted of whoever links it, not memcpy and memset alone" >&2
    exit 1
fi
mkdir -p target/c
for example in empty judge order type; do
    ${CC:-cc} -std=c11 -O2 -Wall -Wextra -Wpedantic -Werror -I include "examples/$example.c" target/staticlib/libjudge.a -o "target/c/$example"
done
target/c/empty
compared=0
for folder in crates/readings/data/*/; do
    name=$(basename "$folder")
    [ -f "$folder/pattern.bin" ] && [ -f "$folder/proposal.bin" ] || continue
    line=$(target/c/judge "$folder/pattern.bin" "$folder/proposal.bin")
    if ! grep -qxF "$name: $line" crates/readings/stdout; then
        echo "check.sh: $name: the C example printed '$line', crates/readings/stdout has '$(grep "^$name:" crates/readings/stdout)'" >&2
        exit 1
    fi
    compared=$((compared + 1))
done
if [ "$compared" -lt 100 ]; then
    echo "check.sh: only $compared sample folders have both files" >&2
    exit 1
fi
echo "C example: $compared samples judged as they should be"
data=crates/readings/data
new=target/c/new.bin
rm -f "$new"
line=$(target/c/order "$data/refused_28_older_block/proposal.bin" "$new")
if [ "$line" != "written 103" ] || ! cmp "$new" "$data/older_block_in_order/proposal.bin"; then
    echo "check.sh: the C example of putting a block in order printed '$line', or wrote another file" >&2
    exit 1
fi
rm "$new"
if line=$(target/c/order "$data/refused_12_no_node/proposal.bin" "$new") || [ "$line" != "refused 12 0" ] || [ -e "$new" ]; then
    echo "check.sh: the C example of putting a block in order printed '$line' of a block without nodes, or wrote a file" >&2
    exit 1
fi
echo "C example: a block put in order as it should be"
line=$(target/c/type '(<0>p0&!<0>p0)' "$new")
if [ "$line" != "written 22" ] || ! cmp "$new" "$data/reading_a/pattern.bin"; then
    echo "check.sh: the C example of typing a pattern printed '$line', or wrote another file" >&2
    exit 1
fi
rm "$new"
if line=$(target/c/type '(<0>p0&!<0>p0)
' "$new") || [ "$line" != "refused 30 14" ] || [ -e "$new" ]; then
    echo "check.sh: the C example of typing a pattern printed '$line' of a text with a newline, or wrote a file" >&2
    exit 1
fi
echo "C example: a typed pattern written as it should be"
