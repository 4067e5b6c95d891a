#!/bin/sh
# Makes a page of each kind with `riser explain --html` (a block, a tableau, refusals), and takes pictures of them with a
# real browser, in light and dark: Debian's chromium, without a window. No part of the gate, which checks the pages
# themselves. Pages and pictures come to stand in a folder, target/pages if none is named; those that are there are
# replaced. Needs the tool: `tools/library.sh`, then `cargo build --release`.
set -eu
root=$(cd "$(dirname "$0")/.." && pwd)
folder=${1:-$root/target/pages}
mkdir -p "$folder"
riser=$root/target/rust/release/riser
data=$root/crates/readings/data
if [ ! -x "$riser" ]; then
    echo "pages.sh: the tool isn't built: cargo build --release" >&2
    exit 3
fi
if ! command -v chromium >/dev/null; then
    echo "pages.sh: there is no chromium here: Debian's package chromium has it" >&2
    exit 3
fi

# Takes pictures of a page that is there, in light and dark.
picture() {
    for mode in light=1 dark=0; do
        if ! chromium --headless --no-sandbox --disable-gpu --hide-scrollbars --window-size=1200,900 \
            --blink-settings=preferredColorScheme="${mode#*=}" --screenshot="$folder/$1-${mode%=*}.png" \
            "file://$(realpath "$folder")/$1.html" >"$folder/chromium.log" 2>&1; then
            echo "pages.sh: $1.html: no picture; $folder/chromium.log says why" >&2
            exit 1
        fi
    done
    echo "$folder/$1.html: pictures in light and dark"
}

# The page of a sample folder.
sample() {
    "$riser" explain --over --html "$folder/$1.html" "$data/$1/pattern.bin" "$data/$1/proposal.bin" >/dev/null || [ $? -le 2 ]
    picture "$1"
}

sample reading_g
sample older_block_in_order
sample longest_model
sample closed_either_in_a_test
sample closed_4096_steps
sample closed_1022_forks_to_the_right
sample refused_6_later_part
sample refused_27_lowest
sample refused_28_last_of_4096
sample refused_20_left_line_on_the_right
"$riser" explain --over --html "$folder/refused_text.html" -e '(p32&' "$data/reading_g/proposal.bin" >/dev/null || [ $? -le 2 ]
picture refused_text
