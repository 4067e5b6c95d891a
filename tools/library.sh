#!/bin/sh
# Writes the library, target/staticlib/libjudge.a: the static library of crates/judge_c under the name that programs in
# C and Rust link. All crates below are proved first, where that is still to be done.
set -eu
cd "$(dirname "$0")/.."
(cd crates/judge_c && rt lib)
mkdir -p target/staticlib
cp crates/judge_c/out/libjudge_c.a target/staticlib/libjudge.a
