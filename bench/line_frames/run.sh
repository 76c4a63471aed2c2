#!/usr/bin/env bash
# Microseconds for the lines of one paragraph of a megabyte, for texts of several kinds.
# It makes a small crate in a temporary folder, proves it and runs it as LLVM builds it; it is no part of the gate.
set -euo pipefail
here=$(cd "$(dirname "$0")" && pwd)
top=$(cd "$here/../.." && pwd)
work=$(mktemp -d)
trap 'rm -rf "$work"' EXIT
for crate in doc_model line_model break_units line_frames; do
    mkdir -p "$work/crates/$crate"
    for part in src specs proofs; do
        cp -r "$top/crates/$crate/$part" "$work/crates/$crate/$part"
    done
done
mkdir -p "$work/crates/paragraphs/src"
cp "$here/main.txt" "$work/crates/paragraphs/src/main.rt"
grep -E '^(doc_model|line_model|break_units|line_frames):' "$top/crates.txt" >"$work/crates.txt"
printf 'paragraphs: doc_model line_frames line_model\n' >>"$work/crates.txt"
cd "$work/crates/paragraphs" && rt run
