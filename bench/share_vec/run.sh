#!/usr/bin/env bash
# Nanoseconds for calls on a `ShareVec` of items that share a block of 100 bytes, and on a `Vec` of such blocks. Where the
# one is shared, the other is copied. The `Vec` gets fewer calls.
# It makes a small crate in a temporary folder, proves it and runs it as LLVM builds it; it is no part of the gate.
set -euo pipefail
here=$(cd "$(dirname "$0")" && pwd)
top=$(cd "$here/../.." && pwd)
work=$(mktemp -d)
trap 'rm -rf "$work"' EXIT
mkdir -p "$work/crates/calls/src" "$work/crates/share_vec"
for part in src specs proofs; do
    cp -r "$top/crates/share_vec/$part" "$work/crates/share_vec/$part"
done
for file in main held plain shared; do
    cp "$here/$file.txt" "$work/crates/calls/src/$file.rt"
done
cp "$top/HANDLES" "$work/HANDLES"
printf 'share_vec:\ncalls: share_vec\n' >"$work/crates.txt"
cd "$work/crates/calls" && rt run
