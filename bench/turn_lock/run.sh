#!/usr/bin/env bash
# Calls per second of a turn lock and of a Mutex round the same machine and journal, for 1, 2 and 4 threads.
# It makes a small crate in a temporary folder and runs it unproved (`rt try`); it is no part of the gate.
set -euo pipefail
here=$(cd "$(dirname "$0")" && pwd)
top=$(cd "$here/../.." && pwd)
work=$(mktemp -d)
trap 'rm -rf "$work"' EXIT
mkdir -p "$work/crates/rates/src" "$work/crates/turn_lock"
for part in src specs proofs; do
    cp -r "$top/crates/turn_lock/$part" "$work/crates/turn_lock/$part"
done
cp "$here/main.txt" "$work/crates/rates/src/main.rt"
cp "$top/HANDLES" "$work/HANDLES"
printf 'turn_lock: atomic_table thiserror\nrates: turn_lock\n' >"$work/crates.txt"
cd "$work/crates/rates" && rt try
