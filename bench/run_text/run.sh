#!/usr/bin/env bash
# Nanoseconds for an insert of one item into a `RunText` and into a plain `Vec`, each over a list of 30,000 items.
# The `Vec` gets fewer inserts, and at random places both do, since a million would take minutes.
# It makes a small crate in a temporary folder, proves it and runs it as LLVM builds it; it is no part of the gate.
set -euo pipefail
here=$(cd "$(dirname "$0")" && pwd)
top=$(cd "$here/../.." && pwd)
work=$(mktemp -d)
trap 'rm -rf "$work"' EXIT
mkdir -p "$work/crates/inserts/src" "$work/crates/run_text"
for part in src proofs; do
    cp -r "$top/crates/run_text/$part" "$work/crates/run_text/$part"
done
cp "$here/main.txt" "$work/crates/inserts/src/main.rt"
printf 'run_text:\ninserts: run_text\n' >"$work/crates.txt"
cd "$work/crates/inserts" && rt run
