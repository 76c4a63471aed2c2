#!/usr/bin/env bash
# Nanoseconds for calls on a `NodeArray` of 1,000, 10,000 and 60,000 paragraphs: a row at a random place, the row of a random
# paragraph, the container of a random row, a random row replaced by a copy of it after a share, and a paragraph put in front
# and taken out again, each after a share. The paragraphs have no text, so that what is measured is the array.
# It makes a small crate in a temporary folder, proves it and runs it as LLVM builds it; it is no part of the gate.
source "$(dirname "$0")/../setup.sh"
setup calls doc_model run_text share_vec tagged_list node_array
mkdir -p "$work/crates/calls/specs" "$work/crates/calls/proofs"
cp "$here/empty.txt" "$work/crates/calls/specs/Empty.antt"
echo 'pub mod Empty' >"$work/crates/calls/specs/Lib.antt"
cp "$here/bodies.txt" "$work/crates/calls/proofs/Bodies.antt"
echo 'pub mod Bodies' >"$work/crates/calls/proofs/Lib.antt"
for part in put_first put_and_take replace_again; do
    mkdir -p "$work/crates/calls/proofs/$part"
    cp "$here/$part.txt" "$work/crates/calls/proofs/$part/Answers.antt"
done
echo 'calls: doc_model node_array run_text' >>"$work/crates.txt"
cd "$work/crates/calls" && rt run
