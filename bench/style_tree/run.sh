#!/usr/bin/env bash
# Nanoseconds for the effective properties of a style by how many ancestors it has, and for a define and a set_prop right
# after a tree is shared, when the index or a leaf of the list has to be copied.
# It makes a small crate in a temporary folder, proves it and runs it as LLVM builds it; it is no part of the gate.
source "$(dirname "$0")/../setup.sh"
setup calls doc_model style_model share_vec style_tree
cp "$here/trees.txt" "$work/crates/calls/src/trees.rt"
echo 'calls: doc_model style_tree' >>"$work/crates.txt"
cd "$work/crates/calls" && rt run
