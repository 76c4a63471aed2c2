#!/usr/bin/env bash
# Microseconds to gather 6,000 and 60,000 paragraphs with two fields each, to show all of these fields, and to show
# 10,000 references to one bookmark over all paragraphs.
# It makes a small crate in a temporary folder, proves it and runs it as LLVM builds it; it is no part of the gate.
source "$(dirname "$0")/../setup.sh"
setup fields doc_model field_model number_text page_lookup run_text field_walk
echo 'fields: doc_model field_walk page_lookup run_text sqlite_items' >>"$work/crates.txt"
cd "$work/crates/fields" && rt run
