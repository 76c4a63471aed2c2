#!/usr/bin/env bash
# Nanoseconds a paragraph for the labels of 10,000 and of 60,000 paragraphs, with one list style, with 4,000 list styles of
# which each paragraph takes the next from the last one down, and with headings. Making a paragraph's head is timed with it.
# It makes a small crate in a temporary folder, proves it and runs it as LLVM builds it; it is no part of the gate.
source "$(dirname "$0")/../setup.sh"
setup labels doc_model field_model number_text list_num
echo 'labels: doc_model list_num' >>"$work/crates.txt"
cd "$work/crates/labels" && rt run
