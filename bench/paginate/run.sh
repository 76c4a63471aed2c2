#!/usr/bin/env bash
# Nanoseconds a paragraph for placing 1,000, 10,000 and 40,000 paragraphs of five lines, of which each tenth has a footnote.
# It makes a small program in a temporary folder and runs it unproved; it is no part of the gate.
source "$(dirname "$0")/../setup.sh"
setup places doc_model style_model page_style page_model paginate
echo 'places: doc_model page_model paginate' >>"$work/crates.txt"
cd "$work/crates/places" && rt try
