#!/usr/bin/env python3
"""Idle turns, edits and pages of plain documents by quill.

It wants the built program (crates/quill/out/quill, which `rt run` in crates/quill leaves), and is no part of the gate. Each
figure is the least of so many runs, and what it is for is the difference between two of them.
"""
import os
import sys
import tempfile

sys.path.insert(0, os.path.dirname(os.path.dirname(os.path.abspath(__file__))))
from program import built, documents


def main():
    built()
    with tempfile.TemporaryDirectory() as work:
        for paragraphs, _, quill in documents(work):
            load = quill("load", [])
            settled = quill("load, settle", ["settle"])
            again = quill("and an edit, and settle", ["settle", 'insert 1 0 "x"', "settle"])
            page = quill("load, settle, page", ["settle", "page 1"])
            turns = 5 * paragraphs + 1
            print(f"    {'turns a second, formed':<28} {turns / (settled - load):10.0f}")
            print(f"    {'turns a second, kept':<28} {turns / (again - settled):10.0f}")
            print(f"    {'the page':<28} {(page - settled) * 1000:10.1f} ms")
            if paragraphs <= 10_000:
                edited = quill("load, 100 inserts", [f'insert {place * 4 + 1} 0 "x"' for place in range(100)])
                print(f"    {'an insert':<28} {(edited - load) * 10:10.2f} ms")


main()
