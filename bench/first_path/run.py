#!/usr/bin/env python3
"""Load, save, edits and undos of plain documents by quill, beside xmllint on the same files.

It wants the built program (crates/quill/out/quill, which `rt run` in crates/quill leaves) and, for the comparison,
xmllint (Debian's libxml2-utils). It is no part of the gate. Each figure is the least of so many runs.
"""
import os
import shutil
import sys
import tempfile

sys.path.insert(0, os.path.dirname(os.path.dirname(os.path.abspath(__file__))))
from program import built, documents, row


def main():
    built()
    peer = shutil.which("xmllint")
    with tempfile.TemporaryDirectory() as work:
        for paragraphs, path, quill in documents(work):
            load = quill("quill: load", [])
            both = quill("quill: load and save", ["save"])
            print(f"    {'quill: save alone':<28} {(both - load) * 1000:10.1f} ms")
            if peer:
                row("xmllint --noout", [peer, "--noout", path])
                spelled = row("xmllint --c14n", [peer, "--c14n", path])
                print(f"    {'load and save : --c14n':<28} {both / spelled:10.2f}")
            if paragraphs <= 10_000:
                inserts = [f'insert {place * 4 + 1} 0 "x"' for place in range(200)]
                edited = quill("quill: load, 200 inserts", inserts)
                undone = quill("quill: and 200 undos", inserts + ["undo"] * 200)
                print(f"    {'an insert, an undo':<28} {(edited - load) * 5:10.2f} ms {(undone - edited) * 5:9.2f} ms")


main()
