#!/usr/bin/env python3
"""Files of plain paragraphs, and files as a word processor writes them, loaded and saved by quill, beside xmllint on the same files.

The second kind has the tables of automatic styles, list styles, spans, notes, fields and settings that such files have: a file is
made here, with as many automatic styles as paragraphs divided by eight. The run wants the built program (crates/quill/out/quill,
which `rt run` in crates/quill leaves) and, for the comparison, xmllint (Debian's libxml2-utils). It is no part of the gate. Each
figure is the least of so many runs.
"""
import os
import shutil
import sys
import tempfile

sys.path.insert(0, os.path.dirname(os.path.dirname(os.path.abspath(__file__))))
from program import QUILL, WORDS, built, plain_file, row

NAMESPACES = {
    "office": "urn:oasis:names:tc:opendocument:xmlns:office:1.0",
    "style": "urn:oasis:names:tc:opendocument:xmlns:style:1.0",
    "text": "urn:oasis:names:tc:opendocument:xmlns:text:1.0",
    "table": "urn:oasis:names:tc:opendocument:xmlns:table:1.0",
    "draw": "urn:oasis:names:tc:opendocument:xmlns:drawing:1.0",
    "fo": "urn:oasis:names:tc:opendocument:xmlns:xsl-fo-compatible:1.0",
    "svg": "urn:oasis:names:tc:opendocument:xmlns:svg-compatible:1.0",
    "config": "urn:oasis:names:tc:opendocument:xmlns:config:1.0",
    "meta": "urn:oasis:names:tc:opendocument:xmlns:meta:1.0",
    "xlink": "http://www.w3.org/1999/xlink",
    "dc": "http://purl.org/dc/elements/1.1/",
    "loext": "urn:org:documentfoundation:names:experimental:office:xmlns:loext:1.0",
}


def styles():
    yield ' <office:styles>\n  <style:default-style style:family="paragraph">\n'
    yield '   <style:paragraph-properties fo:orphans="2" fo:widows="2" style:tab-stop-distance="1.251cm"/>\n'
    yield '   <style:text-properties fo:font-size="12pt" fo:language="en" fo:country="GB"/>\n  </style:default-style>\n'
    yield '  <style:style style:name="Standard" style:family="paragraph" style:class="text"/>\n'
    yield '  <style:style style:name="Footnote" style:family="paragraph" style:parent-style-name="Standard" style:class="extra"/>\n'
    for level in range(1, 11):
        yield (
            f'  <style:style style:name="Heading_20_{level}" style:display-name="Heading {level}" style:family="paragraph" '
            f'style:parent-style-name="Standard" style:next-style-name="Standard" style:default-outline-level="{level}">\n'
            f'   <style:paragraph-properties fo:margin-top="0.4cm" fo:margin-bottom="0.2cm" fo:keep-with-next="always"/>\n'
            f'   <style:text-properties fo:font-size="{20 - level}pt" fo:font-weight="bold"/>\n  </style:style>\n'
        )
    yield '  <text:outline-style style:name="Outline">\n'
    for level in range(1, 11):
        yield f'   <text:outline-level-style text:level="{level}" style:num-format="1" style:num-suffix="." text:display-levels="{level}"/>\n'
    yield '  </text:outline-style>\n'
    yield '  <text:list-style style:name="Numbers">\n'
    for level in range(1, 11):
        yield f'   <text:list-level-style-number text:level="{level}" style:num-format="1" style:num-suffix=")"/>\n'
    yield '  </text:list-style>\n </office:styles>\n'


def automatic(count):
    yield ' <office:automatic-styles>\n'
    for number in range(count):
        yield (
            f'  <style:style style:name="P{number}" style:family="paragraph" style:parent-style-name="Standard">\n'
            f'   <style:paragraph-properties fo:margin-left="{number % 40}mm" fo:text-indent="0cm" style:auto-text-indent="false"/>\n'
            f'   <style:text-properties officeooo:rsid="00{number:06x}"/>\n  </style:style>\n'.replace("officeooo:", "loext:")
        )
        yield f'  <style:style style:name="T{number}" style:family="text">\n   <style:text-properties fo:font-style="italic"/>\n  </style:style>\n'
    yield '  <style:page-layout style:name="pm1">\n   <style:page-layout-properties fo:page-width="21.001cm" fo:page-height="29.7cm" fo:margin="2cm"/>\n'
    yield '  </style:page-layout>\n </office:automatic-styles>\n'
    yield ' <office:master-styles>\n  <style:master-page style:name="Standard" style:page-layout-name="pm1">\n'
    yield '   <style:footer><text:p text:style-name="Standard">Page <text:page-number text:select-page="current">1</text:page-number></text:p></style:footer>\n'
    yield '  </style:master-page>\n </office:master-styles>\n'


def paragraph(number, count):
    words = [WORDS[(number * 7 + place * 3) % len(WORDS)] for place in range(12)]
    style = number % count
    if number % 50 == 0:
        return f'   <text:h text:style-name="Heading_20_1" text:outline-level="1">{" ".join(words[:4])}</text:h>\n'
    if number % 11 == 0:
        return (
            f'   <text:list xml:id="list{number}" text:style-name="Numbers">\n    <text:list-item>\n     '
            f'<text:p text:style-name="P{style}">{" ".join(words)}</text:p>\n    </text:list-item>\n   </text:list>\n'
        )
    text = f'{" ".join(words[:5])} <text:span text:style-name="T{style}">{" ".join(words[5:8])}</text:span> {" ".join(words[8:])}'
    if number % 17 == 0:
        text += (
            f'<text:note text:id="ftn{number}" text:note-class="footnote"><text:note-citation>1</text:note-citation>'
            f'<text:note-body>\n     <text:p text:style-name="Footnote">{" ".join(words[:6])}</text:p></text:note-body></text:note>'
        )
    if number % 23 == 0:
        text += f'<text:bookmark text:name="mark{number}"/><text:s text:c="2"/><text:tab/>, page <text:page-number text:select-page="current">2</text:page-number>'
    return f'   <text:p text:style-name="P{style}">{text}</text:p>\n'


def rich_file(path, paragraphs):
    count = paragraphs // 8
    with open(path, "w", encoding="ascii", newline="") as out:
        out.write('<?xml version="1.0" encoding="UTF-8"?>\n\n<office:document')
        for prefix, name in NAMESPACES.items():
            out.write(f' xmlns:{prefix}="{name}"')
        out.write(' office:version="1.3" office:mimetype="application/vnd.oasis.opendocument.text">\n')
        out.write(' <office:meta><meta:generator>bench</meta:generator></office:meta>\n <office:settings>\n')
        for number in range(60):
            out.write(f'  <config:config-item config:name="Item{number}" config:type="boolean">false</config:config-item>\n')
        out.write(' </office:settings>\n')
        out.writelines(styles())
        out.writelines(automatic(count))
        out.write(' <office:body>\n  <office:text>\n   <text:sequence-decls>\n')
        out.write('    <text:sequence-decl text:display-outline-level="0" text:name="Figure"/>\n   </text:sequence-decls>\n')
        for number in range(paragraphs):
            out.write(paragraph(number, count))
        out.write('  </office:text>\n </office:body>\n</office:document>\n')


def main():
    built()
    peer = shutil.which("xmllint")
    with tempfile.TemporaryDirectory() as work:
        for label, make in (("plain", plain_file), ("with styles, lists and notes", rich_file)):
            for paragraphs in (1_000, 10_000, 40_000):
                path = os.path.join(work, "file.fodt")
                make(path, paragraphs)
                print(f"{label}, {paragraphs} paragraphs, {os.path.getsize(path)} bytes")
                saved = row("quill save", [QUILL, "save", path])
                if peer:
                    row("xmllint --noout", [peer, "--noout", path])
                    spelled = row("xmllint --c14n", [peer, "--c14n", path])
                    print(f"    {'quill save : --c14n':<28} {saved / spelled:10.2f}")


main()
