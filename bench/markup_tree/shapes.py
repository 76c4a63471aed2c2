"""Writes a document of a shape with about so many bytes to standard output: shapes.py SHAPE BYTES."""
import sys

PARTS = {
    "text": "<p>" + "Some words of running text, and then some more. " * 40 + "</p>\n",
    "attributes": '<p a="one" b="two &amp; three" c="' + "value " * 20 + '"/>\n',
    "comments": "<!-- " + "a hidden remark " * 30 + "-->\n",
    "cdata": "<![CDATA[" + "raw <text> & more\n" * 30 + "]]>\n",
    "elements": "<a><b><c/></b></a>\n",
    "small": "<a b='c'/>",
    "short": "<a" + " b=''" * 200 + "/>",
    "references": "&lt;&#65;&#x1F600;&amp;" * 20 + "\n",
    "long_value": None,
    "one_text": None,
}

shape, size = sys.argv[1], int(sys.argv[2])
out = sys.stdout
if shape == "long_value":
    out.write('<root a="' + "x" * size + '"/>')
elif shape == "one_text":
    out.write("<root>" + "x" * size + "</root>")
else:
    part = PARTS[shape]
    out.write("<root>" + part * (size // len(part)) + "</root>")
