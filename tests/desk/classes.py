"""Reads an SVG picture on standard input as XML and prints, for each class that is named, its number of elements."""

import sys
import xml.etree.ElementTree as tree

classes = [c for e in tree.parse(sys.stdin.buffer).iter() for c in e.get("class", "").split()]
print(" ".join(str(classes.count(name)) for name in sys.argv[1:]))
