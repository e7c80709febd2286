#!/usr/bin/env python3
"""Merges the own tags of the engine into the FIX42.xml that comes with QuickFIX.

    examples/quickfix/merge.py FIX42.xml >GLOBEX-MERGED.xml

It does what the comment in GLOBEX-FIX42.xml says: the three lines go to the end of the message with msgtype 8, and the three
fields go to the end of the fields. Comments of FIX42.xml are lost.
"""

import pathlib
import sys
import xml.etree.ElementTree as xml

EXECUTION_REPORT = "messages/message[@msgtype='8']"


def only(root, path):
    """The one element at a path."""
    found = root.findall(path)
    if len(found) != 1:
        sys.exit(f"merge: {len(found)} elements at {path}, and not one")
    return found[0]


def main():
    if len(sys.argv) != 2:
        sys.exit("merge: the word is the path of FIX42.xml")
    own = xml.parse(pathlib.Path(__file__).with_name("GLOBEX-FIX42.xml")).getroot()
    merged = xml.parse(sys.argv[1]).getroot()
    if (merged.get("major"), merged.get("minor")) != ("4", "2"):
        sys.exit("merge: this is no dictionary of FIX 4.2")
    numbers = {field.get("number") for field in only(merged, "fields")}
    for field in only(own, "fields"):
        if field.get("number") in numbers:
            sys.exit(f"merge: field {field.get('number')} is there before")
    for path in EXECUTION_REPORT, "fields":
        only(merged, path).extend(only(own, path))
    xml.indent(merged)
    sys.stdout.buffer.write(xml.tostring(merged, encoding="utf-8", xml_declaration=True) + b"\n")


main()
