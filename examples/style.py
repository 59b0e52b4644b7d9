#!/usr/bin/env python3
"""Sends a style, one XML element in a file, and prints it back:

    python3 examples/style.py examples/style.xml

The package dossier is installed before, by `pip install hosts/python`. A subject of label 0 has the list of a season. A subject
of label 16 takes the style in below it, all elements at once, and sees it with siblings in path order; for 0 nothing has
happened. Sent again, it is refused.
"""
import pathlib
import sys

from dossier import Label, Level, Path, Refused, Store, Text

low, high = Label(Level.OPEN), Label(Level.HOUSE)
season = Path.root().child(10, low)

# the form has nothing behind the end tag, so the file's last line end is left out
sent = pathlib.Path(sys.argv[1]).read_text().removesuffix("\n")

store = Store()
store.insert(low, season, Text("SPRING"))
try:
    print(store.insert_xml(high, season, sent), "elements")
    print(store.view_xml(high))
    print(store.view_xml(low))
    store.insert_xml(high, season, sent)
except Refused as refused:
    print(refused)
