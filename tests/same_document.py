#!/usr/bin/env python3
"""Says by its status whether two files of lines are the same document: the same events with the same names, attributes and
texts, whatever the prefixes are and wherever namespaces are declared.

usage: same_document.py FILE FILE
"""
import sys

from rules import events_of


def document(name):
    """The events of a document, without their lines and prefixes; attributes in any order."""
    with open(name, "rb") as file:
        events, fault = events_of(file.read())
    if fault:
        sys.exit(f"{name}: {fault.which} line {fault.line}")
    return [plain(event) for event in events]


def plain(event):
    kind, _, *rest = event
    if kind != "start":
        return kind, *rest
    name, attributes = rest
    return kind, name[1:], sorted((other[1:], value) for other, value in attributes)


def main():
    if document(sys.argv[1]) != document(sys.argv[2]):
        sys.exit("not the same document")


if __name__ == "__main__":
    main()
