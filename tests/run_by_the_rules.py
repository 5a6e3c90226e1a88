#!/usr/bin/env python3
"""Runs random thin stylesheets on random small documents by the program and by the rules, read anew here, and compares
both: what is written, the line on the diagnostic output, and the status.

usage: run_by_the_rules.py PROGRAM [SEED [COUNT]]
Without a seed it takes a new one, and prints it.
"""
import os
import random
import re
import subprocess
import sys
import tempfile

from copy_by_the_rules import random_document
from rules import Fault, Result, events_of

SHEET = 1_048_576
XSLT = "http://www.w3.org/1999/XSL/Transform"
LETTERS = re.compile("[A-Za-z]+")


# ---- stylesheets


class Broken(Exception):
    """No thin stylesheet has the event that stands on this line."""


def token(event):
    """What an event of a stylesheet says, as a tuple that begins with its kind; nothing where it is no thin stylesheet's."""
    kind, _, *rest = event
    if kind != "start":
        return (kind, *rest)
    (prefix, uri, local), attributes = rest
    values = {name[2] if not name[1] else None: value for name, value in attributes}
    if uri != XSLT:
        return ("literal", rest[0]) if not prefix and LETTERS.fullmatch(local) and not attributes else None
    if local == "stylesheet" and values == {"version": "3.0"}:
        return ("stylesheet",)
    if local == "mode" and set(values) == {"streamable", "on-no-match"} and values["streamable"] == "yes":
        return ("mode", values["on-no-match"]) if values["on-no-match"] in ("text-only-copy", "shallow-copy") else None
    if local == "template" and set(values) == {"match"} and LETTERS.fullmatch(values["match"]):
        return "template", values["match"]
    return (local,) if local in ("text", "apply-templates") and not attributes else None


class Tokens:
    """What the events of a stylesheet say, one behind the other, without what does not count."""

    def __init__(self, events):
        self.tokens, inside, self.place = [], False, 0
        for event in events:
            here = token(event)
            if event[0] == "instruction" or event[0] == "text" and not inside and not event[2].strip(" \t\r\n"):
                continue
            self.tokens.append((here, event[1]))
            inside = here == ("text",) if event[0] != "text" else inside

    def next(self, *kinds):
        """Takes the next, which is of one of these kinds, and answers it and its line."""
        here, line = self.tokens[self.place]
        is_said = here is not None and here[0] == "text" and len(here) == 2
        kind = None if here is None else "said" if is_said else here[0]
        if kind not in kinds:
            raise Broken(line)
        self.place += 1
        return kind, here[1:], line


def body_of(tokens, *end):
    """The parts of a body up to its end, each a tuple of its kind, its line and what it has."""
    parts = []
    while True:
        kind, rest, line = tokens.next("literal", "text", "apply-templates", "end")
        if kind == "end":
            return parts
        if kind == "literal":
            parts.append(("element", line, rest[0], body_of(tokens)))
        elif kind == "text":
            kind, said, _ = tokens.next("said", "end")
            parts.append(("text", line, said[0] if kind == "said" else ""))
            if kind == "said":
                tokens.next("end")
        else:
            tokens.next("end")
            parts.append(("apply", line))


def sheet_of(events):
    """Whether a thin stylesheet copies, and its templates: the name that each matches, its line and its body."""
    tokens, templates = Tokens(events), []
    tokens.next("stylesheet")
    mode = tokens.next("mode")[1][0]
    tokens.next("end")
    while True:
        kind, rest, line = tokens.next("template", "end")
        if kind == "end":
            tokens.next("close")
            return mode == "shallow-copy", templates
        templates.append((rest[0], line, body_of(tokens)))


def applies(part):
    return part[0] == "apply" or part[0] == "element" and any(map(applies, part[3]))


def culprits(line, body):
    """The lines of an element and of those in it of which two parts apply templates, and that hold no other such."""
    inner = [found for part in body if part[0] == "element" for found in culprits(part[1], part[3])]
    return inner or ([line] if sum(map(applies, body)) > 1 else [])


def read_by_the_rules(data):
    """A stylesheet and nothing; or nothing, and the line of its fault with the status."""
    events, fault = events_of(data)
    if len(data) > SHEET and not (fault and fault.line <= data[:SHEET].count(b"\n")):
        fault = Fault("Bytes", data[:SHEET].count(b"\n") + 1)
    if fault:
        return None, (fault.message("sheet"), fault.status())
    try:
        is_copying, templates = sheet_of(events)
    except Broken as broken:
        return None, (b"error XTSE0010 line %d\n" % broken.args[0], 2)
    found = [line for _, start, body in templates for line in culprits(start, body)]
    if found:
        return None, (b"error XTSE3430 line %d\n" % min(found), 2)
    return (is_copying, templates), None


# ---- documents and results


class Waits(Exception):
    """What comes next stands in an open node."""


def tree_of(events):
    """The document node. A node is its start (nothing for the document node), its children and whether it is open; other
    children are events."""
    document = [None, [], True]
    opened = [document]
    for event in events:
        if event[0] == "start":
            opened.append([event, [], True])
            opened[-2][1].append(opened[-1])
        elif event[0] == "end":
            opened.pop()[2] = False
        elif event[0] == "close":
            document[2] = False
        else:
            opened[-1][1].append(event)
    return document


class Run:
    def __init__(self, sheet):
        (self.is_copying, self.templates), self.result = sheet, Result()

    def apply(self, node):
        """Templates are applied to the children of a node."""
        _, children, is_open = node
        for child in children:
            if isinstance(child, list):
                self.element(child)
            elif child[0] == "text":
                self.result.text(child[2])
            elif self.is_copying:
                self.result.instruction(*child[2:])
        if is_open:
            raise Waits

    def element(self, node):
        _, _, name, attributes = node[0]
        chosen = [body for match, _, body in self.templates if (match, "") == (name[2], name[1])]
        if chosen:
            self.body(chosen[-1], node)
        elif self.is_copying:
            self.result.start(name)
            for attribute_name, value in attributes:
                self.result.attribute(attribute_name, value)
            self.apply(node)
            self.result.end()
        else:
            self.apply(node)

    def body(self, parts, node):
        for part in parts:
            if part[0] == "apply":
                self.apply(node)
            elif part[0] == "text":
                self.result.text(part[2])
            else:
                self.result.start(part[2])
                self.body(part[3], node)
                self.result.end()


def by_the_rules(sheet, data):
    """What is written, the line on the diagnostic output, and the status."""
    accepted, refused = read_by_the_rules(sheet)
    if refused:
        return b"", *refused
    events, fault = events_of(data)
    run = Run(accepted)
    try:
        run.apply(tree_of(events))
        run.result.close()
    except Waits:
        pass
    return run.result.bytes, fault.message("document") if fault else b"", fault.status() if fault else 0


# ---- random stylesheets


def random_body(rng, depth, may_apply):
    """The lines of a body, and whether templates are applied in it."""
    lines, applied = [], False
    for _ in range(rng.randrange(4)):
        chance = rng.random()
        free = may_apply and (not applied or rng.random() < 0.05)
        if chance < 0.4 and depth:
            name = rng.choice(["a", "b", "Out", "p"])
            inner, inside = random_body(rng, depth - 1, free)
            lines += [*rng.choice([[], [], [], ["Axmlns CDATA urn:out"]]), "(" + name, *inner, ")" + name]
            applied = applied or inside
        elif chance < 0.6:
            lines += ["(X:text", *rng.choice([[], ["-t"], ["-two words"], ["- \\n"], ["-é\\\\", "-more"]]), ")X:text"]
        elif free:
            lines += ["(X:apply-templates", ")X:apply-templates"]
            applied = True
        if rng.random() < 0.1:
            lines.append(rng.choice(["- \\n ", "?pi", "L3", "#x", "-"]))
    return lines, applied


def random_sheet(rng):
    prefix = rng.choice(["xsl", "xsl", "t"])
    odd = [
        "", "C", "(a", ")a", "-t", "-", "x", "(X:text", ")X:template", "(X:message", "Amatch CDATA a", "Amatch CDATA a1", "Aselect CDATA b", "A CDATA a",
        "(a1", "(q:b", "-a\\b", "(X:apply-templates", ")X:apply-templates", "?pi", "- ", "L2", "Axmlns CDATA urn:x", "Ax IMPLIED",
    ]
    mode = ["Astreamable CDATA yes", "Aon-no-match CDATA " + rng.choice(["text-only-copy", "shallow-copy", "shallow-copy"])]
    lines = rng.choice([[], [], ['?xml version="1.0"'], ["L1 sheet"]]) + [f"Axmlns:{prefix} CDATA {XSLT}", "Aversion CDATA 3.0", "(X:stylesheet"]
    lines += rng.sample(mode, 2) + ["(X:mode", ")X:mode"]
    for _ in range(rng.randrange(4)):
        lines += ["Amatch CDATA " + rng.choice(["a", "b", "Ab"]), "(X:template", *random_body(rng, 3, True)[0], ")X:template", *rng.choice([[], ["-\\n"]])]
    lines += [")X:stylesheet", *rng.choice([[], ["C"]])]
    for _ in range(rng.choice([0, 0, 0, 1, 2])):
        place = rng.randrange(len(lines))
        lines[place : place + rng.choice([0, 1])] = rng.choice([[], [rng.choice(odd)]])
    text = "\n".join(lines).replace("(X:", f"({prefix}:").replace(")X:", f"){prefix}:")
    return text.encode() + (b"\n" if rng.random() < 0.8 else b"")


def main():
    program = sys.argv[1]
    seed = int(sys.argv[2]) if len(sys.argv) > 2 else random.SystemRandom().randrange(10**9)
    count = int(sys.argv[3]) if len(sys.argv) > 3 else 1500
    rng = random.Random(seed)
    statuses = {}
    with tempfile.TemporaryDirectory() as folder:
        names = [os.path.join(folder, name) for name in ("sheet", "document")]
        for number in range(count):
            inputs = random_sheet(rng), random_document(rng)
            for name, data in zip(names, inputs):
                with open(name, "wb") as file:
                    file.write(data)
            run = subprocess.run([program, "run", *names], capture_output=True, check=False)
            expected = by_the_rules(*inputs)
            if (run.stdout, run.stderr, run.returncode) != expected:
                sys.exit(f"seed {seed}, run {number}: {inputs!r} gave {run.stdout!r}, {run.stderr!r}, {run.returncode}, and not {expected!r}")
            statuses[run.returncode] = statuses.get(run.returncode, 0) + 1
    print(f"{count} runs of seed {seed}, of statuses {dict(sorted(statuses.items()))}: as the rules say")


if __name__ == "__main__":
    main()
