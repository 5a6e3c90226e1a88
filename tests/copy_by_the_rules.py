#!/usr/bin/env python3
"""Copies random small documents by the program and by the rules, and compares what is written, the line on the diagnostic
output and the status.

usage: copy_by_the_rules.py PROGRAM [SEED [COUNT]]
Without a seed it takes a new one, and prints it.
"""
import random
import subprocess
import sys
import tempfile

from rules import XML, copy_by_the_rules

NAMES = ["a", "b", "Ab", "p:a", "q:b", "é", "p:x-1", "xml:a"]
TEXTS = ["", "x", "hello world", "~ !", "\\n", "a\\\\b", "\\012", "\\351", "\\#8364;", "\\#65;z", "é€𐐀", " ", "\t", "\\177"]
FAULTY = [
    b"", b"x", b"(a:", b"(", b")", b"(1", b"-a\\b", b"-\\|", b"-\\400", b"-\\000", b"-\\#0;", b"-\\#55296;", b"-\\#;", b"-\\", b"-\\#1114112;", b"-\\9",
    b"Cx", b"A", b"Aa", b"Aa CDAT x", b"A1 CDATA x", b"Aa IMPLIED x", b"Aa CDATA \\|", b"(a b", b"-\x80", b"-a\0", b"?", b"? x", b"?p:i x",
    b"&e", b"{s", b"}s", b"Da x", b"aN x", b"(a:b:c", b"-\xed\xa0\x80", b"_\xff", b"L\x00",
]
MISPLACED = [b"(a", b")a", b"-t", b"C", b"?pi", b"Aa CDATA 1", b"Aa IMPLIED", b"L1", b"-"]
DECLARATIONS = [
    "xmlns CDATA urn:a", "xmlns CDATA urn:b", "xmlns CDATA ", "xmlns:p CDATA urn:p", "xmlns:p CDATA urn:q", "xmlns:q CDATA urn:q", "xmlns:q CDATA urn:p",
    "xmlns:ns0 CDATA urn:n",
]
BAD_DECLARATIONS = ["xmlns:p CDATA ", "xmlns:xmlns CDATA u", "xmlns:xml CDATA u", "xmlns:z CDATA " + XML, "xmlns:xml CDATA " + XML, "xmlns:p CDATA", "xmlns IMPLIED"]


def attributes(rng):
    """Attribute lines for a start: now and then some that clash."""
    lines = []
    if rng.random() < 0.5:
        lines += rng.sample(DECLARATIONS, rng.choice([1, 1, 1, 2]))
    if rng.random() < 0.02:
        lines.append(rng.choice(BAD_DECLARATIONS))
    for name in rng.sample(NAMES, rng.choice([0, 0, 0, 1, 2, 3])):
        kind = rng.choice(["CDATA", "TOKEN", "ID", "NOTATION", "ENTITY"])
        lines.append(name + " " + rng.choice([f"{kind} " + rng.choice(TEXTS), kind, "IMPLIED"]))
    rng.shuffle(lines)
    return ["A" + line for line in lines]


def random_document(rng):
    """A document of some lines, which may be broken off. The first element binds the prefixes that names use, most times."""
    lines, opened, has_root = [], [], False
    for _ in range(rng.randrange(25)):
        chance = rng.random()
        if chance < 0.04:
            lines.append(rng.choice(FAULTY if chance < 0.02 else MISPLACED))
        elif chance < 0.15:
            lines.append(rng.choice([b"L12", b"#comment", b"s\\x", b"_ \xff", b"i", b"e", b"?pi", b"?xml version=\"1.0\"", b"?go \\n x\\\\", b"?go  "]))
        elif not opened and has_root:
            if rng.random() < 0.9:
                break
            lines.append(b"?pi")
        elif not opened or rng.random() < 0.4:
            name = rng.choice(NAMES[:-1])
            if not has_root and rng.random() < 0.9:
                lines += [b"Axmlns:p CDATA urn:p", b"Axmlns:q CDATA urn:q"]
                lines += [line.encode() for line in attributes(rng) if not line.startswith("Axmlns")]
            else:
                lines += [line.encode() for line in attributes(rng)]
            lines.append(b"(" + name.encode())
            opened.append(name.encode())
            has_root = True
        elif rng.random() < 0.5:
            lines.append(b"-" + rng.choice(TEXTS).encode())
        else:
            lines.append(b")" + opened.pop())
    if rng.random() < 0.6:
        lines.extend(b")" + name for name in reversed(opened))
        if rng.random() < 0.5:
            lines.append(b"C")
    return b"\n".join(lines) + (b"\n" if rng.random() < 0.7 else b"")


def main():
    program = sys.argv[1]
    seed = int(sys.argv[2]) if len(sys.argv) > 2 else random.SystemRandom().randrange(10**9)
    count = int(sys.argv[3]) if len(sys.argv) > 3 else 1500
    rng = random.Random(seed)
    whole = 0
    with tempfile.NamedTemporaryFile() as file:
        for number in range(count):
            data = random_document(rng)
            file.seek(0)
            file.truncate()
            file.write(data)
            file.flush()
            run = subprocess.run([program, "copy", file.name], capture_output=True, check=False)
            expected = copy_by_the_rules(data)
            if (run.stdout, run.stderr, run.returncode) != expected:
                sys.exit(f"seed {seed}, document {number}: {data!r} gave {run.stdout!r}, {run.stderr!r}, {run.returncode}, and not {expected!r}")
            whole += run.returncode == 0
    print(f"{count} documents of seed {seed}, {whole} of them whole: as the rules say")


if __name__ == "__main__":
    main()
