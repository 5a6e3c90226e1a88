#!/usr/bin/env python3
"""Runs the commands that README.md shows, line by line, and compares what each writes with the lines that README has behind
the word `writes`. Commands whose programs the machine lacks are left out, and so is `rt ci`, of which this is a part.

usage: readme.py
"""
import os
import re
import shutil
import subprocess
import sys


def blocks(text):
    """The indented blocks, each with the paragraph in front of it."""
    before, block = "", []
    for line in text.split("\n") + [""]:
        if line.startswith("    "):
            block.append(line[4:])
        else:
            if block:
                yield before, block
                block = []
            if line.strip():
                before = line


def programs(command):
    """The programs that a command calls."""
    return [part.split()[0] for part in re.split(r"[|;]", command) if part.split()]


def main():
    os.chdir(os.path.join(os.path.dirname(os.path.abspath(__file__)), ".."))
    with open("README.md", encoding="utf-8") as file:
        text = file.read()
    count, failed, last, environment = 0, 0, None, dict(os.environ)
    for before, block in blocks(text):
        if before.strip() == "writes":
            wanted = "\n".join(block) + "\n"
            if last is not None and last.strip() != wanted.strip():
                print(f"README.md: another result than\n{wanted}but\n{last}", file=sys.stderr)
                failed += 1
            continue
        for line in block:
            if line.startswith("rt "):
                continue
            if line.startswith("export "):
                environment.update(pair.split("=", 1) for pair in line.split()[1:])
                continue
            if not all(shutil.which(name) for name in programs(line)):
                print(f"README.md: left out, since a program is not there: {line}")
                last = None
                continue
            run = subprocess.run(["bash", "-o", "pipefail", "-c", line], env=environment, stdout=subprocess.PIPE, check=False)
            last = run.stdout.decode()
            count += 1
            if run.returncode:
                print(f"README.md: status {run.returncode}: {line}", file=sys.stderr)
                failed += 1
    print(f"{count} commands of README.md run, {failed} failed")
    return 1 if failed or not count else 0


sys.exit(main())
