#!/usr/bin/env python3
"""Turns the names of this repository's definitions and lemmas to today's spelling: words in snake case, types in
camel case. The names stand in respell.tsv, old and new. Run once, at the top, after the kit's port.py.

In .antt files, .rt files and edits each whole name is replaced; in comments and pages only names that no English
word has. Names of functions, strings, inputs and outputs are not in the table. `rt fmt` then lays the crates out.
"""
import os
import re
import subprocess

HERE = os.path.dirname(os.path.realpath(__file__))
TOP = os.path.dirname(HERE)
with open(os.path.join(HERE, "respell.tsv"), encoding="utf-8") as it:
    TABLE = dict(line.rstrip("\n").split("\t") for line in it)
NAME = re.compile(r"(?<![\w'·-])[A-Za-z][\w'-]*(?![\w'·-])")
STRING = re.compile(r'b?"(?:[^"\\]|\\.)*"')


def names(text):
    return NAME.sub(lambda m: TABLE.get(m.group(0), m.group(0)), text)


def in_words(text):
    """Only names with a capital letter inside: no English word has one."""
    return NAME.sub(lambda m: TABLE.get(m.group(0), m.group(0)) if re.search("[a-z][A-Z]|^[A-Z].*-", m.group(0)) else m.group(0), text)


def outside_strings(text):
    out, at = "", 0
    for m in STRING.finditer(text):
        out += names(text[at : m.start()]) + m.group(0)
        at = m.end()
    return out + names(text[at:])


def line_of(text, comment):
    cut = text.find(comment)
    # a comment mark inside a string is no comment; no line of this repository has both
    if cut < 0:
        return outside_strings(text)
    return outside_strings(text[:cut]) + in_words(text[cut:])


def turn(path, f):
    with open(path, encoding="utf-8") as it:
        old = it.read()
    new = "\n".join(f(line) for line in old.split("\n"))
    if new != old:
        with open(path, "w", encoding="utf-8") as it:
            it.write(new)


def renamed(text):
    """The crate log, whose name a library of the kit has, is message_log."""
    text = re.sub(r"(?<![\w:.])log::", "message_log::", text)
    return re.sub(r"\bRattle\.log\.", "Rattle.message_log.", text)


def rename_log(crates):
    if os.path.isdir(os.path.join(crates, "log")):
        os.rename(os.path.join(crates, "log"), os.path.join(crates, "message_log"))
    turn(os.path.join(TOP, "crates.txt"), lambda line: line if line.startswith("#") else re.sub(r"(?<!\w)log(?!\w)", "message_log", line))


def spans(text):
    """In a page, what stands between backticks."""
    return re.sub(r"`[^`]*`", lambda m: in_words(m.group(0)), text)


def main():
    crates = os.path.join(TOP, "crates")
    rename_log(crates)
    for folder, dirs, files in os.walk(crates):
        dirs[:] = sorted(d for d in dirs if d not in ("out", "target"))
        for name in sorted(files):
            path = os.path.join(folder, name)
            if name.endswith(".antt"):
                turn(path, lambda line: renamed(line_of(line, "--")))
            elif name.endswith(".rt"):
                turn(path, lambda line: renamed(line_of(line, "//")))
            elif name.endswith(".edit"):
                turn(path, lambda line: renamed(outside_strings(line)))
    pages = [os.path.join(TOP, "README.md")] + [os.path.join(TOP, "docs", p) for p in sorted(os.listdir(os.path.join(TOP, "docs"))) if p.endswith(".md")]
    for page in pages:
        turn(page, spans)
    for crate in sorted(os.listdir(crates)):
        if os.path.isdir(os.path.join(crates, crate, "src")):
            subprocess.run(["rt", "fmt"], cwd=os.path.join(crates, crate), stdout=subprocess.DEVNULL, check=False)


main()
