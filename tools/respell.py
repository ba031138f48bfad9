#!/usr/bin/env python3
"""Brings the names of definitions, fields and lemmas to one spelling: words joined by underscores, facts and records in
camel case. It reads the declarations in specs/ and proofs/ of every crate, and writes each of them anew wherever it is
named: in specs/ and proofs/, and in the clauses and ghost items of src/. Names that the checker makes keep their dashes, as
do comments.

    python3 tools/respell.py            at the top of the repository
    python3 tools/respell.py --list     prints the names, old and new, and changes nothing
"""
import glob
import re
import sys

WORD = r"[A-Za-z][A-Za-z0-9_'′₀-₉-]*"
NAME = re.compile(r"(?<![A-Za-z0-9_'′·◌-])" + WORD)
# A declaration at the head of a line: what stands before the name, and the name with its colon.
DECLARED = re.compile(r"^\s*(?:unfoldable )?(?:abbrev )?(?:pub )?(" + WORD + r") :(?: (.*))?$")
TYPE = re.compile(r"^\s*(?:pub )?(?:record|data) (" + WORD + r")")
BOUND = re.compile(r"\blet (" + WORD + r") :")
GHOST = re.compile(r"\s*(?:ghost|requires|ensures)\b")
# What the checker asks of a proof file keeps its name.
ASKED = re.compile(r"^(?:need|goal|choice|given|needs|goals)\.")


def antt_files():
    return sorted(glob.glob("crates/*/specs/**/*.antt", recursive=True) + glob.glob("crates/*/proofs/**/*.antt", recursive=True))


def source_files():
    return sorted(glob.glob("crates/*/src/**/*.rt", recursive=True))


def respelled(name):
    if name[0].isupper():
        return "".join(part[:1].upper() + part[1:] for part in name.split("-"))
    return name.replace("-", "_")


def declared():
    own, asked = set(), set()
    for path in antt_files():
        for line in open(path, encoding="utf-8"):
            line = line.rstrip("\n")
            found = DECLARED.match(line)
            if found:
                (asked if ASKED.match(found.group(2) or "") else own).add(found.group(1))
            found = TYPE.match(line)
            if found:
                own.add(found.group(1))
            own.update(BOUND.findall(line))
    return own, asked


def names():
    own, asked = declared()
    dashed = {name for name in own - asked if "-" in name}
    return {name: respelled(name) for name in sorted(dashed)}


def turned(text, new):
    return NAME.sub(lambda found: new.get(found.group(0), found.group(0)), text)


def turned_antt(line, new):
    code, dashes, comment = line.partition("--")
    return turned(code, new) + dashes + comment


def turned_source(line, new):
    # Clauses and ghost items alone: the rest is Rust, where a dash is a minus or stands in a string or a comment.
    return turned(line, new) if GHOST.match(line) else line


def main():
    new = names()
    if "--list" in sys.argv:
        for old in new:
            print(old, new[old])
        return
    for paths, turn in (antt_files(), turned_antt), (source_files(), turned_source):
        for path in paths:
            text = open(path, encoding="utf-8").read()
            after = "".join(turn(line, new) for line in text.splitlines(keepends=True))
            if after != text:
                open(path, "w", encoding="utf-8").write(after)


main()
