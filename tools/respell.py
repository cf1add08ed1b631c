#!/usr/bin/env python3
"""Respells this repository's own names of definitions, fields, lemmas and their variables in snake case.

usage: python3 tools/respell.py    at the top, once, after the toolchain's own script of the same purpose

It goes over the .antt and .rt files of crates/: `byteStrands` becomes `byte_strands`, `clean-proper` becomes
`clean_proper`. A dash stays where it joins the names of two definitions (JOINED), in names of the library, and in the
names that the check gives to goals and steps. Types and modules keep their capitals. It goes over whole files, strings
too, but passes over what follows a backslash; files of edits, inputs and outputs are not read. It stops where two names
of one file, or two old names, would fall together, and prints a new name that is a definition elsewhere.
"""

import os
import re
import sys

# the dash joins the names of two definitions, the outer one first
JOINED = {
    "length-byteTapes": "length-byte_tapes",
    "length-tapes": "length-tapes",
    "length-tapesFrom": "length-tapes_from",
    "tapesFrom-append": "tapes_from-append",
    "count-clean": "count-clean",
    "count-placed": "count-placed",
    "count-widened": "count-widened",
}
# a name that would fall together with a definition, a function or a field
OTHERS = {
    "byte-tapes": "byte_tapes_lem",
    "header-faults": "header_faults_lem",
    "header-in": "header_in_lem",
    "long-files-list-alike": "long_files_list_alike_lem",
    "long-files-read-alike": "long_files_read_alike_lem",
    "allLimits": "every_limit",
    "byteStrands": "byte_strand_count",
    "contentText": "text_of_content",
    "pairTable": "pairs_table",
    "lineTable": "lines_table",
}

WORD = re.compile(r"(?<![\w'\-◌\\])[A-Za-z][\w']*(?:-[\w'≡≤<+*]+)*")
CAMEL = re.compile(r"[a-z][a-z0-9]*(?:[A-Z][a-z0-9]*)+'*$")
HEAD = re.compile(r"^(?:(?:abbrev|unfoldable|pub)\s+)*([A-Za-z][\w'\-]*)\s*:\s", re.M)
FIELD = re.compile(r"^  pub ([A-Za-z][\w'\-]*)\s*:\s", re.M)
USES = re.compile(r"^use ([\w.+'\-]+)\.\{(.*)\}\s*$", re.M)


def files():
    for folder, dirs, names in os.walk("crates"):
        dirs[:] = sorted(d for d in dirs if d != "out")
        for name in sorted(names):
            if name.endswith((".antt", ".rt")):
                yield os.path.join(folder, name)


def is_goals(path):
    return os.path.basename(path) in ("Answers.antt", "Invariants.antt")


def snake(name):
    name = re.sub(r"(?<=[a-z0-9])([A-Z])", lambda m: "_" + m.group(1).lower(), name)
    return name.replace("-", "_")


def main():
    texts = {p: open(p, encoding="utf-8").read() for p in files()}
    own, fields, library = set(), set(), set()
    for path, text in texts.items():
        if not path.endswith(".antt"):
            continue
        for module, names in USES.findall(text):
            if ".std." in module or module.split(".")[0] != "Rattle" or module.endswith((".Goals", ".Given")):
                library.update(n.strip() for n in names.split(","))
        if not is_goals(path):
            own.update(HEAD.findall(text))
            fields.update(FIELD.findall(text))
    respelled = {}

    def turn(path, text):
        def word(m):
            name = m.group(0)
            dotted = text[: m.start()].endswith(".")
            if dotted and name not in fields and not CAMEL.match(name):
                return name
            if name in library or name in JOINED:
                return JOINED.get(name, name)
            if name in OTHERS:
                return OTHERS[name]
            dashed = "-" in name and name[0].islower() and not path.endswith(".rt")
            ours = name in own or name in fields or not is_goals(path)
            if not CAMEL.match(name) and not (dashed and ours):
                return name
            respelled[name] = snake(name)
            return respelled[name]

        return WORD.sub(word, text)

    turned = {p: turn(p, t) for p, t in texts.items()}
    before = {p: set(WORD.findall(t)) for p, t in texts.items()}
    clash = False
    for old, new in sorted(respelled.items()):
        where = [p for p in texts if old in before[p] and new in before[p]]
        others = [o for o, n in respelled.items() if n == new and o != old]
        if where or others or (new in own | fields):
            print(f"look: {old} becomes {new}: {' '.join(others)} {' '.join(where)}", file=sys.stderr)
            clash = clash or bool(where or others)
    if clash:
        raise SystemExit(1)
    for path, text in turned.items():
        if text != texts[path]:
            with open(path, "w", encoding="utf-8") as f:
                f.write(text)
    print(f"{len(respelled)} names respelled")


main()
