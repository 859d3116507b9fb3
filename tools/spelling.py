#!/usr/bin/env python3
"""Brings the names of this repository's own definitions and lemmas to the kit's spelling: words in snake case.

usage: python3 tools/spelling.py        at the top, once, on what port.py left

It goes over the .rt, .antt and .edit files of crates/ and the pages, and leaves strings, the names of functions of src/, of
exports, and what stands in tests/ and include/ as they are. Where a new name would meet one that stands there already, the
other is renamed, by the list ASIDE.
"""

import os
import re

WORD = re.compile(r"(?<![\w'′₀-₉-])[A-Za-z_][\w'′₀-₉-]*")
CAMEL = re.compile(r"[a-z][a-z0-9]*[A-Z]")

# in this file, this name, which is in the way of a definition's new one
ASIDE = [
    ("crates/verifying/proofs/Rounds.antt", "by_state", "by_tests"),
    ("crates/trace/proofs/Checked.antt", "last_line", "last_line-is"),
    ("crates/trace/proofs/rows/put_last/Proof.antt", "last_line", "last_line-is"),
    ("crates/withinreach/proofs/AllSteps.antt", "left_after", "left_then"),
    ("crates/startarea/proofs/StartFirsts.antt", "is_one", "one_is"),
    ("crates/encoder/proofs/RowSymbols.antt", "row_count", "length-row_numbers"),
    ("crates/decoder/proofs/Judgements.antt", "row_count", "length-row_numbers"),
    ("crates/decoder/proofs/ReadingBack.antt", "row_count", "length-row_numbers"),
    ("crates/decoder/proofs/Promises.antt", "row_count", "length-row_numbers"),
    ("crates/judging/proofs/judge/Proof.antt", "row_count", "length-row_numbers"),
    ("crates/laying/proofs/CodeRow.antt", "row_count", "length-row_numbers"),
    ("crates/laying/proofs/Encoded.antt", "row_count", "length-row_numbers"),
    ("crates/symbols/proofs/TableRules.antt", "row_number", "table_row-number"),
    ("crates/evaluation/proofs/Horner.antt", "row_number", "table_row-number"),
    ("crates/ordinates/proofs/norm/Proof.antt", "row_number", "table_row-number"),
    ("crates/workarea/proofs/Sizes.antt", "row_number", "row_number-below"),
    ("crates/workarea/proofs/area/row_place/Proof.antt", "row_number", "row_number-below"),
    # labels of clauses that the port named
    ("crates/decoder/src/lib.rt", "work_after", "work_left"),
    ("crates/decoder/src/lib.rt", "message_after", "message_left"),
    ("crates/decoder/src/lib.rt", "corrected_after", "corrected_left"),
    ("crates/steps/src/service.rt", "work_after", "work_left"),
    ("crates/steps/src/service.rt", "votes_after", "votes_left"),
    ("crates/steps/src/service.rt", "output_after", "output_left"),
    ("crates/voting/src/lib.rt", "work_after", "work_left"),
    ("crates/voting/src/lib.rt", "votes_after", "votes_left"),
    ("crates/encoder/src/lib.rt", "output_after", "output_left"),
]


def snake(word):
    parts = word.replace("getD", "get_or").split("-")
    return "-".join(part if part[:1].isupper() else re.sub(r"[A-Z]+", lambda m: m.group(0).lower(), re.sub(r"(?<=[a-z0-9])(?=[A-Z])", "_", part)) for part in parts)


def is_camel(word):
    return any(CAMEL.match(part) for part in word.split("-"))


def names_of(top):
    """The names in question: those that stand in code, outside comments and strings."""
    found = set()
    for path in texts(top):
        if path.endswith((".rt", ".antt")):
            with open(path, encoding="utf-8") as f:
                text = f.read()
            text = re.sub(r"(?m)(^|\s)(--|//).*$", "", re.sub(r'"(?:[^"\\\n]|\\.)*"', "", text))
            found |= {word for word in WORD.findall(text) if is_camel(word)}
    return found


def texts(top):
    for folder, dirs, files in os.walk(os.path.join(top, "crates")):
        dirs[:] = sorted(d for d in dirs if d not in ("out", "data"))
        for name in sorted(files):
            if name.endswith((".rt", ".antt", ".edit")):
                yield os.path.join(folder, name)
    yield os.path.join(top, "README.md")
    for folder, _, files in os.walk(os.path.join(top, "docs")):
        for name in sorted(files):
            if name.endswith(".md") and name != "PORT.md":
                yield os.path.join(folder, name)


def main():
    top = os.getcwd()
    for file, old, new in ASIDE:
        path = os.path.join(top, file)
        with open(path, encoding="utf-8") as f:
            text = f.read()
        with open(path, "w", encoding="utf-8") as f:
            f.write(WORD.sub(lambda m: new if m.group(0) == old else m.group(0), text))
    names = names_of(top)
    turn = lambda piece: WORD.sub(lambda m: snake(m.group(0)) if m.group(0) in names else m.group(0), piece)
    for path in texts(top):
        with open(path, encoding="utf-8") as f:
            text = f.read()
        if path.endswith(".md"):
            turned = re.sub(r"`[^`\n]*`", lambda m: turn(m.group(0)), text)
        elif path.endswith(".rt"):
            turned = "".join(piece if k % 2 else turn(piece) for k, piece in enumerate(re.split(r'("(?:[^"\\\n]|\\.)*")', text)))
        else:
            turned = turn(text)
        if turned != text:
            with open(path, "w", encoding="utf-8") as f:
                f.write(turned)


main()
