#!/usr/bin/env python3
"""Writes what C has of include/refusals.txt: the enum of llentisquel.h, between its two marks, and llentisquel_words.h.

    tests/refusals.py            writes both
    tests/refusals.py --check    writes nothing; its status is 1 where the table is wrong or a file is not what it gives
"""
import collections
import pathlib
import re
import sys

INCLUDE = pathlib.Path(__file__).resolve().parent.parent / "include"
TABLE, HEADER, WORDS = (INCLUDE / name for name in ("refusals.txt", "llentisquel.h", "llentisquel_words.h"))
FIRST, LAST = "/* From refusals.txt: */\n", "/* So far refusals.txt. */\n"

Refusal = collections.namedtuple("Refusal", "number name place words")


def refusals():
    """The rows of the table: numbers from 1 on, each once; a % in the words just where there is a place."""
    lines = [line for line in TABLE.read_text(encoding="utf-8").splitlines() if line and line[0] != "#"]
    rows = []
    for expected, line in enumerate(lines, 1):
        row = Refusal(*line.split(" | ")) if line.count(" | ") == 3 else None
        if not row or row.number != str(expected):
            sys.exit(f"{TABLE.name}: this is not refusal {expected} in four fields: {line}")
        if not re.fullmatch(r"PLATE_[A-Z_]+", row.name) or any(row.name == other.name for other in rows):
            sys.exit(f"{TABLE.name}: {row.number} needs a name of its own: {row.name}")
        if row.words.count("%") != (row.place != "0") or not re.fullmatch(r"[ -~]+", row.words) or set(row.words) & set('"\\&*'):
            sys.exit(f"{TABLE.name}: {row.number} needs one % where it has a place, none where it has not, and plain letters: {row.words}")
        rows.append(row)
    return rows


def header(rows):
    """The header with the enum anew between its marks."""
    before, found, rest = HEADER.read_text(encoding="utf-8").partition(FIRST)
    _, closed, behind = rest.partition(LAST)
    if not found or not closed:
        sys.exit(f"{HEADER.name}: its marks are missing: {FIRST.strip()} .. {LAST.strip()}")
    entries = [f"{row.name} = {row.number}{',' if row is not rows[-1] else ''}" for row in rows]
    wide, places = max(map(len, entries)), max(len(row.place) for row in rows)
    lines = [f"  {entry:{wide}} /* {row.place:{places}} | {row.words} */\n" for entry, row in zip(entries, rows)]
    return before + FIRST + "enum {\n" + "".join(lines) + "};\n" + LAST + behind


def words(rows):
    """The header that has the words."""
    cases = "".join(f'    case {row.name}: return "{row.words}";\n' for row in rows)
    return f"""/* The refusals in words, for those who want them. tests/refusals.py writes this file from refusals.txt. */
#ifndef LLENTISQUEL_WORDS_H
#define LLENTISQUEL_WORDS_H

#include "llentisquel.h"

/* What the refusal with this number means; % stands where its place goes. */
static inline const char *plate_refusal_words(uint32_t number) {{
  switch (number) {{
{cases}    default: return "no refusal has this number";
  }}
}}

#endif
"""


def main():
    rows = refusals()
    made = {HEADER: header(rows), WORDS: words(rows)}
    if sys.argv[1:] == ["--check"]:
        stale = [path.name for path, text in made.items() if not path.exists() or path.read_text(encoding="utf-8") != text]
        if stale:
            sys.exit(f"{', '.join(stale)}: not what {TABLE.name} gives; tests/refusals.py writes it")
    elif sys.argv[1:]:
        sys.exit(__doc__)
    else:
        for path, text in made.items():
            path.write_text(text, encoding="utf-8")


main()
