#!/usr/bin/env python3
"""Spells this repository's own definitions, fields and lemmas as the library does: words in snake case, facts and types in camel case.

usage: tools/respell.py        at the top, once, right after the kit's port.py

A name turns whole: `otherMark` to `other_mark`, `end-at` to `end_at`, `eq→eqb` to `eq_eqb`. Functions of src/, C names, strings, inputs and
outputs keep their names. A name that a library has, too, stays wherever a file imports it from there. Lines that begin 'meets:' say where
two names would be one; nothing is written then.
"""

import os
import re
import sys

TOP = os.path.dirname(os.path.dirname(os.path.realpath(__file__)))
WORD = re.compile(r'[^\s(){}.;,@"«»`]+')
DECLARED = re.compile(r'(?m)^( *)(?:(?:pub|abbrev|unfoldable|opaque|private|ruleset) +)*([^\s(){}.;,@"«»:]+)(?: \{[^{}\n]*\})* :(?= |$)')
USE = re.compile(r"(?m)^(?:ghost )?(?:pub )?use ([^\s{;]+?)(?:\.\{([^}]*)\})?(?: as \S+)?;?$")


def spelled(name):
    words = name.replace("getD", "get_or").replace("-", "_").replace("→", "_")
    return re.sub(r"(?<=[a-z0-9])[A-Z]", lambda m: "_" + m[0].lower(), words)


def is_type(name):
    return re.fullmatch(r"[A-Z][A-Za-z0-9']*", name)


def is_lemma_file(path):
    parts = path.split("/")
    return "specs" in parts or parts[-2] == "proofs"


def files():
    for folder, dirs, names in os.walk(os.path.join(TOP, "crates")):
        dirs[:] = sorted(d for d in dirs if d != "out")
        for n in sorted(names):
            if n.endswith((".antt", ".rt", ".edit")):
                yield os.path.join(folder, n)


def behind(m):
    return m.start() > 0 and m.string[m.start() - 1] == "."


def code_of(text):
    return re.sub(r"(?m)--.*$", "", text)


def main():
    crates = {c for c in os.listdir(os.path.join(TOP, "crates"))}
    texts = {p: open(p, encoding="utf-8").read() for p in files()}

    def own(module):
        m = re.match(r"Rattle\.(\w+)\.", module)
        return bool(m) and m[1] in crates

    declared, table, fields = {}, {}, set()
    for p, t in texts.items():
        if not p.endswith(".antt"):
            continue
        declared[p] = {m[2] for m in DECLARED.finditer(t)}
        if not is_lemma_file(p):
            continue
        for name in declared[p]:
            if not is_type(name) and spelled(name) != name and re.match(r"[A-Za-z]", name):
                table[name] = spelled(name)
        block = None
        for line in t.splitlines():
            m = re.match(r"( *)(?:pub )?(?:record|data) ", line)
            if m:
                block = len(m[1])
            elif line.strip() and block is not None:
                if len(line) - len(line.lstrip()) <= block:
                    block = None
                else:
                    m = DECLARED.match(line)
                    if m and m[2] in table:
                        fields.add(m[2])
    # A lemma that would have its definition's name gets `_lem`.
    definitions = {to for w, to in table.items() if re.search(r"[a-z][A-Z]", w)}
    standing = {n for p in declared if is_lemma_file(p) for n in declared[p] if n not in table}
    for w, to in list(table.items()):
        if "-" in w and (to in definitions or to in standing) and not re.search(r"[a-z][A-Z]", w):
            table[w] = to + "_lem"
    for to in sorted(definitions & standing):
        table[to] = to + "_lem"
    imported, foreign = {}, {}
    for p, t in texts.items():
        imported[p], foreign[p] = set(), set()
        for m in USE.finditer(t):
            names = {n.strip().split(" as ")[0] for n in (m[2] or "").split(",")}
            (imported if own(m[1]) else foreign)[p] |= names
    turned, bad = {}, False
    for p, t in texts.items():
        lemma = p.endswith(".antt") and is_lemma_file(p)
        here = imported[p] | (declared[p] if lemma else set())
        done = {}

        def one(m):
            w = m[0]
            if w.endswith(":") and w[:-1] in table and w[:-1] in here:
                return table[w[:-1]] + ":"
            if w not in table or w in foreign[p]:
                return w
            camel = bool(re.search(r"[a-z][A-Z]", w))
            if re.fullmatch(r"[a-z_]+", w) and (behind(m) or w not in here):
                return w
            if not camel and w not in fields and (behind(m) or w not in here):
                return w
            done[w] = table[w]
            return table[w]

        if p.endswith((".rt", ".edit")):
            new = WORD.sub(lambda m: one(m) if re.search(r"[a-z][A-Z]", m[0]) else m[0], t)
        else:
            new = WORD.sub(one, t)
        if done:
            words = {w for w in WORD.findall(code_of(t))}
            for old, to in done.items():
                if to in words and to not in done and lemma:
                    print(f"meets: {os.path.relpath(p, TOP)}: {old} and {to}")
                    bad = True
            back = {}
            for old, to in done.items():
                if back.setdefault(to, old) != old:
                    print(f"meets: {os.path.relpath(p, TOP)}: {old} and {back[to]}, as {to}")
                    bad = True
        if new != t:
            turned[p] = new
    if bad:
        return 1
    for p, t in turned.items():
        with open(p, "w", encoding="utf-8") as f:
            f.write(t)
    print(f"{len(table)} names, {len(turned)} files")
    return 0


if __name__ == "__main__":
    sys.exit(main())
