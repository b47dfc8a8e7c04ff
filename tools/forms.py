#!/usr/bin/env python3
"""Counts, in src/, the places of the forms that docs/DESIGN-PASS.md names: tools/forms.py [COMMIT] [--list]
Without a commit it reads the files of the checkout."""
import re
import subprocess
import sys
from collections import defaultdict

args = [a for a in sys.argv[1:] if a != "--list"]
show = "--list" in sys.argv
commit = args[0] if args else None


def run(*words):
    return subprocess.run(words, check=True, capture_output=True, text=True).stdout


def sources():
    if commit:
        names = run("git", "ls-tree", "-r", "--name-only", commit, "crates").split()
    else:
        names = run("git", "ls-files", "crates").split()
    for name in names:
        if re.fullmatch(r"crates/\w+/src/.*\.rt", name):
            yield name, run("git", "show", f"{commit}:{name}") if commit else open(name).read()


def functions(text):
    """Each function as (name, parameters, clauses, body, line)."""
    for m in re.finditer(r"^( *)(?:pub )?(?:extern \"C\" )?fn (\w+)", text, re.M):
        start = m.start()
        end = text.find("\n" + m[1] + "}\n", start)
        whole = text[start:end]
        brace = whole.find("\n" + m[1] + "{\n")
        head = whole if brace < 0 else whole[:brace]
        body = "" if brace < 0 else whole[brace:]
        if brace < 0:  # the brace ends the line of the signature
            cut = whole.find("{\n")
            head, body = whole[:cut], whole[cut:]
        par = re.search(r"\((.*?)\)(?: ->|\n|$| \{|,?\n)", head, re.S)
        params = [p.strip() for p in re.split(r",(?![^<\[(]*[>\])])", par[1]) if p.strip()] if par else []
        clauses = re.findall(r"^\s+(requires|ensures)(?: \w+)? \{(.*)\}$", head, re.M)
        yield m[2], params, clauses, body, text[:start].count("\n") + 1


found = defaultdict(list)


def add(point, name, line, what):
    found[point].append(f"{name}:{line}: {what.strip()}")


facts = defaultdict(set)
shapes = defaultdict(list)
words = {"let", "mut", "if", "else", "while", "for", "in", "return", "match", "loop", "break", "continue", "true", "false", "as"}
for name, text in sources():
    lines = text.split("\n")
    for i, l in enumerate(lines, 1):
        if re.match(r"(pub )?enum \w+", l):
            body = "\n".join(lines[i : i + 20]).split("\n}")[0]
            kinds = re.findall(r"^    (\w+)[({,]", body, re.M)
            if any(k in ("Refused", "Passed", "Ends") for k in kinds):
                add("1 enums of the shape of Option or Result", name, i, l)
        if re.search(r"\bnumber: (\d|u32)|refused\(\d+,|\bnumber,$", l):
            add("1 numbers for refusals", name, i, l)
        if re.search(r"^\s*fits: \d|\.fits ==", l):
            add("1 numbers for kinds", name, i, l)
        if re.match(r"//.*(the number of [\w ]+ where |their number where |`count` where |0 at 0 of one)", l):
            add("1 a number that stands for none", name, i, l)
        if re.search(r"\b(NONE|NO_\w+)\b", l) and "const" in l:
            add("1 a number that stands for none", name, i, l)
        for m in re.finditer(r"\b(wide|wide8|wide32|narrow)\(", l):
            if "fn " not in l:
                add("4 conversions by a function of our own", name, i, l)
        if re.search(r"\b(fill|mark_all|copy|smaller|lower|later)\(", l) and "fn " not in l and not re.search(r"\.fill\(", l):
            add("4 copying, filling, the smaller of two by a function of our own", name, i, l)
        if re.search(r"Plate::no_\w+\(\)|all_channels\(\)|no_dart_marks\(\)|no_story\(\)", l) and "fn " not in l:
            add("2 makers of one array each", name, i, l)
        if re.search(r"\b(number|end_line|numbers)\(rt", l):
            add("4 printing by hand", name, i, l)
        if re.search(r"\bfn\(|\bdyn\b", l):
            add("7 tables of functions", name, i, l)
    for fn, params, clauses, body, line in functions(text):
        for m in re.finditer(r"^( *)(?:'\w+: )?while (.*) \{$", body, re.M):
            inner = body[m.end() :].split("\n" + m[1] + "}")[0]
            at = line + text[: text.find(body)].count("\n") * 0
            add("3 loops that count an index" if re.search(r"^\s*\w+ [+-]= 1;", inner, re.M) else "3 other while loops (no counted index)", name, line, f"{fn}: while {m[2]}")
        for m in re.finditer(r"^ *(?:let .* = )?(?:'\w+: )?loop \{$", body, re.M):
            add("3 other while loops (no counted index)", name, line, f"{fn}: loop")
        if len(params) > 7:
            add("5 functions of more than seven parameters", name, line, f"{fn}: {len(params)}")
        for kind, fact in clauses:
            if kind == "requires":
                for f in re.findall(r"\b([A-Z]\w+) \(?[\w(]", fact):
                    facts[f].add((name, fn))
        tokens = re.findall(r"\w+|[^\w\s]", re.sub(r"//.*", "", body))
        order = {}
        shape = " ".join(t if t in words or not re.match(r"[A-Za-z_0-9]", t) else order.setdefault(t, f"${len(order)}") for t in tokens)
        if len(tokens) > 12:
            shapes[shape].append(f"{name}:{line}: {fn}")
for fact, where in facts.items():
    if len(where) >= 3:
        add("5 facts that three or more functions require", fact, len(where), ", ".join(sorted({f for _, f in where})))
for where in shapes.values():
    if len(where) > 1:
        found["2 bodies of one shape (functions)"] += where
for point in sorted(found):
    print(f"{len(found[point]):4}  {point}")
    if show:
        for place in found[point]:
            print("      " + place)
