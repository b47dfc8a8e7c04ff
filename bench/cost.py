#!/usr/bin/env python3
"""Writes docs/COST.md from what a run of the gate and a run of the benchmark printed.

    (time .ci/run) > gate.log 2>&1;  bench/run > bench.log;  bench/cost.py gate.log bench.log > docs/COST.md
"""
import collections
import os
import platform
import re
import sys

gate, bench = (open(name, encoding="utf-8").read() for name in sys.argv[1:3])
proved = list(dict.fromkeys(re.findall(r"^rt: (\w+) proved", gate, re.M)))  # today's rt tells no seconds of a crate or an edit
edits = collections.defaultdict(list)
for crate, label in re.findall(r"^rt: must-fail (\w+)/(\w+)\.edit: refused, as it must be", gate, re.M):
    edits[crate].append(label)
real = re.search(r"^real\s+(\d+)m([\d.]+)s", gate, re.M)
user = re.search(r"^user\s+(\d+)m([\d.]+)s", gate, re.M)
verdict = re.findall(r"^.*\d+ passed, \d+ failed$", gate, re.M)
compared = re.search(r"^seed .*$", gate, re.M)
stack = re.search(r"^bytes of stack: .*$", gate, re.M)


def minutes(m):
    return f"{int(m[1]) + float(m[2]) / 60:.1f} minutes" if m else "(not timed)"


print("# What it costs\n")
print("Made by `bench/cost.py` from one run of `.ci/run` in a fresh clone and one of `bench/run`.\n")
print("## The gate\n")
print(f"`.ci/run`: {minutes(real)} of wall time, {minutes(user)} of processor time, on {os.cpu_count()} cores ({platform.machine()}). Last line: `{verdict[-1].strip() if verdict else '?'}`.\n")
if compared:
    print(f"The comparison with the second program: {compared[0]}.\n")
if stack:
    print(f"Measured on the 200-port example, {stack[0]}.\n")
print("| crate | edits refused | which |")
print("|---|--:|---|")
for name in proved:
    each = edits.get(name, [])
    print(f"| `{name}` | {len(each)} | {', '.join(each)} |")
print(f"| all | {sum(map(len, edits.values()))} | |\n")
print("## The calls\n")
print("`bench/run`, " + bench.strip().replace("\n\n", "\n\n", 1))
