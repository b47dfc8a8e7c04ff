#!/usr/bin/env python3
"""Writes the example plate files beside this script."""
import itertools
import pathlib
import random

HERE = pathlib.Path(__file__).parent


def plate(ports, pairs, mark=b"FPL", version=1):
    """A plate file of so many ports with these pairs."""
    head = mark + version.to_bytes(2, "little") + bytes([ports]) + len(pairs).to_bytes(2, "little")
    return head + bytes(port for pair in pairs for port in pair)


def joined(ports):
    """Every pair of ports, in dictionary order."""
    return list(itertools.combinations(range(ports), 2))


def wheel(rim):
    """A hub, port 0, joined to each port of a ring."""
    ring = list(range(1, rim + 1))
    return [(0, p) for p in ring] + list(zip(ring, ring[1:] + ring[:1]))


def stacked(ports, seed):
    """A maximal planar plate: each new port is joined to the corners of a triangle. 3V - 6 channels."""
    rng = random.Random(seed)
    pairs, triangles = [(0, 1), (0, 2), (1, 2)], [(0, 1, 2), (0, 1, 2)]
    for p in range(3, ports):
        a, b, c = triangles.pop(rng.randrange(len(triangles)))
        pairs += [(a, p), (b, p), (c, p)]
        triangles += [(a, b, p), (a, c, p), (b, c, p)]
    rng.shuffle(pairs)
    return pairs


THREE_AND_THREE = [(a, b) for a in range(3) for b in range(3, 6)]
TRIANGLE = joined(3)

FILES = {
    "triangle": plate(3, TRIANGLE),
    "four": plate(4, joined(4)),
    "five": plate(5, joined(5)),
    "three-and-three": plate(6, THREE_AND_THREE),
    "wheel": plate(9, wheel(8)),
    "two-hundred": plate(200, stacked(200, 7)),
    "refused-1-cut-off": plate(3, TRIANGLE)[:7],
    "refused-2-mark": plate(3, TRIANGLE, mark=b"FPX"),
    "refused-3-version": plate(3, TRIANGLE, version=3),
    "refused-4-ports": plate(2, TRIANGLE),
    "refused-5-channels": plate(3, TRIANGLE[:2]),
    "refused-6-length": plate(3, TRIANGLE) + b"\0",
    "refused-7-strange-port": plate(3, [(0, 1), (0, 3), (1, 2)]),
    "refused-8-loop": plate(3, [(0, 1), (2, 2), (1, 2)]),
    "refused-9-repeated": plate(3, [(0, 1), (1, 2), (0, 2), (2, 1)]),
    "refused-10-apart": plate(6, [(0, 1), (0, 2), (1, 2), (3, 4), (3, 5), (4, 5)]),
    "refused-11-cut-port": plate(5, [(0, 1), (0, 2), (1, 2), (2, 3), (2, 4), (3, 4)]),
}

for name, file in FILES.items():
    (HERE / f"{name}.fpl").write_bytes(file)
