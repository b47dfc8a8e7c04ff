#!/usr/bin/env python3
"""Writes the standard input of the programs that try calls, and what each must print, from cases written here by hand from document 01."""
import itertools
import pathlib

TOP = pathlib.Path(__file__).parent.parent


def file(ports, pairs, mark=b"FPL", version=1, channels=None):
    """A plate file with these counts and pairs."""
    e = len(pairs) if channels is None else channels
    return mark + version.to_bytes(2, "little") + bytes([ports]) + e.to_bytes(2, "little") + bytes(itertools.chain(*pairs))


def ring(ports, *steps):
    """Each port joined to those so many steps on."""
    return [(p, (p + s) % ports) for s in steps for p in range(ports)]


TRIANGLE = [(0, 1), (0, 2), (1, 2)]
FOUR = list(itertools.combinations(range(4), 2))

# (file, what reading it gives)
PLATES = [
    # the limits: V = 2, 3, 200, 201; E = 2, 3, 600, 601; one byte short, one over
    (file(2, TRIANGLE), "refused 4 0 0"),
    (file(3, TRIANGLE), "plate 3 3 6"),
    (file(200, ring(200, 1)), "plate 200 200 400"),
    (file(201, ring(201, 1)), "refused 4 0 0"),
    (file(3, TRIANGLE[:2]), "refused 5 0 0"),
    (file(200, ring(200, 1, 2, 3)), "plate 200 600 1200"),
    (file(200, ring(200, 1, 2, 3) + [(0, 50)]), "refused 5 0 0"),
    (file(4, FOUR), "plate 4 6 12"),
    (file(4, FOUR)[:-1], "refused 6 0 0"),
    (file(4, FOUR) + b"\0", "refused 6 0 0"),
    (file(200, ring(200, 1, 2, 3))[:-1], "refused 6 0 0"),
    # 1: fewer than 8 bytes, none among them
    (b"", "refused 1 0 0"),
    (file(3, TRIANGLE)[:7], "refused 1 0 0"),
    (file(3, TRIANGLE)[:8], "refused 6 0 0"),
    # 2, 3
    (file(3, TRIANGLE, mark=b"FPX"), "refused 2 0 0"),
    (file(3, TRIANGLE, mark=b"FTS"), "refused 2 0 0"),
    (file(3, TRIANGLE, version=2), "refused 3 0 0"),
    (file(3, TRIANGLE, version=257), "refused 3 0 0"),
    # 4, 5 with the largest counts there are
    (file(255, TRIANGLE), "refused 4 0 0"),
    (file(3, TRIANGLE, channels=65535), "refused 5 0 0"),
    # 7: the lowest such channel, either end
    (file(3, [(0, 1), (0, 3), (1, 2), (3, 0)]), "refused 7 1 0"),
    (file(3, [(0, 1), (0, 2), (255, 2)]), "refused 7 2 0"),
    # 8, and 7 before it
    (file(3, [(0, 1), (2, 2), (1, 1)]), "refused 8 1 0"),
    (file(3, [(1, 1), (0, 2), (3, 2)]), "refused 7 2 0"),
    # 9: either way round, the lowest later channel, and 8 before it
    (file(3, [(0, 1), (1, 2), (0, 2), (2, 1)]), "refused 9 3 0"),
    (file(3, [(0, 1), (0, 1), (0, 2), (0, 2)]), "refused 9 1 0"),
    (file(3, [(0, 1), (1, 0), (2, 2)]), "refused 8 2 0"),
    # 10: the lowest port not reached; a port without channels
    (file(6, [(0, 1), (0, 2), (1, 2), (3, 4), (3, 5), (4, 5)]), "refused 10 3 0"),
    (file(4, TRIANGLE), "refused 10 3 0"),
    (file(4, [(1, 2), (1, 3), (2, 3)]), "refused 10 1 0"),
    # 11: the lowest such port, port 0 among them; 10 before it
    (file(5, [(0, 1), (0, 2), (1, 2), (2, 3), (2, 4), (3, 4)]), "refused 11 2 0"),
    (file(5, [(0, 1), (0, 2), (1, 2), (0, 3), (0, 4), (3, 4)]), "refused 11 0 0"),
    (file(4, [(0, 1), (1, 2), (2, 3)]), "refused 11 1 0"),
    (file(6, [(0, 1), (1, 2), (2, 3), (4, 5)]), "refused 10 4 0"),
]


def write(crate, cases):
    folder = TOP / "crates" / crate
    (folder / "stdin").write_bytes(b"".join(len(f).to_bytes(2, "little") + f for f, _ in cases))
    (folder / "stdout").write_text("".join(line + "\n" for _, line in cases))


write("try_plate", PLATES)
