#!/usr/bin/env python3
"""The forests that request #105 fixes, by its words, slowly: prints the certificate of a book.

    python3 tests/forests.py < book
    python3 tests/forests.py --checksum < book

Before each search the way from every body to the first body of its tree is found afresh in every forest, as a set of edges; the
path between two bodies is what is in one way and not in the other. With --checksum it prints the figures of bench/engine for
this book in place of the certificate: kept, moved, listed and the checksum.
"""

import sys

from design import comma, design_of
from texts import refusal


def ways(n, edges, members):
    """By body: the first body of its tree, and the way there as a set of edge numbers (bits)."""
    beside = {}
    for e in members:
        u, v = edges[e - 1][:2]
        beside.setdefault(u, []).append((v, e))
        beside.setdefault(v, []).append((u, e))
    way = {}
    for first in range(1, n + 1):
        if first in way:
            continue
        way[first] = first, 0
        waiting = [first]
        for u in waiting:
            for v, e in beside.get(u, ()):
                if v not in way:
                    way[v] = first, way[u][1] | 1 << e
                    waiting.append(v)
    return way


def in_order(numbers):
    while numbers:
        e = (numbers & -numbers).bit_length() - 1
        yield e
        numbers &= numbers - 1


def place_all(design):
    """The forest of each edge after the last offer, 0 for an implied one; and each answer: moved, or the circuit."""
    edges = design.edges
    forest = {}
    answers = []
    for new in range(1, len(edges) + 1):
        table = {
            i: ways(design.n, edges, [e for e in forest if forest[e] == i]) for i in range(1, design.a + design.b + 1)
        }
        reached_by = {new: None}
        reached = 1 << new
        waiting = [new]
        end = None
        for x in waiting:
            u, v, red = edges[x - 1]
            for i in range(1, (design.a if red else design.a + design.b) + 1):
                if forest.get(x) == i:
                    continue
                (first, way), (other_first, other_way) = table[i][u], table[i][v]
                if first != other_first:
                    end = x, i
                    break
                for y in in_order((way ^ other_way) & ~reached):
                    reached |= 1 << y
                    reached_by[y] = x
                    waiting.append(y)
            if end:
                break
        if not end:
            answers.append(sorted(set(waiting) - {new}))
            forest[new] = 0
            continue
        x, free = end
        moved = -1
        while x is not None:
            forest[x], free = free, forest.get(x)
            x = reached_by[x]
            moved += 1
        answers.append(moved)
    return forest, answers


def certificate(text):
    design = design_of(text)
    forest, answers = place_all(design)
    lines = []
    for e, answer in enumerate(answers, 1):
        lines.append("implied=" + comma(answer) if isinstance(answer, list) else "forest=%d" % forest[e])
    return text + "".join(line + "\n" for line in lines).encode()


def checksum(text):
    design = design_of(text)
    forest, answers = place_all(design)
    fed = []
    for answer in answers:
        fed += [2, len(answer), *answer] if isinstance(answer, list) else [1, answer]
    fed += [forest[e] for e in range(1, len(answers) + 1)]
    total = 0
    for x in fed:
        total = (total * 31 + x) % (1 << 32)
    kept = sum(1 for answer in answers if not isinstance(answer, list))
    moved = sum(answer for answer in answers if not isinstance(answer, list))
    listed = sum(len(answer) for answer in answers if isinstance(answer, list))
    return "%d %d %d %d\n" % (kept, moved, listed, total)


if __name__ == "__main__":
    text = sys.stdin.buffer.read(8192)
    out = refusal(text)
    if out is None:
        out = checksum(text).encode() if "--checksum" in sys.argv else certificate(text)
    sys.stdout.buffer.write(out)
