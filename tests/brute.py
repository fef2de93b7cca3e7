#!/usr/bin/env python3
"""Judges a small design by trying everything: document 01, "The published rule", word for word. No forest, no search, no rank.

    python3 tests/brute.py < book

Sets of bodies and of edges are the bits of a number: bit i - 1 stands for number i. Meant for at most 4 bodies and 7 edges; it
works for a few more, slowly.
"""

import sys

from design import Judgement, design_of, report
from texts import refusal


class Brute:
    def __init__(self, design):
        self.design = design
        self.black = sum(1 << e for e, (u, v, red) in enumerate(design.edges) if not red)
        # every nonempty set of bodies: how many bodies it has, and the edges with both ends inside
        self.body_sets = []
        for bodies in range(1, 1 << design.n):
            inside = 0
            for e, (u, v, red) in enumerate(design.edges):
                if bodies >> (u - 1) & 1 and bodies >> (v - 1) & 1:
                    inside |= 1 << e
            self.body_sets.append((bodies, bodies.bit_count(), inside))
        self.known_sparse = {}
        self.known_legal = {}

    def sparse(self, c, edges):
        """Every nonempty set of m bodies holds at most c(m - 1) of the edges with both ends inside."""
        if (c, edges) not in self.known_sparse:
            self.known_sparse[c, edges] = all((edges & inside).bit_count() <= c * (m - 1) for _, m, inside in self.body_sets)
        return self.known_sparse[c, edges]

    def legal(self, edges):
        """The black edges can be split in two so that all red edges with the first part are (a,a)-sparse and the second part
        is (b,b)-sparse."""
        if edges not in self.known_legal:
            self.known_legal[edges] = any(
                self.sparse(self.design.a, edges & ~second) and self.sparse(self.design.b, second)
                for second in subsets(edges & self.black)
            )
        return self.known_legal[edges]

    def judge(self):
        kept = 0
        circuits = []
        for e in range(len(self.design.edges)):
            new = 1 << e
            if self.legal(kept | new):
                kept |= new
                circuits.append(None)
            else:
                circuits.append([y + 1 for y in range(e) if kept >> y & 1 and self.legal(kept & ~(1 << y) | new)])
        return Judgement(circuits, [self.leader(kept, u) for u in range(1, self.design.n + 1)])

    def share(self, kept, u, v):
        """Some set of m bodies holding both has exactly k(m - 1) kept edges inside it."""
        k = self.design.a + self.design.b
        return any(
            bodies >> (u - 1) & 1 and bodies >> (v - 1) & 1 and (kept & inside).bit_count() == k * (m - 1)
            for bodies, m, inside in self.body_sets
        )

    def leader(self, kept, u):
        """The smallest body number of the group of u: of u itself and the bodies that share a group with it."""
        return min(v for v in range(1, self.design.n + 1) if v == u or self.share(kept, u, v))


def subsets(edges):
    """All subsets of a set of edges."""
    some = edges
    while True:
        yield some
        if not some:
            return
        some = (some - 1) & edges


def judge(design):
    return Brute(design).judge()


if __name__ == "__main__":
    text = sys.stdin.buffer.read(8192)
    out = refusal(text)
    if out is None:
        design = design_of(text)
        out = report(design, judge(design))
    sys.stdout.buffer.write(out)
