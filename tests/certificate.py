#!/usr/bin/env python3
"""Checks a certificate by counting, with no judge: kept and implied are right when this is silent.

    python3 tests/certificate.py BOOK CERTIFICATE

The book text stands first, byte for byte. Then comes one line for each edge. A forest line has a number that the edge's colour
may have, and the edges of one forest form no loop: so the kept edges are legal. An implied line names earlier kept edges, each
once, smallest first, and their number is a times r plus b times s, where r is the bodies touched by these edges and the new one
less the connected pieces they make, and s the same for the black ones among them: a legal set has no more edges than that, so
that the new edge is not legal with them. Whether the line is the whole circuit is for a judge to say (`tests/run` compares).
"""

import re
import sys

from design import design_of

FOREST = re.compile(rb"forest=([1-9])")
IMPLIED = re.compile(rb"implied=((?:[1-9][0-9]{0,2})(?:,[1-9][0-9]{0,2})*)")


class Pieces:
    """Bodies joined by edges."""

    def __init__(self):
        self.next = {}

    def top(self, body):
        while self.next.setdefault(body, body) != body:
            body = self.next[body]
        return body

    def join(self, u, v):
        """Whether the edge joins two pieces."""
        u, v = self.top(u), self.top(v)
        self.next[u] = v
        return u != v


def touched_less_pieces(edges):
    pieces = Pieces()
    for u, v, _ in edges:
        pieces.join(u, v)
    return len(pieces.next) - sum(1 for body in pieces.next if pieces.top(body) == body)


def check(text, certificate):
    """None and an entry for each edge, its forest number or its circuit, where the certificate holds; else what is wrong, and
    None."""
    design = design_of(text)
    if certificate[: len(text)] != text:
        return "the book text is not repeated", None
    lines = certificate[len(text) :].split(b"\n")
    if lines.pop() != b"":
        return "the last line has no LF", None
    if len(lines) != len(design.edges):
        return "%d lines for %d edges" % (len(lines), len(design.edges)), None
    entries = []
    forests = {}
    for e, line in enumerate(lines, 1):
        u, v, red = design.edges[e - 1]
        forest = FOREST.fullmatch(line)
        if forest:
            number = int(forest[1])
            if number > (design.a if red else design.a + design.b):
                return "edge %d may not stand in forest %d" % (e, number), None
            if not forests.setdefault(number, Pieces()).join(u, v):
                return "edge %d closes a loop in forest %d" % (e, number), None
            entries.append(number)
            continue
        implied = IMPLIED.fullmatch(line)
        if not implied:
            return "edge %d: not a line of a certificate: %r" % (e, line[:80]), None
        circuit = [int(x) for x in implied[1].split(b",")]
        if sorted(set(circuit)) != circuit:
            return "edge %d: its circuit is not smallest first" % e, None
        if circuit[-1] >= e or any(isinstance(entries[y - 1], list) for y in circuit):
            return "edge %d: its circuit names an edge that is not earlier and kept" % e, None
        all_of_them = [design.edges[y - 1] for y in circuit] + [(u, v, red)]
        r = touched_less_pieces(all_of_them)
        s = touched_less_pieces([edge for edge in all_of_them if not edge[2]])
        if len(circuit) != design.a * r + design.b * s:
            return "edge %d: its circuit has %d edges, not %d" % (e, len(circuit), design.a * r + design.b * s), None
        entries.append(circuit)
    return None, entries


if __name__ == "__main__":
    with open(sys.argv[1], "rb") as book, open(sys.argv[2], "rb") as certificate:
        wrong, _ = check(book.read(), certificate.read())
    if wrong:
        sys.exit(wrong)
