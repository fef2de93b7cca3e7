#!/usr/bin/env python3
"""Judges a design of any size by the rank of its rigidity matrix (document 004, Definitions 2.1 and 2.2), and its rigid groups
by letting bodies pay for edges. No forest, no exchange.

    python3 tests/matrix.py < book

The matrix has k columns for each body and a row for each edge: a vector p in the columns of one end and -p in those of the
other, zeros elsewhere. A red edge's p is zero in the last b entries; the other entries are drawn at random from the whole
numbers modulo a prime. A new edge is kept when its row is not a sum of multiples of the kept rows. Otherwise it is such a sum in
exactly one way, and the kept edges whose multiple is not zero are its circuit.

Chance can only make a number zero that would not be zero for most draws. With the large prime, below 2^61, that is out of the
question in practice; the small one, below 2^30, is five times faster, and where it finds a difference the large one decides.

A row is one long number, with a slot for each entry wide enough to add up all multiples before the remainder is taken. Behind
the entries stand the multiples of the kept rows that went into it.
"""

import sys

from design import Judgement, design_of, report
from texts import Random, refusal

SMALL = (1 << 30) - 35
LARGE = (1 << 61) - 1


class Rows:
    def __init__(self, columns, prime):
        self.columns = columns
        self.prime = prime
        # at most 378 products of two remainders are added up
        self.width = (2 * prime.bit_length() + 9 + 7) // 8
        self.kept = []  # (the column of the pivot, the row with 1 there)

    def pack(self, entries):
        width = self.width
        row = bytearray(width * (max(entries) + 1))
        for place, x in entries.items():
            row[place * width : (place + 1) * width] = x.to_bytes(width, "little")
        return int.from_bytes(row, "little")

    def unpack(self, row):
        width, prime = self.width, self.prime
        slots = row.to_bytes(width * (self.columns + len(self.kept) + 1), "little")
        entries = {}
        for place in range(len(slots) // width):
            x = int.from_bytes(slots[place * width : (place + 1) * width], "little") % prime
            if x:
                entries[place] = x
        return entries

    def add(self, entries):
        """None where the row joins the kept ones, else the places, from 0, of the kept rows that it is made of."""
        prime, bits = self.prime, 8 * self.width
        mask = (1 << bits) - 1
        own = self.columns + len(self.kept)
        row = self.pack({**entries, own: 1})
        # a kept row has zeros in the pivot columns of the rows before it, so that one pass clears them all
        for column, kept in self.kept:
            x = (row >> bits * column & mask) % prime
            if x:
                row += (prime - x) * kept
        entries = self.unpack(row)
        pivot = min(entries)
        if pivot >= self.columns:
            return [place - self.columns for place in sorted(entries) if place != own]
        inverse = pow(entries[pivot], -1, prime)
        self.kept.append((pivot, self.pack({place: x * inverse % prime for place, x in entries.items()})))
        return None


def circuits(design, prime, seed):
    draw = Random(seed)
    k = design.a + design.b
    # the columns of the last body are left out: those of the others determine them
    rows = Rows(k * (design.n - 1), prime)
    kept = []
    found = []
    for e, (u, v, red) in enumerate(design.edges):
        entries = {}
        for i in range(design.a if red else k):
            x = 1 + draw.below(prime - 1)
            if u < design.n:
                entries[(u - 1) * k + i] = x
            if v < design.n:
                entries[(v - 1) * k + i] = prime - x
        made_of = rows.add(entries)
        if made_of is None:
            kept.append(e + 1)
            found.append(None)
        else:
            found.append([kept[place] for place in made_of])
    return found


def groups(n, k, edges):
    """Each edge is paid by one of its ends, and a body pays for at most k. With the edges kept, body u can always be spared:
    the others pay for all. Let the stuck bodies be u and those that pay for k edges, each leading to a stuck body. They pay for
    exactly k(m - 1) edges, all inside, and no edge inside is paid by u: so they are a set as in document 01. And in any such
    set that holds u the k(m - 1) edges inside need all that its other bodies can pay: so these are stuck. So the stuck bodies
    are the group of u."""
    pays = [[] for _ in range(n + 1)]  # by body: the other ends of the edges it pays for

    def relieve(body, most):
        """Lets others pay until the body pays for at most so many."""
        while len(pays[body]) > most:
            came = {body: None}
            waiting = [body]
            spare = None
            for one in waiting:
                for other in pays[one]:
                    if other not in came:
                        came[other] = one
                        waiting.append(other)
                spare = next((other for other in waiting if other != body and len(pays[other]) < k), None)
                if spare is not None:
                    break
            if spare is None:
                raise ValueError("more edges than the bodies can pay for: these are not legal")
            while came[spare] is not None:
                pays[came[spare]].remove(spare)
                pays[spare].append(came[spare])
                spare = came[spare]

    for u, v in edges:
        relieve(u, k - 1)
        pays[u].append(v)

    leaders = []
    for u in range(1, n + 1):
        relieve(u, 0)
        loose = {v for v in range(1, n + 1) if v != u and len(pays[v]) < k}
        while True:
            more = {v for v in range(1, n + 1) if v != u and v not in loose and any(w in loose for w in pays[v])}
            if not more:
                break
            loose |= more
        leaders.append(min(v for v in range(1, n + 1) if v not in loose))
    return leaders


def judge(design, prime=LARGE, seed=1):
    found = circuits(design, prime, seed)
    kept = [(u, v) for (u, v, red), circuit in zip(design.edges, found) if circuit is None]
    return Judgement(found, groups(design.n, design.a + design.b, kept))


if __name__ == "__main__":
    text = sys.stdin.buffer.read(8192)
    out = refusal(text)
    if out is None:
        design = design_of(text)
        out = report(design, judge(design))
    sys.stdout.buffer.write(out)
