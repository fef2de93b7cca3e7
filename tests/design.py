"""A design and the report on it, for the judges of this folder. Judges share this and nothing else.

A judgement is what a judge found: for each edge None where it is kept, or its circuit, a list of edge numbers; and the group
list. Freedom, dropped and the verdict follow from it by document 01's definitions.
"""

from collections import namedtuple

# edges: (u, v, red) with red a bool; edge e stands at place e - 1
Design = namedtuple("Design", "a b n edges")
Judgement = namedtuple("Judgement", "circuits groups")


def text_of(design):
    lines = ["a=%d" % design.a, "b=%d" % design.b, "bodies=%d" % design.n, "edges=%d" % len(design.edges)]
    lines += ["%s=%d,%d" % ("red" if red else "black", u, v) for u, v, red in design.edges]
    return "".join(line + "\n" for line in lines).encode()


def design_of(text):
    """The design of a text that is known to be a book."""
    values = [line.split("=") for line in text.decode().splitlines()]
    edges = [(*map(int, value.split(",")), key == "red") for key, value in values[4:]]
    return Design(int(values[0][1]), int(values[1][1]), int(values[2][1]), edges)


def comma(numbers):
    return ",".join(map(str, numbers))


def report(design, judgement):
    """The report, whole (document 01)."""
    free = (design.a + design.b) * (design.n - 1)
    dropped = 0
    lines = []
    for circuit in judgement.circuits:
        if circuit is None:
            free -= 1
            lines.append("kept=%d" % free)
        else:
            dropped += 1
            lines.append("implied=" + comma(circuit))
    verdict = {(True, True): "tight", (False, True): "loose", (True, False): "over-tight", (False, False): "over-loose"}
    lines.append("free=%d" % free)
    lines.append("dropped=%d" % dropped)
    lines.append("verdict=" + verdict[free == 0, dropped == 0])
    lines.append("groups=" + comma(judgement.groups))
    return "".join(line + "\n" for line in lines).encode()
