"""Book texts for the tests, good and damaged, and a judge of damaged ones, written from document 01, "Book text" and "Reasons
for saying no", alone.

Everything is drawn by a small generator of its own (splitmix64), so that a seed gives the same texts everywhere.
"""

import re

import cases
from design import Design, text_of

MOST_READ = 8192  # programs read at most so many bytes


class Random:
    def __init__(self, seed):
        self.state = seed & (1 << 64) - 1

    def next(self):
        mask = (1 << 64) - 1
        self.state = self.state + 0x9E3779B97F4A7C15 & mask
        x = self.state
        x = (x ^ x >> 30) * 0xBF58476D1CE4E5B9 & mask
        x = (x ^ x >> 27) * 0x94D049BB133111EB & mask
        return x ^ x >> 31

    def below(self, count):
        return self.next() % count

    def between(self, low, high):
        return low + self.below(high - low + 1)

    def one_of(self, things):
        return things[self.below(len(things))]

    def chance(self, part, whole):
        return self.below(whole) < part

    def shuffle(self, things):
        for i in range(len(things) - 1, 0, -1):
            j = self.below(i + 1)
            things[i], things[j] = things[j], things[i]


# ---- the judge of texts

NUMBER = rb"(0|[1-9][0-9]{0,2})"
HEAD = [re.compile(key + b"=" + NUMBER + rb"\n") for key in (b"a", b"b", b"bodies", b"edges")]
EDGE = re.compile(b"(?:red|black)=" + NUMBER + b"," + NUMBER + rb"\n")


def fault(text):
    """The reason, the number of the line at fault and that line without its line end; None for a book."""
    lines = text.split(b"\n")
    # what follows the last LF is no line unless it has bytes, and then it has no LF
    lines = [line + b"\n" for line in lines[:-1]] + ([lines[-1]] if lines[-1] else [])
    due = list(HEAD)
    head = []
    for number in range(1, len(lines) + 2):
        line = lines[number - 1] if number <= len(lines) else b""
        part = line[:-1] if line.endswith(b"\n") else line
        if number > len(due):
            # nothing may follow
            return (9, number, part) if line else None
        match = due[number - 1].fullmatch(line)
        if not match:
            return 9, number, part
        values = [int(value) for value in match.groups()]
        if number <= 4:
            head += values
        if number <= 2 and not 1 <= values[0] <= 3:
            return 1, number, part
        if number == 3 and not 1 <= values[0] <= 64:
            return 2, number, part
        if number == 4 and values[0] > 512:
            return 6, number, part
        if number == 4:
            due += [EDGE] * values[0]
        if number > 4 and not all(1 <= body <= head[2] for body in values):
            return 3, number, part
        if number > 4 and values[0] == values[1]:
            return 4, number, part
    raise AssertionError("a text is a book or has a first faulty line")


def refusal(text):
    """What the programs print of a text that is no book; None for a book."""
    found = fault(text[:MOST_READ])
    return None if found is None else b"refused=%d,%d\n" % found[:2]


# ---- good texts

PROFILES = [(a, b) for a in (1, 2, 3) for b in (1, 2, 3)]


def ends(draw, n, shape, before):
    """Two different bodies, in the manner of the shape."""
    if shape == "parallels" and before and draw.chance(3, 4):
        u, v = before[-1][:2]
    elif shape == "near":
        u = draw.between(1, n - 1)
        v = min(n, u + draw.between(1, 2))
    elif shape == "hub":
        u = draw.between(1, min(3, n))
        v = draw.between(1, n)
    elif shape == "clusters":
        size = 4
        u = draw.between(1, n)
        low = (u - 1) // size * size + 1
        v = draw.between(low, min(n, low + size - 1)) if draw.chance(7, 8) else draw.between(1, n)
    else:
        u = draw.between(1, n)
        v = draw.between(1, n)
    if u == v:
        v = u % n + 1
    return (u, v) if draw.chance(1, 2) else (v, u)


SHAPES = ["any", "parallels", "near", "hub", "clusters"]


def some_design(draw, n, m, profile=None):
    a, b = profile or draw.one_of(PROFILES)
    shape = draw.one_of(SHAPES)
    reds = draw.between(0, 4)
    edges = []
    for _ in range(m if n > 1 else 0):
        edges.append((*ends(draw, n, shape, edges), draw.chance(reds, 4)))
    return Design(a, b, n, edges)


def small(draw):
    n = 1 if draw.chance(1, 50) else draw.between(2, 4)
    return some_design(draw, n, draw.between(0, 7))


def small_and_full(draw):
    """Small designs with more than enough edges for their profile."""
    return some_design(draw, draw.between(2, 4), draw.between(6, 7), draw.one_of([(1, 1), (1, 2), (2, 1), (1, 3), (2, 2)]))


def all_designs(n, m, profiles):
    """All designs of n bodies and m edges, for these profiles."""
    kinds = [(u, v, red) for u in range(1, n) for v in range(u + 1, n + 1) for red in (True, False)]
    for a, b in profiles:
        for which in range(len(kinds) ** m):
            yield Design(a, b, n, [kinds[which // len(kinds) ** e % len(kinds)] for e in range(m)])


def medium(draw):
    n = draw.between(5, 16)
    return some_design(draw, n, draw.between(0, 120))


def large(draw):
    n = draw.between(17, 64)
    return some_design(draw, n, draw.between(n, 512))


def full(draw):
    return some_design(draw, 64, 512, draw.one_of([(3, 3), (3, 3), (1, 2), (2, 3), (3, 1)]))


def trees(draw):
    """Spanning trees on some of the bodies, red ones first to a, shuffled, with a few edges more: tight parts, long circuits."""
    a, b = draw.one_of(PROFILES)
    n = draw.between(4, 40)
    edges = []
    for low in range(1, n + 1, draw.between(3, n)):
        high = min(n, low + draw.between(1, n))
        for forest in range(a + b):
            order = list(range(low, high + 1))
            draw.shuffle(order)
            for i in range(1, len(order)):
                edges.append((order[i], order[draw.below(i)], forest < a and draw.chance(3, 4)))
    for _ in range(draw.between(0, 20)):
        edges.append((*ends(draw, n, "any", edges), draw.chance(1, 2)))
    draw.shuffle(edges)
    return Design(a, b, n, edges[:512])


def strips(draw):
    """Bodies in a line, each tied to the next k of them, in any order, mostly black, with a few edges more: nearly tight
    everywhere, so that an edge finds its place only by a long exchange (20 edges and more)."""
    a, b = draw.one_of(PROFILES)
    k = a + b
    n = draw.between(6, 64)
    reds = draw.one_of([0, 0, 0, 1, 2])
    edges = [(u, v, draw.chance(reds, 8)) for u in range(1, n) for v in range(u + 1, min(n, u + k) + 1)]
    draw.shuffle(edges)
    edges = edges[:490]
    for _ in range(draw.between(0, 20)):
        edges.append((*ends(draw, n, draw.one_of(["near", "any"]), edges), draw.chance(reds, 8)))
    return Design(a, b, n, edges)


# ---- damaged texts


def damage_line(draw, lines):
    """Damages one line, mostly in a way that document 01 names."""
    at = draw.below(len(lines))
    line = lines[at]
    key, _, value = line.partition(b"=")
    wrong_numbers = [b"0", b"00", b"01", b"007", b"1000", b"0001", b"", b" 1", b"1 ", b"+1", b"-1", b"0x1", b"1.0", b"4", b"65",
                     b"64", b"63", b"512", b"513", b"999", b"\xd9\xa1", b"1\x00", b"\x00", b"1,1", b"1e0", b"1_0"]
    way = draw.below(12)
    if way == 0:
        value = draw.one_of(wrong_numbers)
    elif way == 1:
        parts = value.split(b",")
        parts[draw.below(len(parts))] = draw.one_of(wrong_numbers)
        value = b",".join(parts)
    elif way == 2:
        key = draw.one_of([b"a", b"b", b"bodies", b"edges", b"red", b"black", b"Red", b"BLACK", b"green", b"", b" red", b"red ",
                           b"words", b"form", b"bodie", b"bodiess", b"edge"])
    elif way == 3:
        return lines[:at] + [draw.one_of([key + value, key + b"==" + value, key + b" = " + value, key + b":" + value, b"", key,
                                          b"=" + value, b"\t" + line, line + b"\t", line + b" ", line + b"\r", line + b",",
                                          line + b",1", line + b"\x00", b"\x00", b"\xff" + line, b"#" + line])] + lines[at + 1 :]
    elif way == 4:
        return lines[:at] + lines[at + 1 :]
    elif way == 5:
        return lines[:at] + [line, line] + lines[at + 1 :]
    elif way == 6:
        other = draw.below(len(lines))
        lines = list(lines)
        lines[at], lines[other] = lines[other], lines[at]
        return lines
    elif way == 7:
        return lines[:at] + [draw.one_of([b"", b" ", b"\r", b"red=1,2", b"black=2,1", b"\xef\xbb\xbf"])] + lines[at:]
    elif way == 8:
        parts = value.split(b",")
        value = b",".join([parts[-1]] * len(parts))
    elif way == 9:
        body = draw.one_of([b"0", b"65", b"999", b"00", b"5", b"6"])
        value = draw.one_of([body, body + b"," + body, b"1," + body, body + b",1"])
    elif way == 10:
        value = value + draw.one_of([b"0", b"1", b"00", b","])
    else:
        byte = bytes([draw.below(256)])
        place = draw.below(len(line) + 1)
        cut = draw.below(2)
        return lines[:at] + [line[:place] + byte + line[place + cut :]] + lines[at + 1 :]
    return lines[:at] + [key + b"=" + value] + lines[at + 1 :]


def damage_text(draw, text):
    way = draw.below(12)
    place = draw.below(len(text) + 1)
    if way == 0:
        return text[:place]
    if way == 1:
        return text[:-1]
    if way == 2:
        return text.replace(b"\n", b"\r\n")
    if way == 3:
        return text + draw.one_of([b"\n", b" ", b"\r\n", b"\x00", b"\xff", b"red=1,2\n", b"x", b"black=1,2", b"\n\n", b"a=1\n"])
    if way == 4:
        return draw.one_of([b"\n", b"\xef\xbb\xbf", b" ", b"\x00", b"a=1\n"]) + text
    if way == 5:
        return text[:place] + bytes([draw.below(256)]) + text[place:]
    if way == 6:
        return text[:place] + text[place + 1 :]
    if way == 7:
        return text[:place] + bytes([draw.below(256)]) + text[place + 1 :]
    if way == 8:
        return text + text
    if way == 9:
        # longer than any book, and longer than the programs read
        return text + draw.one_of([b"\n", b"x", b"red=1,2\n", b"\x00"]) * draw.one_of([3000, 8192, 9000])
    if way == 10:
        return text.replace(b"\n", draw.one_of([b"\r", b"\n\n", b" \n", b"\x00\n"]))
    return bytes(draw.below(256) for _ in range(draw.below(60)))


def damaged(draw):
    """A text that is mostly no book; now and then the damage does no harm."""
    base = draw.one_of([small, small, small, medium, large])
    text = text_of(base(draw))
    for _ in range(draw.one_of([1, 1, 1, 2, 3])):
        if draw.chance(3, 4):
            text = b"".join(line + b"\n" for line in damage_line(draw, text.split(b"\n")[:-1] or [b""]))
        else:
            text = damage_text(draw, text)
    return text


def out_of_range(draw):
    """A text whose lines are those due but for one or two numbers, that are mostly out of range."""
    lines = text_of(draw.one_of([small, small, medium])(draw)).split(b"\n")[:-1]
    bodies = int(lines[2][7:])
    for _ in range(draw.one_of([1, 1, 2])):
        at = draw.below(min(len(lines), 8))
        if at < 2:
            lines[at] = lines[at][:2] + draw.one_of([b"0", b"4", b"5", b"10", b"255", b"256", b"257", b"259", b"999"])
        elif at == 2:
            lines[at] = b"bodies=" + draw.one_of([b"0", b"65", b"66", b"100", b"128", b"256", b"257", b"320", b"999"])
        elif at == 3:
            lines[at] = b"edges=" + draw.one_of([b"512", b"513", b"514", b"600", b"768", b"999", b"0", b"1"])
        else:
            at = draw.between(4, len(lines) - 1)
            body = draw.between(1, bodies)
            outside = draw.one_of([0, bodies + 1, 65, 256, 256 + body, 999])
            u, v = draw.one_of([(outside, body), (body, outside), (body, body), (outside, outside), (outside, outside)])
            lines[at] = lines[at].split(b"=")[0] + b"=%d,%d" % (u, v)
    text = b"".join(line + b"\n" for line in lines)
    return text[:-1] if draw.chance(1, 12) else text


# ---- hostile texts, each with what it must get, decided by hand


def shown(part):
    return b"".join(b"%c" % byte if 32 <= byte < 127 else b"<%d>" % byte for byte in part)


def hostile():
    """The cases of crates/hostile: the name, the text, the line at fault as that program shows it, and the first line of the report."""
    for (name, lines), (_, outcome) in zip(cases.cases("hostile"), cases.outcomes("hostile"), strict=True):
        part, first = re.fullmatch(rb"\[(.*)\] (.*\n)", outcome).groups()
        yield name, cases.text_of_lines(name, lines), part, first


def judged_by_hand(text, part, first):
    """Whether the judge of texts agrees with what was decided by hand."""
    found = fault(text)
    if found is None:
        return part == b"" and not first.startswith(b"refused")
    return part == shown(found[2]) and first == refusal(text)


if __name__ == "__main__":
    rows = list(hostile())
    for name, text, part, first in rows:
        assert judged_by_hand(text, part, first), (name, fault(text), part, first)
    print("%d hostile texts: the judge of texts agrees with what was decided by hand" % len(rows))
