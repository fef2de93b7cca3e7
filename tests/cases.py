"""The files of cases that the gate's programs read and tests/ reads too: crates/hostile/stdin and crates/outcomes/stdin, each of which says how its
lines are written. A line that is not understood is an error, as it is there.
"""

import os
import re

CRATES = os.path.join(os.path.dirname(os.path.abspath(__file__)), "..", "crates")


def lines_of(program, name):
    with open(os.path.join(CRATES, program, name), "rb") as file:
        return re.findall(rb".*\n", file.read())


def cases(program):
    """For each case its name and its lines, with their line ends."""
    found = []
    for line in lines_of(program, "stdin"):
        if line.startswith(b"case="):
            found.append((line[5:-1].decode(), []))
        elif line != b"\n" and not line.startswith(b"#"):
            found[-1][1].append(line)
    return found


def outcomes(program):
    """What the program must write: for each case its name and the rest of its line."""
    lines = lines_of(program, "stdout")
    for (name, _), line in zip(cases(program), lines, strict=True):
        if not line.startswith(name.encode() + b" "):
            raise ValueError("%s/stdout: no line of %s where it is due" % (program, name))
        yield name, line[len(name) + 1 :]


# ---- hostile

ESCAPE = rb"\\(?:[\\rt0\n]|x[0-9a-f]{2})"
TEXT_LINE = re.compile(rb"([1-9][0-9]*)?\|((?:[^\\\n]|" + ESCAPE + rb")*\n?)")
BYTES = {b"\\\\": b"\\", b"\\r": b"\r", b"\\t": b"\t", b"\\0": b"\0", b"\\\n": b""}


def meant(escape):
    return BYTES.get(escape) if escape in BYTES else bytes([int(escape[2:], 16)])


def text_of_lines(name, lines):
    """The text of a case of hostile."""
    text = b""
    for line in lines:
        match = TEXT_LINE.fullmatch(line)
        if not match:
            raise ValueError("hostile/stdin, %s: %r is no line of a text" % (name, line))
        text += re.sub(ESCAPE, lambda found: meant(found[0]), match[2]) * int(match[1] or 1)
    return text


# ---- outcomes


def text_of_design(name, lines):
    """The book text of a design that is opened, and whose edges are offered one by one."""
    opened = re.fullmatch(rb"open=(\d+),(\d+),(\d+)\n", lines[0])
    edges = lines[1:-1]
    if not opened or lines[-1] != b"close\n" or not all(re.fullmatch(rb"(red|black)=\d+,\d+\n", edge) for edge in edges):
        raise ValueError("outcomes/stdin, %s: no design" % name)
    return b"a=%s\nb=%s\nbodies=%s\n" % opened.groups() + b"edges=%d\n" % len(edges) + b"".join(edges)
