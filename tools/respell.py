#!/usr/bin/env python3
"""Brings the repository's own names to one spelling, after port.py: functions, lemmas, fields, constructors and variables of specs/ and proofs/
in snake case. Types and modules keep their camel case, functions of src/ their names, and so do the library's names and those that Rattle makes.

usage: tools/respell.py [--check]       at the top of the repository; --check writes nothing and prints what would be renamed

Comments and pages follow: a camel-case name wherever it stands, a name with dashes where it stands in backticks. Strings are left alone.
It stops, and writes nothing, where two names would fall together in one file.
"""

import os
import re
import sys

LOWER = re.compile(r"\+?[a-zα-ω][\w'₀-₉]*(?:-[\w'₀-₉]+)*\??\Z")
DELIMITERS = r"\s(){}\[\].;,@\"«»\\:=|`"
TOKEN = re.compile(rf"[^{DELIMITERS}]+")
PIECES = re.compile(r"(?P<comment>--[^\n]*|//[^\n]*)|(?P<string>\"(?:[^\"\\]|\\.)*\"|b?'(?:[^'\\\n]|\\.)')")
IMPORT = re.compile(r"^\s*(?:pub )?(?:ghost )?use ([^\s;{]+?)\.\{([^}]*)\}", re.M)
FIELD = re.compile(r"^[ ]+(?:pub |abbrev |unfoldable )*(\S+) :(?= )", re.M)
DECLARED = re.compile(r"^[ ]*(?:pub |abbrev |unfoldable |pattern )*(\S+) :(?= )", re.M)
# a report's words, which some lemmas have for a name
WORDS = {"over-tight", "over-loose"}
# names that Rattle makes, by the module alias that proof files give it
MADE = {"tie", "goal"}


# lemmas and fields that would have a function's name
APART = {"on-path": "is_on_path"} | {
    n: n.replace("-", "_") + "_lem"
    for n in "in-word bit-and bit-or bit-xor cut-fault refused-line answer-line kept-up-to reason-of question-checks said-text rigid-core".split()
}


def snake(name):
    if name in APART:
        return APART[name]
    name = re.sub(r"(?<=[a-z0-9])([A-Z])", r"_\1", name)
    return name.replace("-", "_").lower()


def is_old(name):
    return bool(LOWER.match(name)) and ("-" in name or re.search(r"[a-z0-9][A-Z]", name) is not None) and name[0] != "-"


def files(top):
    for folder, dirs, names in os.walk(top):
        dirs[:] = sorted(d for d in dirs if d not in ("out", ".git", "target"))
        for n in sorted(names):
            yield os.path.join(folder, n)


def read(path):
    with open(path, encoding="utf-8", newline="") as f:
        return f.read()


class Names:
    def __init__(self):
        self.crates = {line.split()[0].rstrip(":") for line in read("crates.txt").splitlines() if line.strip() and not line.startswith("#")}
        self.texts = {p: read(p) for p in files("crates") if p.endswith((".antt", ".rt"))}
        self.fields, self.declared, self.new = set(), set(), set()
        for p, t in self.texts.items():
            if p.endswith(".antt"):
                self.new |= {n for n in DECLARED.findall(t) if "_" in n}
                self.fields |= {n for n in FIELD.findall(t) if is_old(n)}
                self.declared |= {n for n in DECLARED.findall(t) if is_old(n) and not p.endswith("/Proof.antt")}
                self.declared |= {n for n in re.findall(r"^unfoldable pub (\S+) :|^abbrev pub (\S+) :", t, re.M) for n in n if is_old(n)}

    def of_library(self, text):
        out = set()
        for path, names in IMPORT.findall(text):
            parts = path.split(".")
            if parts[0] != "Rattle" or parts[1] not in self.crates:
                out |= {n.strip().split(" as ")[-1] for n in names.split(",")}
                out |= {n.strip().split(" as ")[0] for n in names.split(",")}
        return out

    def outside_code(self, text):
        """A comment or a page: camel-case names of ours anywhere, names with dashes in backticks."""
        ours = lambda n: n not in WORDS and (n in self.declared or n.endswith("-spec") or is_old(n) and snake(n) in self.new)

        def word(m):
            return snake(m[0]) if ours(m[0]) and "-" not in m[0] else m[0]

        def tick(m):
            return "`" + TOKEN.sub(lambda t: snake(t[0]) if ours(t[0]) else t[0], m[1]) + "`"

        text = re.sub(r"(?<![\w'·-])[a-z][\w']*(?![\w'-])", word, text)
        return re.sub(r"`([^`\n]+)`", tick, text)

    def in_code(self, code, path, library, renamed):
        made = path.endswith("/Proof.antt")
        source = path.endswith(".rt")
        out, at, before = [], 0, ""
        for m in TOKEN.finditer(code):
            gap, name = code[at : m.start()], m[0]
            out.append(gap)
            dotted = gap.endswith(".") and bool(before) and gap == "."
            at = m.end()
            keep = not is_old(name) or name in library or (dotted and before in MADE)
            keep = keep or (made and dotted and name not in self.fields) or (source and name not in self.declared)
            if not keep:
                renamed.setdefault(name, snake(name))
            out.append(name if keep else snake(name))
            before = name
        out.append(code[at:])
        return "".join(out)

    def turned(self, path, text):
        library, renamed = self.of_library(text), {}
        out, at = [], 0
        for m in PIECES.finditer(text):
            if m["string"] and path.endswith(".antt") and m[0][0] in "b'":
                continue
            out.append(self.in_code(text[at : m.start()], path, library, renamed))
            out.append(self.outside_code(m[0]) if m["comment"] else m[0])
            at = m.end()
        out.append(self.in_code(text[at:], path, library, renamed))
        there = set(TOKEN.findall(re.sub(r"--[^\n]*|//[^\n]*", "", text)))
        # a definition may have the name of the function of src/ that computes it
        functions = set(re.findall(r"\bfn (\w+)|\w::(\w+)\(", text)) if path.endswith(".rt") else set(path.split("/")[3:-1])
        functions = {n for each in functions for n in ([each] if isinstance(each, str) else each)}
        clash = sorted((o, n) for o, n in renamed.items() if n in there and n not in functions)
        into = {}
        for o, n in renamed.items():
            into.setdefault(n, []).append(o)
        clash += sorted((tuple(o), n) for n, o in into.items() if len(o) > 1)
        return "".join(out), renamed, clash


def main():
    check = "--check" in sys.argv[1:]
    names = Names()
    new, clashes, every = {}, [], {}
    for p, t in names.texts.items():
        new[p], renamed, clash = names.turned(p, t)
        every |= renamed
        clashes += [f"{p}: {o} and {n} would be one name" for o, n in clash]
    pages = [p for p in ["README.md", *files("docs"), *files("tests"), *files("bench"), *files("examples")] if p.endswith(".md")]
    for p in pages:
        if not p.startswith("docs/PORT"):
            new[p] = names.outside_code(read(p))
    print("\n".join(clashes))
    if check:
        print("\n".join(f"{o} {n}" for o, n in sorted(every.items())))
    if clashes and "--force" not in sys.argv[1:]:
        raise SystemExit(1)
    if check:
        return
    for p, t in new.items():
        if t != (names.texts.get(p) or read(p)):
            with open(p, "w", encoding="utf-8", newline="") as f:
                f.write(t)
    print(f"{len(every)} names renamed")


if __name__ == "__main__":
    main()
