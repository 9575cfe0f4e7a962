#!/usr/bin/env python3
"""Spells the repository's own definitions and lemmas in snake case: a dash inside such a name becomes an underscore.

    python3 tools/snake_case_names.py [FOLDER]     (FOLDER: a checkout, else the one this file stands in)

It was run once, after /opt/rattle/port/port.py. The names are those that specs/ and the lemma files of proofs/ declare: definitions,
lemmas, constructors, fields. The names of goals, of steps and of the library stay. In .rt files only clauses, ghost items and
`ghost use` lines are changed, so the names of functions, strings and outputs stay. It stops where two names would fall together.
"""
import os
import re
import sys
from glob import glob

ROOT = sys.argv[1] if len(sys.argv) > 1 else os.path.join(os.path.dirname(os.path.abspath(__file__)), "..")
WORD = r"[^\s(){}\[\].;,:@\"«»∥]+"
MADE = ("Answers.antt", "Invariants.antt", "Proof.antt", "Choices.antt")


def is_made(path):
    """A file of answers declares goals, whose names Rattle makes."""
    return os.path.basename(path) in MADE


def declared(text):
    """The names that the file declares: signatures, records, data, fields, constructors."""
    names = set()
    for line in text.splitlines():
        line = line.split("--")[0]
        m = re.match(r"\s*((?:(?:abbrev|unfoldable|pub|record|data|ruleset)\s+)*)(" + WORD + r"(?:\s+" + WORD + r")*?)\s*:(?!:)", line)
        if m:
            names.update(m.group(2).split())
        m = re.match(r"\s*(?:pub\s+)?(?:record|data)\s+(" + WORD + r")", line)
        if m:
            names.add(m.group(1))
    return names


def goals(text):
    """The goals that a file of answers declares."""
    return set(re.findall(r"^(?:abbrev\s+)?pub\s+(" + WORD + r")\s*:\s*goal\.", text, re.M))


def files(pattern):
    return sorted(glob(os.path.join(ROOT, "crates", "*", pattern), recursive=True))


def read(path):
    with open(path, encoding="utf8") as f:
        return f.read()


def words(text):
    return set(re.findall(WORD, text))


def collect():
    own, everything, taken = set(), set(), set()
    for path in files("specs/**/*.antt") + files("proofs/**/*.antt"):
        text = read(path)
        everything |= words(text)
        if is_made(path):
            taken |= goals(text)
            own |= declared(text) - goals(text)
        else:
            own |= declared(text)
    own = {n for n in own if "-" in n and re.fullmatch(r"[A-Za-z][A-Za-z0-9'-]*", n)}
    return own - taken, everything


def ghost_spans(text):
    """The parts of a .rt file that are antt: ghost use lines, ghost items, the braces of clauses."""
    spans = []
    for m in re.finditer(r"^[ \t]*ghost use [^;]*;", text, re.M):
        spans.append(m.span())
    for m in re.finditer(r"^[ \t]*(?:requires|ensures|ghost)\b(?! use)[^{;]*\{", text, re.M):
        depth, i = 1, m.end()
        while depth and i < len(text):
            depth += {"{": 1, "}": -1}.get(text[i], 0)
            i += 1
        spans.append((m.end(), i))
    return spans


def respell(text, rename):
    return re.sub(WORD, lambda m: rename.get(m.group(0), m.group(0)), text)


def main():
    own, everything = collect()
    rename = {n: n.replace("-", "_") for n in own}
    together = {}
    for n, new in rename.items():
        together.setdefault(new, []).append(n)
    clash = [v for v in together.values() if len(v) > 1] + [n for n, new in rename.items() if new in everything]
    if clash:
        sys.exit("names that fall together: %s" % clash)
    changed = 0
    for path in files("specs/**/*.antt") + files("proofs/**/*.antt"):
        text = read(path)
        new = respell(text, rename)
        if new != text:
            changed += 1
            with open(path, "w", encoding="utf8") as f:
                f.write(new)
    for path in files("src/**/*.rt"):
        text = new = read(path)
        for a, b in sorted(ghost_spans(text), reverse=True):
            new = new[:a] + respell(new[a:b], rename) + new[b:]
        if new != text:
            changed += 1
            with open(path, "w", encoding="utf8") as f:
                f.write(new)
    print("%d names, %d files" % (len(rename), changed))


main()
