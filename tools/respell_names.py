#!/usr/bin/env python3
"""Respells the definitions and lemmas of this repository as today's Rattle spells names.

usage: python3 tools/respell_names.py          at the top of the repository, once, after port.py
       python3 tools/respell_names.py --list   prints old and new names, and changes nothing

A name joined by dashes, or with a capital inside, becomes snake case, or camel case where it begins with a capital (a type or a fact).
Names that Rattle makes (goals, labels) and functions, fields, parameters and strings of src/ keep their spelling.
A definition that would have the name of a function or a constant beside it in src/ gets '_lem'.
In src/ only 'ghost use' lines, clauses and ghost items are touched.
"""

import collections
import glob
import re
import sys

TOKEN = re.compile(r"[^\s(){}\[\];,.·⌜⌝\"]+")
HEAD = re.compile(r"(?:abbrev |unfoldable |pub )*([^\s:(){};,.]+)(?: [^:=]*)? : ")
KIND = re.compile(r"(?:pub )?(?:record|data|ruleset) ([^\s:(){};,.]+)")
PART = re.compile(r"\s+(?:abbrev |unfoldable |pub )*([^\s:(){};,.]+) : ")
GHOST = re.compile(r"\s*(?:pub )?(?:ghost\b|requires\b|ensures\b)")
WORD = re.compile(r"[A-Za-z_][A-Za-z0-9_]*")
INNER = re.compile(r"(?<=[a-z])[A-Z](?=[a-z]|_|-|$)")


def antt():
    return sorted(glob.glob("crates/*/specs/**/*.antt", recursive=True) + glob.glob("crates/*/proofs/**/*.antt", recursive=True))


def rust():
    return sorted(glob.glob("crates/*/src/**/*.rt", recursive=True))


def read(path):
    with open(path, encoding="utf-8") as f:
        return f.read()


def own_names():
    """The names with a dash that this repository defines, and those that 'ghost use .. as' gives."""
    names = set()
    for path in antt():
        in_answers = path.endswith(("Answers.antt", "Invariants.antt", "Proof.antt"))
        for line in read(path).splitlines():
            for form in (KIND, HEAD, PART):
                m = form.match(line)
                if m and (form is PART) == line.startswith(" "):
                    if not (in_answers and re.search(r": (goal|need)\.", line)):
                        names.add(m[1])
                    break
    for path in rust():
        for line in read(path).splitlines():
            if GHOST.match(line):
                names.update(re.findall(r" as ([^\s,}]+)", line))
    return {n for n in names if WORD.match(n[0]) and ("-" in n or INNER.search(n) and n[0].islower())}


def respelled(name):
    parts = name.split("-")
    if name[0].isupper():
        return "".join(p[:1].upper() + p[1:] for p in parts)
    return INNER.sub(lambda m: "_" + m[0].lower(), "_".join(parts))


def functions_and_constants():
    found = set()
    for path in rust():
        found.update(re.findall(r"\b(?:fn|const|static) ([A-Za-z_][A-Za-z0-9_]*)", read(path)))
    return found


def table():
    beside = functions_and_constants()
    new = {}
    for name in sorted(own_names()):
        to = respelled(name)
        new[name] = to + "_lem" if to in beside else to
    return new


def turned(text, new, touched):
    """Text with each whole name of the table turned, and the names that it had and has."""
    def one(m):
        touched.setdefault(new.get(m[0], m[0]), set()).add(m[0])
        return new.get(m[0], m[0])
    return TOKEN.sub(one, text)


def main():
    new = table()
    if "--list" in sys.argv:
        for name, to in new.items():
            print(name, to)
        return
    falls = []
    for path in antt() + rust():
        old = read(path)
        touched = {}
        lines = old.split("\n")
        for i, line in enumerate(lines):
            if path.endswith(".antt") or GHOST.match(line):
                lines[i] = turned(line, new, touched)
        falls += [(path, to, sorted(names)) for to, names in touched.items() if len(names) > 1]
        text = "\n".join(lines)
        if text != old:
            with open(path, "w", encoding="utf-8") as f:
                f.write(text)
    print(len(new), "names respelled")
    for path, to, names in falls:
        print("falls together:", path, to, names)


if __name__ == "__main__":
    main()
