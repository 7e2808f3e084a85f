#!/usr/bin/env python3
"""Turns the repository's own definitions and lemmas from camel case to snake case, where port.py left them: numberFrom is number_from.

    python3 tools/snake_case.py

Run once, at the top, behind port.py. It turns every name in lower camel case that a file of specs/ or proofs/ has, there, in the clauses and ghost items of
src/ and in must-fail/. Types and modules keep their spelling, and so does everything else of src/.
"""
import glob
import re

WORD = re.compile(r"[A-Za-z_][A-Za-z0-9_'₀-₉·]*(?:-[A-Za-z0-9_'₀-₉·]+)*")
# names of bytes, and a name of the library that keeps its capital
KEPT = re.compile(r"x[0-9A-F]{2}|in_List")
# names that would fall together, or that name a definition of the library by an older name
OTHER = {"getD-inside": "get_or-inside"}


def is_camel(word):
    return re.search(r"(?:^|-)[a-z][a-z0-9_]*[A-Z]", word) and not KEPT.fullmatch(word)


def snake(word):
    if word in OTHER:
        return OTHER[word]
    parts = []
    for part in word.split("-"):
        if part[0].islower():
            part = re.sub(r"(?<=[a-z0-9])([A-Z])", lambda m: "_" + m.group(1).lower(), part)
        parts.append(part)
    return "-".join(parts)


def turned(text, names):
    return WORD.sub(lambda m: names.get(m.group(0), m.group(0)), text)


def main():
    antt = sorted(glob.glob("crates/*/specs/**/*.antt", recursive=True) + glob.glob("crates/*/proofs/**/*.antt", recursive=True))
    texts = {path: open(path, encoding="utf-8").read() for path in antt}
    names, taken = {}, {}
    for path, text in texts.items():
        for word in WORD.findall(text):
            (names if is_camel(word) else taken).setdefault(word, path)
    names = {word: snake(word) for word in names}
    for word, new in sorted(names.items()):
        if new in taken:
            print(f"{word} is {new} now, which stands in {taken[new]} too")
    for path, text in texts.items():
        write(path, text, turned(text, names))
    for path in sorted(glob.glob("crates/*/src/**/*.rt", recursive=True)):
        lines = open(path, encoding="utf-8").read().split("\n")
        new = [turned(line, names) if re.match(r"\s*(ghost\b|requires\b|ensures\b)", line) else line for line in lines]
        write(path, "\n".join(lines), "\n".join(new))
    for path in sorted(glob.glob("crates/*/must-fail/*.edit")):
        text = open(path, encoding="utf-8").read()
        write(path, text, turned(text, names))


def write(path, old, new):
    if old != new:
        with open(path, "w", encoding="utf-8") as file:
            file.write(new)


main()
