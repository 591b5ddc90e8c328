#!/usr/bin/env python3
"""Brings the names that this repository's specs/ and proofs/ define to today's spelling, once, after port.py.

A word is in snake case, and a fact, which begins with a capital, in camel case without a dash: `first-broken` becomes
`first_broken`, and `Chosen-is-a-walk` becomes `ChosenIsAWalk`. Names that Rattle makes, as `loop-k-preserved`, keep
their dashes, and so do the library's. Comments and the text in quotes stay as they are, and so do the names in src/.

    python3 tools/respell_names.py        at the top of the repository; prints the names that fall together
"""
import glob
import os
import re

NAME = r"[A-Za-z][\w'ℕ≤<-]*"
# `abbrev pub f : ..`, `pub f : ..`, `pub record R (x : A) : ..`, and a field or a lemma with no mark
DECLARED = re.compile(
    r"^\s*(?:(?:abbrev|unfoldable|pub|record|data|mutual)\s+)*(" + NAME + r")"
    r"\s*(?:\{[^}]*\}\s*|\([^)]*\)\s*)*:(?:\s|$)")
# what Rattle makes: goals, invariants and measures
MADE = re.compile(
    r"^(loop|invariant|decreases|returns|overflow|bounds|offset|slice|nonzero|the|in|if|ghost|index)-"
    r"|-(requires|init|preserved|smaller|clause)(-|$)")
ANSWERS = ("Answers.antt", "Choices.antt", "Invariants.antt", "Proof.antt")


def respelled(name):
    if name[0].isupper():
        return "".join(part[:1].upper() + part[1:] for part in name.split("-"))
    return name.replace("-", "_")


def code_and_comment(line, mark):
    """The line before its comment, and the comment."""
    at = line.find(mark)
    return (line, "") if at < 0 else (line[:at], line[at:])


def antt_files():
    return sorted(glob.glob("crates/*/specs/**/*.antt", recursive=True)
                  + glob.glob("crates/*/proofs/**/*.antt", recursive=True))


def source_files():
    return sorted(glob.glob("crates/*/src/**/*.rt", recursive=True))


def declared_names():
    names = set()
    for path in antt_files():
        answers = os.path.basename(path) in ANSWERS
        for line in open(path, encoding="utf-8"):
            found = DECLARED.match(code_and_comment(line, "--")[0])
            if not found:
                continue
            name = found.group(1)
            # a file of answers has the names of goals, which begin a line; only what it declares beside them is ours
            if answers and re.search(r":\s*(goal|need)\.", line):
                continue
            if "-" in name and not (answers and MADE.search(name)):
                names.add(name)
    for path in antt_files() + source_files():
        for line in open(path, encoding="utf-8"):
            if re.match(r"\s*(ghost )?use ", line):
                names |= {name for name in re.findall(r" as (" + NAME + ")", line) if "-" in name}
    return names


def turned(text, names, mark):
    lines = []
    for line in text.split("\n"):
        code, comment = code_and_comment(line, mark)
        pieces = re.split(r'("(?:[^"\\]|\\.)*")', code)
        for i in range(0, len(pieces), 2):
            pieces[i] = re.sub(
                r"(?<![\w'◌-])" + NAME,
                lambda m: respelled(m.group(0)) if m.group(0) in names else m.group(0), pieces[i])
        lines.append("".join(pieces) + comment)
    return "\n".join(lines)


def main():
    names = declared_names()
    together = {}
    for name in sorted(names):
        together.setdefault(respelled(name), []).append(name)
    plain = set()
    for path in antt_files() + source_files():
        plain |= set(re.findall(NAME, open(path, encoding="utf-8").read()))
    for new, olds in sorted(together.items()):
        if len(olds) > 1 or new in plain:
            print("falls together:", new, "of", ", ".join(olds), "(stands already)" if new in plain else "")
    for path in antt_files():
        change(path, names, "--")
    for path in source_files():
        change(path, names, "//")
    for path in ["README.md"] + sorted(glob.glob("docs/*.md")):
        change_page(path, names)
    print(len(names), "names respelled")


def change_page(path, names):
    """In a page only the names between backquotes are the repository's."""
    old = open(path, encoding="utf-8").read()
    pieces = old.split("`")
    for i in range(1, len(pieces), 2):
        if pieces[i] in names:
            pieces[i] = respelled(pieces[i])
    new = "`".join(pieces)
    if new != old:
        open(path, "w", encoding="utf-8").write(new)


def change(path, names, mark):
    old = open(path, encoding="utf-8").read()
    new = turned(old, names, mark)
    if new != old:
        open(path, "w", encoding="utf-8").write(new)


if __name__ == "__main__":
    main()
