#!/usr/bin/env python3
"""Lists the lines of src/ that may be places of older forms, point by point, at a commit or in the working tree.

count_places.py [COMMIT|.] [POINT]: with a point its lines, else how many lines each pattern finds. A line that is found
is a place to look at, not yet a place of the form: docs/DESIGN-PASS.md says which are.
"""

import collections
import itertools
import re
import subprocess
import sys

# point, what the pattern finds, the pattern
PATTERNS = [
    ("1", "enums", r"^\s*(pub(\(crate\))? )?enum "),
    ("1", "flags in structs", r"^\s*(pub(\(crate\))? )?[a-z_]+: bool,"),
    ("1", "a number that stands for none",
     r"\bFAR\b.*=|\bNO_NUMBERS\b.*=|=> 0,|return 0;|=> 255,|or past the end|unwrap_or\(0\)|=> [12]00,"),
    ("1", "numbers for kinds and refusals",
     r"^\s*(pub )?section: u8|fn \w*number\w*\(.*-> u8|fn told\(.*-> u8|fn \w+\(.*Result<.*, usize>"),
    ("2", "functions", r"^\s*(pub(\(crate\))? )?(extern \"C\" )?fn \w+"),
    ("3", "loops", r"^\s*(for|while|loop)\b.*\{"),
    ("4", "conversions, comparisons and texts by hand",
     r"fn (number|name|is|is_of|is_before|goes|told|byte|granted|fault_of_setting|numbers_of|four|outside_sheet)\b"
     r"|=> return Err\(PlanError|Err\(fault\) => Err\(|Some\(\(numbers\."),
    ("6", "arrays of a fixed length", r"\[[^;\[\]]+; ?[A-Z0-9_]+( as usize)?\]"),
    ("7", "arms that only call a function", r"=> (self\.)?[a-z_]+\([^()]*\),$"),
]


def sources(commit):
    """The files of crates/*/src with their texts."""
    run = lambda *words: subprocess.run(words, capture_output=True, text=True, check=True).stdout
    names = run("git", "ls-tree", "-r", "--name-only", commit) if commit else run("git", "ls-files")
    for name in sorted(names.split("\n")):
        if re.fullmatch(r"crates/\w+/src/.*\.rt", name):
            yield name, run("git", "show", f"{commit}:{name}") if commit else open(name, encoding="utf-8").read()


def lines_of(texts, pattern):
    """The lines that the pattern finds."""
    return [
        f"{name}:{number}: {line.strip()}"
        for name, text in texts
        for number, line in enumerate(text.split("\n"), 1)
        if not line.lstrip().startswith(("//", "ghost use")) and re.search(pattern, line)
    ]


def shared(texts, parts_of):
    """What stands in three or more functions of a crate, by `parts_of` the text of a function up to its body."""
    seen = collections.defaultdict(set)
    for name, text in texts:
        plain = re.sub(r"//.*", "", text)
        for match in re.finditer(r"\bfn (\w+)[^;{]*(\([^{}]*?\))((?:[^{};]|\{[^{}]*\}(?=\s*(?:requires|ensures|\{|;)))*)", plain):
            for part in parts_of(match.group(2), match.group(3)):
                seen[name.split("/")[1], part].add(match.group(1))
    return [f"{crate}: {part}: {', '.join(sorted(functions))}"
            for (crate, part), functions in sorted(seen.items()) if len(functions) >= 3]


def clauses(_, contract):
    for match in re.finditer(r"\b(?:requires|ensures)\s+(?:\w+\s+)?\{([^{}]*)\}", contract):
        yield re.sub(r"\s+", " ", match.group(1)).strip()


def pairs(parameters, _):
    given = sorted(set(re.findall(r"\w+: [^,()]+", parameters)))
    yield from (" and ".join(pair) for pair in itertools.combinations(given, 2))


def main():
    commit = sys.argv[1] if len(sys.argv) > 1 and sys.argv[1] != "." else None
    point = sys.argv[2] if len(sys.argv) > 2 else None
    texts = list(sources(commit))
    found = [(at, what, lines_of(texts, pattern)) for at, what, pattern in PATTERNS]
    found.append(("5", "clauses that stand in three or more functions of a crate", shared(texts, clauses)))
    found.append(("5", "pairs of parameters of three or more functions of a crate", shared(texts, pairs)))
    for at, what, lines in sorted(found, key=lambda entry: entry[0]):
        if point in (None, at):
            print(f"{at} {what}: {len(lines)}")
            for line in lines if point else []:
                print(f"    {line}")


main()
