#!/usr/bin/env python3
"""Counts the places of each point of docs/DESIGN-PASS.md in src/, at a commit or in the checkout, and lists them with --list.

python3 tools/design_places.py [COMMIT] [--list POINT]
"""
import collections
import re
import subprocess
import sys

# Each pattern is looked for in every source file as a whole, so that it may span lines; tables of tests are left out.
PATTERNS = {
    "1": [
        r"Err\(_\) => unreachable\(\)",  # a result that cannot fail, taken apart
        r"match [^{}]*\{\s*Some\([^)]*\) => [^{}]*?,\s*None => (false|0|None|\[0; 8\]|return None),?\s*\}",  # an Option with a default, by match
        r"if [^{}]*\{\s*(Some\([^{}]*\)|None)\s*\} else \{\s*(Some\([^{}]*\)|None)\s*\}",  # an Option made by if
        r"let Ok\([^)]*\) = [^{};]* else \{\s*return Err",  # an error turned by hand
        r"\.is_err\(\)\s*\{\s*return Err",
        r"Err\(\w+\) => (return )?Err\(",
        r"_ => 36|=> \(0, 0\)",  # a number that stands for none
        r"\b(write|acquire|release): bool|AmoKind, bool, bool",  # flags beside a value
    ],
    "3": [
        r"for \w+ in [^{\n]*\.\.[^{\n]*\{",  # a range that is counted through
        r"while [^{\n]*\{",
        r"let mut (at|from|n|found|all) = (0|false|true);",  # a counter or a flag for a loop
    ],
    "4": [
        r"fn (wanted|at_fault|event_of|letter_of|read_stage|stage_word|read_access|access_word|access|tag|tag_words|\w+_funct3|operation_functs)\(",
        r"\"refused \{\} at \{\}\"",
    ],
    "6": [
        r"count: usize,\n\}",  # an array with a length beside it
        r"(rows|counts): Vec<",  # a row that runs parallel to another
        r"for (named|local|\(i, (named|local)\)) in self\.",  # a list searched by hand
    ],
    "7": [r"fn (at_places|at_their_time|without|later)\("],
}
FACTS = [
    r"3309 ≤ length", r"169 ≤ length", r"≡ 640", r"≡ 2560", r"(count|row\.count) ≤ 16", r"(Grant|Probe)?Inside \w", r"slot < 64",
    r"8 \* lines \+ 1024 ≤ length", r"funct7 < 2 \^ 7|funct3 < 2 \^ 3|opcode < 2 \^ 7", r"\bk < 4\b", r"L\.Listener\.(said|did)",
]


def sources(commit):
    if commit is None:
        names = subprocess.run(["git", "ls-files", "crates/*/src/*.rt"], capture_output=True, text=True, check=True).stdout.split()
        for name in names:
            with open(name) as file:
                yield name, file.read()
    else:
        names = subprocess.run(["git", "ls-tree", "-r", "--name-only", commit, "crates"], capture_output=True, text=True, check=True).stdout.split()
        for name in names:
            if "/src/" in name and name.endswith(".rt"):
                yield name, subprocess.run(["git", "show", commit + ":" + name], capture_output=True, text=True, check=True).stdout


def main():
    words = sys.argv[1:]
    wanted = words.pop(words.index("--list") + 1) if "--list" in words else None
    words = [word for word in words if word != "--list"]
    files = [(name, text) for name, text in sources(words[0] if words else None) if not name.endswith("table.rt")]
    for point, patterns in PATTERNS.items():
        found = []
        for name, text in files:
            for pattern in patterns:
                for match in re.finditer(pattern, text):
                    found.append((name, text.count("\n", 0, match.start()) + 1, match.group(0).split("\n")[0]))
        print("point", point, "places", len(found))
        if point == wanted:
            for name, line, text in sorted(found):
                print("  ", name + ":" + str(line), text)
    names = collections.Counter()
    where = collections.defaultdict(set)
    for name, text in files:
        crate = name.split("/")[1]
        for match in re.finditer(r"^\s*(?:pub(?:\(crate\))? )?fn (\w+)", text, re.M):
            if "/tests" not in name:
                names[match.group(1)] += 1
                where[match.group(1)].add(crate)
    twins = {n: c for n, c in names.items() if c > 1 and n not in ("new", "main", "read", "write", "from", "fmt", "next", "run")}
    print("point 2 names of functions that stand more than once", len(twins), "functions", sum(twins.values()))
    if wanted == "2":
        for n in sorted(twins):
            print("  ", n, twins[n], ", ".join(sorted(where[n])))
    for fact in FACTS:
        count = sum(len(re.findall(fact, text)) for _, text in files)
        print("point 5 fact", fact, "clauses", count)


main()
