#!/usr/bin/env python3
"""Respells the repository's own definitions and lemmas: words in snake case, facts and types in camel case.

usage: python3 tools/respell_names.py      once, at the top of the repository, after port.py

A name that crates/*/specs or crates/*/proofs declares with a dash in it loses the dash everywhere: store-length becomes store_length, Line-written
becomes LineWritten. Goals that an answer is given for, names that the check makes, and names of the library keep theirs. Names in backquotes in
comments and pages follow; other text of comments does not. It stops, with nothing written, where two names would fall together in one file.
"""

import os
import re
import subprocess
import sys

TOKEN = re.compile(r"[^\s(){}\[\];,.:=@\"`]+")
DECLARED = re.compile(r"^(\s*)(?:(?:abbrev|unfoldable|pub|private)\s+)*(?:(record|data)\s+)?([^\s(){}\[\];,.:=]+)\s*((?:[({].*)?):(?!=)(.*)")
KIT = "/opt/rattle/rattle"


def files(*ends):
    for folder, dirs, names in os.walk("crates"):
        dirs[:] = sorted(d for d in dirs if d != "out")
        for name in sorted(names):
            if name.endswith(ends):
                yield os.path.join(folder, name)


def text(path):
    with open(path, encoding="utf-8") as f:
        return f.read()


def comment(line, path):
    """Where the comment of a line begins."""
    mark = re.search(r"//" if path.endswith(".rt") else r"(?:^|(?<=\s))--(?=\s|$)", line)
    return mark.start() if mark else len(line)


def respelled(name):
    if name[0].isupper():
        return "".join(part[:1].upper() + part[1:] for part in name.split("-"))
    return name.replace("-", "_")


def declared():
    """The names that are ours, the files that declare each, and those among them that are fields of records or stand in a module's body."""
    ours, inner, goals = {}, set(), set()
    for path in files(".antt"):
        for line in text(path).splitlines():
            m = DECLARED.match(line[: comment(line, path)])
            if not m or m[3] in ("let", "use", "mod") or "-" not in m[3].strip("-"):
                continue
            if re.match(r"\s*(goal|need)\.", m[5]):
                goals.add(m[3])
                continue
            ours.setdefault(m[3], set()).add(path)
            if m[1]:
                inner.add(m[3])
    return {n: p for n, p in ours.items() if n not in goals}, inner


def library(names):
    """Those of the names that the library uses too."""
    found, wanted = set(), set(names)
    for folder, _, all_files in os.walk(KIT):
        for name in all_files:
            if name.endswith((".antt", ".rt")):
                try:
                    found |= wanted.intersection(TOKEN.findall(text(os.path.join(folder, name))))
                except (OSError, UnicodeDecodeError):
                    pass
    return found


def taken_from_library(source):
    """Names that a file imports from elsewhere than this repository."""
    own = {c for c in os.listdir("crates")}
    names = set()
    for m in re.finditer(r"(?m)^\s*(?:ghost |pub )?use ([^\s;{]+)\.\{([^}]*)\}", source):
        path = m[1].split(".")
        if path[0] == "Rattle" and len(path) > 1 and path[1] in own:
            continue
        names.update(TOKEN.findall(m[2]))
    return names


def main():
    ours, inner = declared()
    shared = library(ours)
    new = {n: respelled(n) for n in ours}
    written, together = {}, []
    for path in files(".rt", ".antt", ".edit"):
        source = text(path)
        foreign = taken_from_library(source) & set(ours)
        known = {n for n in ours if n not in foreign and (n not in shared or path in ours[n] or re.search(r"use Rattle\.[^\n]*[{ ,]" + re.escape(n) + r"[ ,}]", source) or n in inner)}

        def turn(part):
            def one(m):
                name = m[0]
                if name not in known:
                    return name
                before = part[: m.start()]
                if before.endswith(".") and name not in inner:
                    return name
                return new[name]

            return TOKEN.sub(one, part)

        lines = []
        for line in source.splitlines(keepends=True):
            at = comment(line, path) if not path.endswith(".edit") else len(line)
            lines.append(turn(line[:at]) + re.sub(r"`[^`\n]*`", lambda m: "`" + turn(m[0][1:-1]) + "`", line[at:]))
        turned = "".join(lines)
        if turned != source:
            written[path] = turned
            code = " ".join(l[: comment(l, path)] for l in source.splitlines())
            have = set(TOKEN.findall(code))
            for n in known & have:
                if new[n] in have:
                    together.append(f"{path}: {n} and {new[n]}")
    for line in together:
        print("look: " + line)
    pages = ["README.md"] + [os.path.join("docs", p) for p in sorted(os.listdir("docs")) if p.endswith(".md")]
    for path in pages:
        source = text(path)
        turned = re.sub(r"`[^`\n]*`", lambda m: TOKEN.sub(lambda t: new.get(t[0], t[0]), m[0]), source)
        if turned != source:
            written[path] = turned
    for path, turned in written.items():
        with open(path, "w", encoding="utf-8") as f:
            f.write(turned)
    for c in sorted(os.listdir("crates")):
        if os.path.isdir(os.path.join("crates", c, "src")):
            subprocess.run(["rt", "fmt"], cwd=os.path.join("crates", c), stdout=subprocess.DEVNULL, stderr=subprocess.DEVNULL)
    print(f"{len(new)} names, {len(written)} files")
    return 0


if __name__ == "__main__":
    sys.exit(main())
