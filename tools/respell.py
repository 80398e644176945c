#!/usr/bin/env python3
"""Respells the repository's own definitions and lemmas in snake case, once, after port.py of the kit.

usage: python3 tools/respell.py [--dry]      at the top of the repository

Names are those that the .antt files of crates/*/specs and crates/*/proofs declare: `lumpSum` and `optimal-exact` become
`lump_sum` and `optimal_exact`. Types, modules, functions of src/, exported names, strings, inputs and outputs stay. A lemma
that would get the name of a definition ends in `_lem`; where a parameter or a function has the name, NAMED says the other one.
Files: the .antt files, the clauses of the .rt files, the must-fail edits, and names in backticks in comments and documents.
"""

import collections
import glob
import os
import re
import sys

# Names that would fall together with a parameter, a field or another name.
NAMED = {}

DECLARED = re.compile(r"^\s*(?:(?:pub|abbrev|unfoldable|data|record|ruleset)\s+)*([^\s:(){}=,.]+)\s*(?::|=)\s")
FIXED = re.compile(r"^\s*(?:(?:pub)\s+)*(abbrev|unfoldable)\b")
TOKEN = re.compile(r"(?<![\w'·-])[^\W\d][\w'-]*")
KIT_USE = re.compile(r"^\s*(?:ghost )?use ([^\s{;]+?)(?:\.\{([^}]*)\})?(?: as \S+)?;?\s*$")
TICKED = re.compile(r"`([^`\n]+)`")


def snake(name):
    name = name.replace("-", "_")
    return re.sub(r"(?<=[a-z0-9])([A-Z])", lambda m: "_" + m.group(1).lower(), name)


def read(path):
    with open(path, encoding="utf-8") as f:
        return f.read()


def antt_files():
    return sorted(glob.glob("crates/*/specs/**/*.antt", recursive=True) + glob.glob("crates/*/proofs/**/*.antt", recursive=True))


def source_files():
    return sorted(glob.glob("crates/*/src/**/*.rt", recursive=True))


def edit_files():
    return sorted(glob.glob("crates/*/must-fail/*.edit"))


def document_files():
    return sorted(["README.md", "CHANGES.md"] + glob.glob("docs/**/*.md", recursive=True))


def declared():
    """Every declared name, and those of definitions."""
    names, definitions = set(), set()
    for path in antt_files():
        for line in read(path).splitlines():
            code = line.split("--")[0] if line.lstrip().startswith("--") else line
            if line.lstrip().startswith(("--", "use ")):
                continue
            m = DECLARED.match(code)
            if m:
                names.add(m.group(1))
                if FIXED.match(code):
                    definitions.add(m.group(1))
            names.update(re.findall(r"\blet ([^\s:(){}=,]+) (?::|=)", code))
    return names, definitions


def of_kit(text, own):
    """The names that a file takes from the kit."""
    taken = set()
    for line in text.splitlines():
        m = KIT_USE.match(line)
        if m and m.group(2):
            parts = m.group(1).split(".")
            if not (parts[0] == "Rattle" and len(parts) > 1 and parts[1] in own):
                taken.update(x.strip().split(" as ")[-1] for x in m.group(2).split(","))
    return taken


def renamings():
    names, definitions = declared()
    wanted = {}
    for name in sorted(names):
        if name[0].isupper() or not ("-" in name or re.match(r"[a-z]\w*[A-Z]", name)):
            continue
        if not re.fullmatch(r"[^\W\d][\w'-]*", name) or name.startswith("Need-"):
            continue
        wanted[name] = NAMED.get(name, snake(name))
    taken = collections.defaultdict(set)
    for name, new in wanted.items():
        taken[new].add(name)
    for new, old in taken.items():
        others = old | ({new} if new in names else set())
        if len(others) > 1:
            for name in others:
                if name in wanted and name not in definitions and name not in NAMED and (others & definitions):
                    wanted[name] = new + "_lem"
    return wanted, names, definitions


def tokens(text):
    return set(TOKEN.findall(text))


def code_and_comment(line):
    at = line.find("-- ")
    if line.lstrip().startswith("--"):
        return "", line
    return (line, "") if at < 0 else (line[:at], line[at:])


def turned(code, wanted, skip):
    return TOKEN.sub(lambda m: wanted[m.group(0)] if m.group(0) in wanted and m.group(0) not in skip else m.group(0), code)


def ticked(text, wanted):
    return TICKED.sub(lambda m: "`" + turned(m.group(1), wanted, ()) + "`", text)


def antt(text, wanted, own):
    skip = of_kit(text, own)
    lines = []
    for line in text.split("\n"):
        code, comment = code_and_comment(line)
        m = KIT_USE.match(code) if code.lstrip().startswith("use ") else None
        if m:
            parts = m.group(1).split(".")
            if not (parts[0] == "Rattle" and len(parts) > 1 and parts[1] in own):
                lines.append(line)
                continue
        lines.append(turned(code, wanted, skip) + ticked(comment, wanted))
    return "\n".join(lines)


def source(text, wanted):
    """Camel case and dashes stand in clauses alone, so a whole line may be turned; comments by their backticks."""
    lines = []
    for line in text.split("\n"):
        if line.lstrip().startswith("//"):
            lines.append(ticked(line, wanted))
        else:
            lines.append(turned(line, wanted, ()))
    return "\n".join(lines)


def main():
    own = {line.split(":")[0].strip() for line in read("crates.txt").splitlines() if ":" in line}
    wanted, names, definitions = renamings()
    dry = "--dry" in sys.argv
    clashes = collections.defaultdict(list)
    for path in antt_files() + source_files():
        text = read(path)
        have = tokens(text)
        for name in have:
            new = wanted.get(name)
            if new and new in have and name not in of_kit(text, own):
                clashes[(name, new)].append(path)
    if dry:
        for (name, new), paths in sorted(clashes.items()):
            print("clash:", name, new, "def" if name in definitions else "lemma", paths[:6], len(paths))
        print(len(wanted), "names")
        return
    for path in antt_files():
        text = read(path)
        new = antt(text, wanted, own)
        if new != text:
            open(path, "w", encoding="utf-8").write(new)
    for path in source_files() + edit_files():
        text = read(path)
        new = source(text, wanted)
        if new != text:
            open(path, "w", encoding="utf-8").write(new)
    for path in document_files():
        if os.path.exists(path):
            text = read(path)
            new = ticked(text, wanted)
            if new != text:
                open(path, "w", encoding="utf-8").write(new)
    print(len(wanted), "names respelled")


if __name__ == "__main__":
    main()
