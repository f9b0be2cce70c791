#!/usr/bin/env python3
"""Spells this repository's own definitions, lemmas, fields and locals in snake case, and its own types in camel case.

usage: python3 tools/snake_names.py [FOLDER]        at the top of the repository, once, after the kit's port.py

A name is turned where the repository declares it (specs/ and proofs/), and wherever such a name is cited: in specs/, in proofs/ and in
the clauses of src/. Names of the libraries, and the labels that Rattle makes (goal.loop-i-preserved, c.in-Ok), stay. Comments,
strings and the code of src/ stay. A lemma about a fact keeps the fact's capital and its dash, as All-append.
Prints 'meets:' for each name whose new spelling stood in the repository already.
"""

import collections
import os
import re
import sys

TOKEN = re.compile(r"(?<![\w'«-])[A-Za-z][\w']*(?:-[\w'?*+]+)+(?![\w'-])")
WORD = re.compile(r"(?<![\w'-])[A-Za-z_][\w'?]*(?:-[\w'?]+)*(?![\w'-])")
DECLARED = re.compile(r"^\s*(?:(?:pub|abbrev|unfoldable|private|record|data|module|open) )*([^\s(){}.;,:@\"]+)(?=[^\n]*?:| where| =|$)")
SIGNED = re.compile(r"^\s*(?:(?:pub|abbrev|unfoldable) )*([^\s(){}.;,:@\"]+)((?: [({][^\n]*[)}])*) :(?!:)")
KIND = re.compile(r"^\s*(?:(?:pub|abbrev|unfoldable) )*(?:record|data) ([^\s(){}.;,:@\"]+)")
BINDERS = re.compile(r"[({]((?:[^\s(){}.;,:@\"]+ )+): ")
LET = re.compile(r"\blet ([^\s(){}.;,:@\"]+) (?=[:=])")
LABEL = re.compile(r"^(?:pub |abbrev )*([^\s(){}.;,:@\"]+) : goal\.")
USE = re.compile(r"^\s*(?:ghost )?use ([^\s;{]+)\{([^}]*)\}", re.M)
# The names that would fall together with a variant of the code or a word of the library, and what they are called instead.
APART = {
    "bit-and": "bit_of_and",
    "bit-or": "bit_of_or",
    "Names-left": "NamesAhead",
    "Rules-left": "RulesAhead",
    "Rows-left": "RowsAhead",
    "Features-left": "FeaturesAhead",
    "Actions-left": "ActionsAhead",
    "Atoms-left": "AtomsAhead",
}


def files(root):
    for folder, dirs, names in os.walk(os.path.join(root, "crates")):
        dirs[:] = sorted(d for d in dirs if d not in ("out", ".git", "must-fail"))
        for name in sorted(names):
            if name.endswith((".rt", ".antt")):
                yield os.path.join(folder, name)


def split(path, line):
    """The part of a line that is text, and the part that is a comment."""
    mark = "//" if path.endswith(".rt") else "--"
    quoted = False
    for i, c in enumerate(line):
        if c == '"' and (i == 0 or line[i - 1] not in "\\'"):
            quoted = not quoted
        if not quoted and line.startswith(mark, i) and (mark == "//" or (i == 0 or line[i - 1].isspace()) and (len(line) == i + 2 or line[i + 2] == " ")):
            return line[:i], line[i:]
    return line, ""


# The state after an action was called `result`, the word for what a function returns today: the clauses that cite it kept the older form.
AFTER = re.compile(r"(?<![.\w-])result(?![\w-])")
KEPT = re.compile(r"ensures\* \{ λ (\w+)\. ⌜ (.*) ⌝ \}")
CITES_AFTER = ("domain/specs/Strips.antt", "domain/specs/StripsLaws.antt", "domain/src/strips/problem.rt")


def free_result(path, text):
    if not path.replace(os.sep, "/").endswith(CITES_AFTER) or "state_after" in text:
        return text
    text = AFTER.sub("state_after", text)
    return KEPT.sub(lambda m: "ensures { " + re.sub(rf"(?<![.\w-]){m[1]}(?![\w'-])", "result", m[2]) + " }", text)


def is_made(path):
    return os.path.basename(path) in ("Answers.antt", "Invariants.antt")


def camel(name):
    return "".join(p[:1].upper() + p[1:] for p in name.split("-"))


def declared(path, text):
    """The hyphened names that the file declares, each with whether it is a type."""
    out = {}
    labels = {m[1] for m in LABEL.finditer(text)} | {m[1] for m in re.finditer(LABEL.pattern, text, re.M)}
    for line in text.split("\n"):
        line = split(path, line)[0]
        m = KIND.match(line)
        if m and "-" in m[1]:
            out[m[1]] = True
            continue
        m = SIGNED.match(line)
        if m and "-" in m[1] and m[1] not in labels and "use " not in line:
            out[m[1]] = bool(re.search(r"Type 0\s*$", line))
        for m in LET.finditer(line):
            if "-" in m[1]:
                out.setdefault(m[1], False)
        for m in BINDERS.finditer(line):
            for name in m[1].split():
                if TOKEN.fullmatch(name):
                    out.setdefault(name, False)
    return out


def brought(text, crates):
    """The names that a file imports from outside of the repository."""
    out = set()
    for m in USE.finditer(text):
        steps = m[1].rstrip(".").split(".")
        if steps[0] == "Rattle" and steps[1] in crates:
            continue
        for part in m[2].split(","):
            out.add(part.split(" as ")[-1].strip())
    return out


def main():
    root = sys.argv[1] if len(sys.argv) > 1 else "."
    crates = set(os.listdir(os.path.join(root, "crates")))
    texts = {p: open(p, encoding="utf-8", newline="").read() for p in files(root)}
    kinds = {}
    for path, text in texts.items():
        if path.endswith(".antt"):
            for name, is_type in declared(path, text).items():
                kinds[name] = kinds.get(name, False) or is_type
    # a variable that is bound with no type: any hyphened word of a file of definitions or lemmas that no library lends
    for path, text in texts.items():
        if path.endswith(".antt") and not is_made(path):
            lent = brought(text, crates)
            for line in text.split("\n"):
                for m in TOKEN.finditer(re.sub(r'"[^"]*"', "", split(path, line)[0])):
                    if m[0] not in lent and m[0][0].islower() and line[m.start() - 1 : m.start()] != ".":
                        kinds.setdefault(m[0], False)
    new = {}
    for name, is_type in kinds.items():
        if name in APART:
            new[name] = APART[name]
        elif is_type and name[0].isupper():
            new[name] = camel(name)
        elif name[0].islower():
            new[name] = name.replace("-", "_")
    # a name that some file imports from a library stays in that file
    met = collections.defaultdict(set)
    for path, text in texts.items():
        for line in text.split("\n"):
            for m in WORD.finditer(split(path, line)[0]):
                met[m[0]].add(path)
    for old, now in sorted(new.items()):
        if met.get(now):
            both = [os.path.relpath(p, root) for p in sorted(met[now] & met[old])]
            print(f"meets: {old} -> {now}" + (f"; both in {both}" if both else ""))
    turned = 0
    for path, text in texts.items():
        lent = brought(text, crates)
        lines = []
        for line in text.split("\n"):
            head, tail = split(path, line)
            head = TOKEN.sub(lambda m: new.get(m[0], m[0]) if m[0] not in lent else m[0], head)
            lines.append(head + tail)
        done = free_result(path, "\n".join(lines))
        if done != text:
            turned += 1
            with open(path, "w", encoding="utf-8", newline="") as f:
                f.write(done)
    print(f"{len(new)} names, {turned} files")


main()
