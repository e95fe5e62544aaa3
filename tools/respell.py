#!/usr/bin/env python3
"""Brings the repository's own definitions and lemmas, and the must-fail edits, to today's spelling. Run once, right after port.py, at the top.

usage: tools/respell.py            rewrites crates/ in place; what it leaves is printed
       tools/respell.py --names    prints the names it changes, old and new, and changes nothing

port.py respells what Rattle and its library named, and only by chance what this repository named. Here each name that a file of specs/ or
proofs/ declares, definitions, lemmas and fields of records, is brought to snake case: camel case and dashes go. A dash would join two names,
but an attribute 'using(..)' can't cite such a lemma, so all are underscores. Where a lemma and a definition would fall together, the lemma gets
'_lem'. Functions of src/, types, modules and what Rattle generates keep their names. An edit's text is turned as port.py turns a file's.
"""
import collections
import glob
import os
import re
import sys

os.chdir(os.path.dirname(os.path.dirname(os.path.abspath(__file__))))

TOKEN = re.compile(r"[^\s(){}\[\],;.⌜⌝\"`|:/]+")
CAMEL = re.compile(r"^[a-z][a-zA-Z0-9']*[A-Z]")
DECLARED = re.compile(r"^( *)((?:(?:pub|abbrev|unfoldable) )*)([^\s(){}:|=]+(?: [^\s(){}:|=]+)*) :(?= |$)", re.M)
OWN = {line.split(":")[0].split()[0] for line in open("crates.txt") if line.strip() and not line.startswith("#")}


def read(path):
    with open(path, encoding="utf-8") as file:
        return file.read()


def sources():
    for path in sorted(glob.glob("crates/*/**/*", recursive=True)):
        if path.endswith((".antt", ".rt")) and "/out/" not in path:
            yield path


# Whether a file states definitions and lemmas, and isn't the proof of one function.
def states(path):
    parts = path.split("/")
    return path.endswith(".antt") and (parts[2] == "specs" or len(parts) == 4)


def snake(name):
    return re.sub(r"(?<=[a-z0-9'])([A-Z])", lambda m: "_" + m[1].lower(), name).replace("-", "_")


# The names that files declare, each with the files.
def declared():
    names = collections.defaultdict(set)
    for path in filter(states, sources()):
        for match in DECLARED.finditer(read(path)):
            for name in match[3].split():
                names[name].add(path)
    return names


# Names that a file takes from elsewhere than this repository.
def foreign(text):
    names = set()
    for match in re.finditer(r"^(?:ghost )?use ([\w.·]+)\.\{([^}]*)\}", text, re.M):
        path = match[1].split(".")
        if not (path[0] == "Rattle" and path[1] in OWN):
            names |= {part.split(" as ")[-1].strip() for part in match[2].split(",")}
    return names


def renaming():
    names = declared()
    to = {}
    taken = collections.defaultdict(list)
    for name in names:
        if name[0].islower() and (CAMEL.match(name) or "-" in name):
            taken[snake(name)].append(name)
    for new, olds in taken.items():
        # What keeps the plain name: a definition, which was in camel case, before a lemma.
        olds = sorted(olds + [new] * (new in names), key=lambda name: (not CAMEL.match(name), "-" in name))
        for place, old in enumerate(olds):
            to[old] = new + "_lem" * place
        if len(olds) > 2:
            print(f"left: {len(olds)} names fall together: {new}", file=sys.stderr)
    return to


def turn(text, to, skip):
    def word(match):
        name = match[0]
        if name not in to or name in skip:
            return name
        before = text[match.start() - 1] if match.start() else ""
        if before == "." and not re.search(r"(?:^|[\s(])(?:ghost )?use [\w.·]*$", text[: match.start()]):
            return name if name not in FIELDS else to[name]
        return to[name]

    return TOKEN.sub(word, text)


# Fields of this repository's own records.
def fields():
    found = set()
    for path in filter(states, sources()):
        for match in re.finditer(r"^( *)(?:pub )?record [^\n]*where\n((?:\1 +[^\n]*\n|\n)*)", read(path), re.M):
            for line in DECLARED.finditer(match[2]):
                found |= set(line[3].split())
    return found


# An application that is projected, as an older text has it.
PROJECTED = re.compile(r"\(?interestOf (\w+) \.(\w+)\)?|\(((?:outcomeOf|groupOf)(?: \w+| \((?:[^()]|\([^()]*\))*\))+) \.(\w+)\)")


# A must-fail edit of a definition, turned as port.py and this script turn the file that it is laid over. Code stays as it was.
def edited(text, to):
    def turned(text):
        text = PROJECTED.sub(lambda m: f"(interestOf {m[1]}).{m[2]}{')' * (m[0].count(')') - m[0].count('('))}" if m[1] else f"({m[3]}).{m[4]}", text)
        text = re.sub(r"(?<=[\w')₀-₉]) \.(?=[a-z0-9])", ".", text)
        text = re.sub(r"(?<!\w)\((\w[\w']*(?:\.\w+)+)\)", r"\1", text)
        text = text.replace("Rattle·", "Rattle.").replace("Nat._+_", "Nat.◌+◌").replace("Nat._-_", "Nat.◌-◌").replace("getD", "get_or")
        return TOKEN.sub(lambda m: to.get(m[0]) or (snake(m[0]) if CAMEL.match(m[0]) else m[0]), text)

    lines, definitions = [], False
    for line in text.split("\n"):
        if line.startswith("file: "):
            definitions = line.endswith(".antt")
        elif line.startswith(("old:", "new:")) and definitions:
            line = line[:4] + turned(line[4:])
        elif line.startswith("# specs/"):
            label, colon, words = line.partition(":")
            line = turned(label) + colon + words
        lines.append(line)
    return "\n".join(lines)


# A page cites a definition or a lemma between backticks.
def cited(text, to):
    return re.sub(r"`[^`\n]+`", lambda span: TOKEN.sub(lambda m: to.get(m[0]) or (snake(m[0]) if CAMEL.match(m[0]) else m[0]), span[0])
                  if "/specs/" in span[0] or "/proofs/" in span[0] else span[0], text)


FIELDS = fields()

if __name__ == "__main__":
    to = renaming()
    if "--names" in sys.argv:
        for old in sorted(to):
            print(old, to[old])
        raise SystemExit
    turned = {}
    for path in sources():
        text = read(path)
        turned[path] = turn(text, to, foreign(text))
    for path in sorted(glob.glob("crates/*/must-fail/*.edit")):
        turned[path] = edited(read(path), to)
    for path in ["README.md", *sorted(glob.glob("docs/*.md") + glob.glob("docs/changes/*.md") + glob.glob("tests/*.md"))]:
        turned[path] = cited(read(path), to)
    for path, text in turned.items():
        with open(path, "w", encoding="utf-8") as file:
            file.write(text)
