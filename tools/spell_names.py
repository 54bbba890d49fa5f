#!/usr/bin/env python3
"""Spells this repository's own names as today's library spells its own.

usage: tools/spell_names.py          at the top of the repository, once, behind the toolchain's own script
       tools/spell_names.py FILE..   the same names in these files alone (pages, edits), by the table that the first run wrote

    putWordOf, wrongBits             ->  put_word_of, wrong_bits           definitions, fields and constructors are in snake case
    radii-most, p12-score            ->  radii_most, p12_score             so are those that had a dash
    put-word-room, mag-toBits        ->  put_word-room, mag-to_bits        in a law a dash joins two names, and a name keeps its spelling

Types, functions of src/, exported names, strings, inputs, outputs and file names keep theirs. The table is tools/spell_names.tsv.
"""
import collections
import glob
import os
import re
import sys

TABLE = "tools/spell_names.tsv"
WORD = re.compile(r"[^\s(){}\[\].;,@\"«»\\`:/*]+")
CODE = re.compile(r"\"(?:[^\"\\]|\\.)*\"|" + WORD.pattern)
FOLDERS = ("Proof.antt", "Answers.antt", "Invariants.antt")


def declared(path):
    """Yields each name that a file declares at its head, as a field or as a constructor, with its kind."""
    block = None
    for line in open(path, encoding="utf-8"):
        if line.startswith("--") or not line.strip():
            continue
        head = re.match(r"(?:(?:abbrev|unfoldable|pub|private)\s+)*(record|data)\s+(\S+)", line)
        if head:
            block = head[1]
            continue
        if line[0] not in " \t":
            block = None
        name = re.match(r"\s*(?:(?:abbrev|unfoldable|pub|private)\s+)*([^\s:({}\[\]|=,]+)\s*:\s", line)
        if name and (line[0] not in " \t" or block):
            yield name[1], "member" if block else "def"
        elif name and re.match(r"  \S", line):
            yield name[1], "def"


def snake(word):
    return re.sub(r"(?<=[a-z0-9])([A-Z])", lambda m: "_" + m[1].lower(), word.replace("getD", "get_or"))


def table():
    kinds = collections.defaultdict(set)
    for p in glob.glob("crates/*/specs/**/*.antt", recursive=True):
        for n, k in declared(p):
            kinds[n].add("spec" if k == "def" else k)
    for p in glob.glob("crates/*/proofs/**/*.antt", recursive=True):
        if os.path.basename(p) not in FOLDERS:
            for n, k in declared(p):
                kinds[n].add(k)
    known = {snake(n).replace("-", "_") for n, k in kinds.items() if k & {"spec", "member"}}
    known |= {snake(n) for n in kinds if "-" not in n}
    for p in glob.glob("crates/*/src/*.rt"):
        known |= set(re.findall(r"\bfn (\w+)", open(p, encoding="utf-8").read()))
    foreign = set()
    for p in glob.glob("crates/*/**/*.antt", recursive=True) + glob.glob("crates/*/src/*.rt"):
        for m in re.finditer(r"(?m)^(?:ghost )?use ([^\s{]+)\.\{([^}]*)\}", open(p, encoding="utf-8").read()):
            own = re.match(r"Rattle\.(\w+)\.", m[1])
            if not own or not os.path.isdir("crates/" + own[1]):
                foreign |= {w.strip() for w in m[2].split(",")}
    made = {}
    for n, k in kinds.items():
        if not n[0].islower() or n in foreign:
            continue
        parts = [snake(p) for p in n.split("-")]
        if k & {"spec", "member"}:
            new = "_".join(parts)
        else:
            out, i = [], 0
            while i < len(parts):
                j = next(j for j in range(len(parts), i, -1) if j == i + 1 or "_".join(parts[i:j]) in known)
                out.append("_".join(parts[i:j]))
                i = j
            new = "-".join(out)
        if new != n:
            made[n] = new
    # Where two names fall together, the definition keeps the plain one: a law that has its function's name ends in _lem, a member in _is.
    made["oneMore"] = "one_more_number"
    taken = collections.Counter(made.values())
    for n, new in list(made.items()):
        if "-" in n and (taken[new] > 1 or new in kinds or new in foreign):
            made[n] = new + ("_is" if "member" in kinds[n] else "_lem")
    taken = collections.Counter(made.values())
    clash = sorted(n for n, new in made.items() if taken[new] > 1 or new in kinds or new in foreign)
    return made, clash


def turn(path, made):
    with open(path, encoding="utf-8") as f:
        text = f.read()
    swap = lambda m: made.get(m[0], m[0])
    if path.endswith(".edit"):
        new = "".join(l if l.startswith("file:") else WORD.sub(swap, l) for l in text.splitlines(keepends=True))
    elif path.endswith(".md"):
        new = re.sub(r"`[^`\n]*`", lambda m: re.sub(r"(?<![/\w-])" + WORD.pattern, swap, m[0]), text)
    else:
        new = CODE.sub(swap, text)
    if new != text:
        with open(path, "w", encoding="utf-8") as f:
            f.write(new)
    return new != text


def main(files):
    if files:
        made = dict(l.rstrip("\n").split("\t") for l in open(TABLE, encoding="utf-8"))
        return print(sum(turn(p, made) for p in files), "files changed")
    made, clash = table()
    for n in clash:
        print("left, since the name is taken:", n, "->", made.pop(n))
    with open(TABLE, "w", encoding="utf-8") as f:
        f.writelines(f"{n}\t{made[n]}\n" for n in sorted(made))
    paths = glob.glob("crates/*/**/*.antt", recursive=True) + glob.glob("crates/*/src/*.rt")
    print(len(made), "names,", sum(turn(p, made) for p in paths if "/out/" not in p), "files changed")


main(sys.argv[1:])
