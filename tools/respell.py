#!/usr/bin/env python3
"""Spells the definitions and lemmas of crates/ as the library spells its own: words in snake case, a dash only between two names.

usage: tools/respell.py [--list]

Run once, after port.py: it renames in specs/, proofs/, clauses of src/ and must-fail/, and turns specs/Contracts.antt, a module name that
is the library's own, into specs/Promises.antt. --list prints the table and changes nothing.
"""

import collections
import glob
import os
import re
import sys

os.chdir(os.path.join(os.path.dirname(os.path.abspath(__file__)), ".."))

WORD = re.compile(r"[^\s(){}.;,@\"«»\[\]\\]+")
DECLARED = re.compile(r"^\s*(?:(abbrev|unfoldable)\s+)?(?:pub\s+)?(?:(data|record)\s+)?(?:pub\s+)?([^\s:(){}.;,@\"«»]+)(?:\s[^:]*)?\s*:\s")
# Words of the library that our lemmas' names are made of.
LIBRARY = set(
    "length take drop map get_or set sets replicate append reverse cond leb ltb eqb fits zero nil cons suc add mul sub div mod pow min max size "
    "sum filter all any swap insert remove Permᴰ Memᴰ All".split()
)
# Names that would fall together with another.
APART = {
    "is-nan": "nan_of_is_nan",
    "value-of": "value-value_of",
    "floats-size": "floats_enough",
    "numbers-size": "numbers_enough",
    "hashes-size": "hashes_enough",
    "work-size": "work_enough",
    "node-count": "count_of_nodes",
    "tree-size": "size_of_tree",
    "lengths-fit": "lengths_allowed",
    "search-end": "ended_search",
}
CAMEL = re.compile(r"(?<=[a-z0-9])(?=[A-Z])")


def snake(word):
    """'countFrom' as 'count_from'; a type's name, and an operator, stay."""
    if not word[:1].islower() or not CAMEL.search(word) or not re.fullmatch(r"[A-Za-z0-9_']+", word):
        return word
    return CAMEL.sub("_", word).lower()


def files():
    return sorted(glob.glob("crates/*/specs/*.antt") + glob.glob("crates/*/proofs/*.antt"))


def declared():
    """Names by kind: definitions (with constructors and fields), and the rest, which are lemmas."""
    defined, others, unfolded = set(), set(), set()
    for path in files():
        inside = None
        for line in open(path, encoding="utf-8"):
            if line.lstrip().startswith("--"):
                continue
            m = re.match(r"^\s*unfolding (.*)$", line)
            if m:
                unfolded.update(m.group(1).split())
                continue
            if not line.strip():
                inside = None
                continue
            head = re.match(r"^(?:pub )?(data|record) (?:pub )?(\S+)", line)
            if head:
                inside = head.group(1)
                defined.add(head.group(2))
                continue
            m = DECLARED.match(line)
            if not m or m.group(3) in ("let", "in", "where", "|", "use", "module"):
                continue
            name = m.group(3)
            (defined if inside or m.group(1) or m.group(2) else others).add(name)
    for name in list(others):
        if name in unfolded:
            others.discard(name)
            defined.add(name)
    return defined, others


def table():
    defined, lemmas = declared()
    parts = {snake(n) for n in defined | {n for n in lemmas if "-" not in n and n not in defined and CAMEL.search(n)}} | LIBRARY
    out = {}
    for name in sorted(defined | lemmas):
        if name in APART:
            out[name] = APART[name]
            continue
        if name.startswith("-") or name.endswith("-") or not re.search(r"[A-Za-z]", name):
            continue
        words = [snake(w) for w in name.split("-")]
        if name in defined:
            new = "_".join(words)
        else:
            new = words[0]
            for i in range(1, len(words)):
                new += ("-" if words[i - 1] in parts and words[i] in parts else "_") + words[i]
        if new != name:
            out[name] = new
    # a lemma that would have its function's name
    functions = {new for old, new in out.items() if CAMEL.search(old)}
    for name in sorted(defined | lemmas):
        if name not in APART and not CAMEL.search(name) and out.get(name, name) in functions:
            out[name] = out.get(name, name) + "_lem"
    return out, defined | lemmas


def brought_in(text, crates):
    """The names that a file has from libraries that are not the repository's."""
    out = set()
    for m in re.finditer(r"(?m)^\s*(?:pub |ghost )?use ([^\s{;]+?)(?:\.\{([^}]*)\})?;?$", text):
        path = m.group(1).split(".")
        if path[0] == "Rattle" and path[1] in crates:
            continue
        names = m.group(2).split(",") if m.group(2) else [path[-1]]
        out.update(n.split(" as ")[-1].strip() for n in names)
        out.update(n.split(" as ")[0].strip() for n in names)
    return out


def turned(text, names, code):
    """The text with its names turned; a name that stood in snake case before may be a function's of src/, in code and in the paths of 'use' lines."""
    out = []
    for line in text.split("\n"):
        used = line.startswith(("use ", "pub use "))

        def one(m):
            old = m.group(0)
            plain = "-" not in old and not CAMEL.search(old)
            if plain and (code or used and line[m.end() : m.end() + 1] == "."):
                return old
            return names.get(old, old)

        out.append(WORD.sub(one, line))
    return "\n".join(out)


def main():
    every, all_names = table()
    names = every
    crates = set(os.listdir("crates"))
    fall = collections.defaultdict(list)
    for old, new in names.items():
        fall[new].append(old)
    for new, olds in sorted(fall.items()):
        if len(olds) > 1 or (new in all_names and new not in names):
            print(f"look: {', '.join(olds)} fall together as {new}{' with one there' if new in all_names else ''}")
    if "--list" in sys.argv:
        for old, new in sorted(names.items()):
            print(f"{old}\t{new}")
        return
    paths = sorted(glob.glob("crates/*/specs/*.antt") + glob.glob("crates/*/proofs/**/*.antt", recursive=True)) + sorted(glob.glob("crates/*/src/**/*.rt", recursive=True) + glob.glob("crates/*/must-fail/*.edit"))
    for path in paths:
        text = open(path, encoding="utf-8").read()
        others = brought_in(text, crates)
        names = {old: new for old, new in every.items() if old not in others}
        code = path.endswith((".rt", ".edit"))
        new = "".join(
            part if code and i % 2 else turned(part, names, code)
            for i, part in enumerate(re.split(r'("(?:[^"\\\n]|\\.)*")', text) if code else [text])
        )
        new = re.sub(r"(specs\.)Contracts\b", r"\1Promises", new)
        new = re.sub(r"(?m)^(pub mod )Contracts$", r"\1Promises", new)
        new = new.replace("specs/Contracts.antt", "specs/Promises.antt")
        had = set(WORD.findall(text))
        for old in sorted(set(names) & had):
            if names[old] in had:
                print(f"look: {path}: {old} is now {names[old]}, which stood there")
        if new != text:
            open(path, "w", encoding="utf-8").write(new)
    for path in glob.glob("crates/*/specs/Contracts.antt"):
        os.rename(path, os.path.join(os.path.dirname(path), "Promises.antt"))


main()
