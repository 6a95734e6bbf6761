#!/usr/bin/env python3
"""Respells the names that the .antt files of this repository declare: types and modules in upper camel case, all else in snake case.

usage: python3 tools/respell_names.py        at the top of the repository

It goes by the declarations: `Pair-is-unique` becomes `PairIsUnique`, `channel-numbers` and `unionOf` become `channel_numbers` and
`union_of`. Comments, strings and the goals that the check names (`goal.returns-in-None`) keep their spelling. Where two names would
fall together it says so and changes neither.
"""

import collections
import os
import re
import sys

WORD = re.compile(r"[^\W\d][\w'-]*(?:\+\+)?")
DECLARED = re.compile(r"^\s*(?:(?:abbrev|unfoldable|opaque|foldable|inline|instance) )?(?:pub )?(?:data |record |module )?([^\W\d][\w'-]*(?:\+\+)?)(?: +[({⦃][^=]*)?(?: +[^\W\d][\w']*)* *:(?!=)")
ALIAS = re.compile(r"^(?:ghost )?use .*$")
AS = re.compile(r"\bas ([^\W\d][\w'-]*)")
LET = re.compile(r"\blet ([^\W\d][\w'-]*) *:")
GOAL = re.compile(r"\b(?:goal|rules|Goals|Rules)\.([^\W\d][\w'-]*)")

LOWER = {c: c + 32 for c in range(ord("A"), ord("Z") + 1)}

# A lemma and a definition that the same file imports would fall together.
APART = {"symbol-at": "symbol_found"}


def respelt(name):
    if name in APART:
        return APART[name]
    parts = [p for p in name.replace("getD", "get_or").replace("++", "append").split("-") if p]
    if name[0].isupper():
        return parts[0] + "".join(p[0].upper() + p[1:] for p in parts[1:])
    return "_".join(re.sub(r"(?<=[a-z0-9])(?=[A-Z])", "_", p) for p in parts).translate(LOWER)


def pieces(text, mark):
    """The text in parts: code, and what keeps its spelling (comments and strings)."""
    kept = re.compile(r'"(?:\\.|[^"\\\n])*"|' + mark + r"[^\n]*")
    last = 0
    for m in kept.finditer(text):
        yield True, text[last : m.start()]
        yield False, m.group()
        last = m.end()
    yield True, text[last:]


def code(text, mark):
    return "\n".join(t for is_code, t in pieces(text, mark) if is_code)


def files(*endings):
    for folder, dirs, names in os.walk("crates"):
        dirs[:] = sorted(d for d in dirs if d != "out")
        for n in sorted(names):
            if n.endswith(endings):
                yield os.path.join(folder, n)


def read(path):
    with open(path, encoding="utf-8") as f:
        return f.read()


def goals_of(text):
    """The names in a proof of one function that the check gives: those of goals, and those declared at a goal's type."""
    return set(GOAL.findall(text))


def of_function(path):
    """Whether the file belongs to the proof of one function."""
    return os.path.basename(path) in ("Answers.antt", "Choices.antt", "Invariants.antt", "Proof.antt") and "/proofs/" in path


def declared():
    found = set()
    for path in files(".antt"):
        text = read(path)
        goals = goals_of(text) if of_function(path) else set()
        for part in code(text, "--").split("\n"):
            aliases = AS.finditer(part) if ALIAS.match(part) else ()
            for m in (DECLARED.match(part), *LET.finditer(part), *aliases):
                if m and m.group(1) not in goals:
                    found.add(m.group(1))
    return found


def main():
    names = {n: respelt(n) for n in declared()}
    names = {a: b for a, b in names.items() if a != b}
    all_words = collections.Counter()
    for path in files(".antt", ".rt"):
        mark = "--" if path.endswith(".antt") else "//"
        all_words.update(WORD.findall(code(read(path), mark)))
    together = collections.defaultdict(set)
    for a, b in names.items():
        together[b].add(a)
    for b, olds in sorted(together.items()):
        if len(olds) > 1 or (b in all_words and "--say" in sys.argv):
            print(f"fall together: {', '.join(sorted(olds))} -> {b}" + (" (in use)" if b in all_words else ""))
        if len(olds) > 1:
            for a in olds:
                del names[a]
    changed = 0
    for path in files(".antt", ".rt", ".edit"):
        text = read(path)
        kept = goals_of(text) if of_function(path) else set()

        def turn(m):
            return m.group() if m.group() in kept else names.get(m.group(), m.group())

        if path.endswith(".edit"):
            new = WORD.sub(turn, text)
        else:
            mark = "--" if path.endswith(".antt") else "//"
            new = "".join(WORD.sub(turn, t) if is_code else t for is_code, t in pieces(text, mark))
        if new != text:
            changed += 1
            with open(path, "w", encoding="utf-8") as f:
                f.write(new)
    for path in ["README.md", *(os.path.join("docs", d) for d in sorted(os.listdir("docs")) if d.endswith(".md"))]:
        text = read(path)
        new = re.sub(r"`[^`\n]+`", lambda s: WORD.sub(lambda m: names.get(m.group(), m.group()), s.group()), text)
        if new != text:
            changed += 1
            with open(path, "w", encoding="utf-8") as f:
                f.write(new)
    print(f"{len(names)} names, {changed} files")


main()
