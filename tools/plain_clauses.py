#!/usr/bin/env python3
"""Writes the clauses that the port script left as functions of the returned value as plain facts about `result`.

usage: python3 tools/plain_clauses.py        at the top of the repository, after tools/respell_names.py

`ensures* { λ r. ⌜ P r ⌝ }` becomes `ensures { P result }`, and the words of numbers in it become those of the library's specs.
"""

import os
import re

KEPT = re.compile(r"ensures\*( \w+)? \{ λ (?:r|_)\. ⌜ (.*) ⌝ \}")
# A whole word r that is no projection and no field of a record.
RESULT = re.compile(r"(?<![\w.'])r(?![\w'])(?! =)")
WORDS = {"le_z": "int_le", "lt_z": "int_lt", "nat_abs": "unsigned_abs"}


def plain(m):
    fact = RESULT.sub("result", m.group(2))
    if fact.startswith("((d e : ℕ) → ") and fact.endswith(")"):
        fact = fact[1:-1]
    for old, new in WORDS.items():
        fact = re.sub(rf"\b{old}\b", new, fact)
    return f"ensures{m.group(1) or ''} {{ {fact} }}"


for folder, dirs, names in os.walk("crates"):
    dirs[:] = sorted(d for d in dirs if d != "out")
    for name in sorted(names):
        path = os.path.join(folder, name)
        if not name.endswith(".rt"):
            continue
        with open(path, encoding="utf-8") as f:
            text = f.read()
        new = KEPT.sub(plain, text)
        if new != text:
            with open(path, "w", encoding="utf-8") as f:
                f.write(new)
            print(path)
