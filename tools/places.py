#!/usr/bin/env python3
"""Lists places in src/ and proofs/ that an older form of the language leaves behind, by kind.

usage: python3 tools/places.py [KIND..]      in the repository; KIND is a number from 1 to 8, with none all

It reads text and judges by shape: a place in the list is one to look at, and docs/DESIGN-PASS.md says what became of each.
"""
import collections
import glob
import os
import re
import sys

KINDS = {
    1: "enums with and without a value, errors handed on by hand, flags, numbers for refusals",
    2: "functions with bodies of one shape",
    3: "loops over an index, and loops with no range",
    4: "conversion, comparison and printing by hand",
    5: "parameters that travel together, facts of three contracts or more",
    6: "lists with a length or an index beside them, parallel arrays",
    7: "matches whose arms each call another function, tables of functions",
    8: "answers that only search, and answers of one text",
}


def sources():
    for path in sorted(glob.glob("crates/*/src/**/*.rt", recursive=True)):
        yield path, open(path, encoding="utf-8").read()


def bare(text):
    """The text with comments, strings and byte literals blanked, line for line."""
    text = re.sub(r'b?"(?:\\.|[^"\\])*"', '""', text)
    text = re.sub(r"b'(?:\\.|[^'\\])+'", "0", text)
    return re.sub(r"//[^\n]*", "", text)


def line_of(text, at):
    return text.count("\n", 0, at) + 1


def block(text, at):
    """From the first `{` at or behind `at`: the index behind its `}`."""
    at = text.index("{", at)
    depth = 0
    for i in range(at, len(text)):
        depth += {"{": 1, "}": -1}.get(text[i], 0)
        if depth == 0:
            return at, i + 1
    return at, len(text)


def functions(text):
    """Name, place, parameters, clauses and body of each function with a body."""
    for m in re.finditer(r"\bfn (\w+)(?:<[^(]*>)?\(", text):
        depth, i = 1, m.end()
        while depth:
            depth += {"(": 1, ")": -1}.get(text[i], 0)
            i += 1
        parameters = text[m.end():i - 1]
        clauses = []
        rest = i
        while True:
            n = re.compile(r"[^{;]*?\b(ensures|requires)\b\*?\s*\w*\s*(?=\{)").match(text, rest)
            if not n:
                break
            a, b = block(text, n.end() - 1)
            clauses.append((n.group(1), " ".join(text[a + 1:b - 1].split())))
            rest = b
        n = re.compile(r"[^{;]*").match(text, rest)
        if n.end() >= len(text) or text[n.end()] == ";":
            continue
        a, b = block(text, n.end())
        yield m.group(1), line_of(text, m.start()), parameters, clauses, text[a:b]


def shape(body):
    words = re.findall(r"\w+|[^\w\s]", body)
    keep = {"match", "if", "else", "for", "while", "loop", "return", "let", "mut", "self", "Ok", "Err", "Some", "None", "as", "in"}
    return tuple(w if w in keep or not re.match(r"\w", w) else ("0" if w[0].isdigit() else "x") for w in words)


def kind1():
    for path, raw in sources():
        text = bare(raw)
        for m in re.finditer(r"\benum (\w+)(?:<[^{]*>)?\s*", text):
            a, b = block(text, m.end())
            cases = [c.strip() for c in re.split(r",(?![^({]*[)}])", text[a + 1:b - 1]) if c.strip()]
            valued = [c for c in cases if re.match(r"\w+\s*[({]", c)]
            names = {re.match(r"\w+", c).group() for c in cases}
            if (valued and len(valued) < len(cases) and len(cases) < 10) or names & {"None", "Refused"}:
                yield path, line_of(text, m.start()), "enum " + m.group(1)
        for pattern in (r"Err\((\w+)\) => (?:return )?Err\(\1\)", r"None => (?:return )?(?:Ok\()?None", r"else \{\s*return (?:None|Err\()",
                        r"Err\(\w+\) => (?:return )?(?:Err\((?!\w+\))|\w+::Refused|None\b|Outcome::Refused)", r"None => (?:return )?Err\("):
            for m in re.finditer(pattern, text):
                yield path, line_of(text, m.start()), " ".join(m.group().split())
        for pattern in (r"\n\s+(?:pub )?(\w+): bool,", r"let mut (\w+) = (?:false|true);", r"\bRefused\(u8\)"):
            for m in re.finditer(pattern, text):
                yield path, line_of(text, m.start() + 1), " ".join(m.group().split())


def kind2():
    groups = collections.defaultdict(list)
    for path, raw in sources():
        for name, line, _, _, body in functions(bare(raw)):
            s = shape(body)
            if len(s) > 11:
                groups[s].append((path, line, name))
    for group in groups.values():
        if len(group) > 1:
            first = group[0]
            for path, line, name in group:
                yield path, line, f"fn {name}, as {first[0].split('/')[1]}::{first[2]}"


def kind3():
    for path, raw in sources():
        text = bare(raw)
        for m in re.finditer(r"\b(while (?!let)[^{]*|loop |for \w+ in [^{]*\.\.[^{]*|for \(\w+, \w+\) in [^{]*enumerate\(\))", text):
            yield path, line_of(text, m.start()), " ".join(m.group().split())


def kind4():
    plain = r"(?:i8|i16|i32|i64|u8|u16|u32|u64|usize|bool)"
    for path, raw in sources():
        text = bare(raw)
        for name, line, parameters, _, body in functions(text):
            m = re.search(r"fn " + name + r"(?:<[^(]*>)?\([^)]*\)\s*->\s*(?:Option<)?([^\n{]*?)>?\s*(?:\n|\{)", text)
            one = re.fullmatch(r"\s*(?:&?self|\w+: &?(?:" + plain + r"|[A-Z]\w*))\s*", parameters)
            if m and one and re.fullmatch(plain + r"|&'static (?:str|\[u8\])|[A-Z]\w+", m.group(1).strip()) and ("match" in body or " as " in body or "if" in body):
                yield path, line, f"fn {name}({' '.join(parameters.split())}) -> {m.group(1).strip()}"
        for m in re.finditer(r"from_utf8\([^;]*unwrap_or\(", text):
            yield path, line_of(text, m.start()), "text of bytes by hand"
        for m in re.finditer(r"(?:println|print|write)!\([^;]*refused \{", re.sub(r"//[^\n]*", "", raw)):
            yield path, line_of(raw, m.start()), "a refusal printed by hand"
        for m in re.finditer(r"impl(?:<[^>]*>)? (Clone|Copy|PartialEq|Eq|PartialOrd|Ord|Hash|Default|Debug) for", text):
            yield path, line_of(text, m.start()), m.group()


def kind5():
    functions_of = {}
    facts = collections.defaultdict(list)
    parts = collections.Counter()
    for path, raw in sources():
        for name, line, parameters, clauses, _ in functions(raw):
            split = re.split(r",(?![^<(]*[>)])", parameters)
            functions_of[(path, line, name)] = frozenset(" ".join(p.split()) for p in split if ":" in p)
            for word, fact in clauses:
                facts[(word, re.sub(r"\b\w+(?=\.(?:old|new|now|entry))", "_", fact))].append((path, line, name))
                parts.update({"the state that a memory stands for"} if re.search(r"\bseen \(?\w+\.(?:old|new|now)", fact) else ())
                parts.update({"what is lent stays"} if re.search(r"lenders \w+(?:\.\w+)* ≡ P\.Port\.lenders", fact) else ())
                parts.update({"a place within the source"} if word == "requires" and re.search(r"\w+ ≤ length \w+\.(?:now|old)", fact) else ())
    held = list(functions_of.values())
    shared = {x & y for x in held for y in held if len(x & y) > 1}
    for group in sorted(shared, key=lambda g: (-len(g), sorted(g))):
        users = [f for f, has in functions_of.items() if group <= has]
        if len(users) > 2 and not any(group < other and sum(other <= has for has in held) == len(users) for other in shared):
            yield users[0][0], users[0][1], f"({', '.join(sorted(group))}) in {len(users)} functions"
    for (word, fact), users in sorted(facts.items(), key=lambda e: -len(e[1])):
        if len(users) > 2:
            yield users[0][0], users[0][1], f"{word} {{ {fact} }} in {len(users)} functions"
    for what, n in sorted(parts.items()):
        if n > 2:
            yield "crates", 0, f"'{what}' in {n} clauses"


def kind6():
    for path, raw in sources():
        text = bare(raw)
        for m in re.finditer(r"\bstruct (\w+)(?:<[^{;(]*>)?\s*\{", text):
            a, b = block(text, m.end() - 1)
            fields = re.findall(r"(\w+): (\[[^\]]+\]|&(?:'\w+ )?(?:mut )?\[[^\]]+\]|usize|u16|u8|Vec<\w+>)", text[a:b])
            rows = [f for f in fields if "[" in f[1]]
            counts = [f for f in fields if f[1] in ("usize", "u16")]
            if rows and counts:
                yield path, line_of(text, m.start()), f"struct {m.group(1)}: {', '.join(f[0] for f in rows)} beside {', '.join(f[0] for f in counts)}"
            same = collections.Counter(f[1] for f in rows)
            for t, n in same.items():
                if n > 1:
                    yield path, line_of(text, m.start()), f"struct {m.group(1)}: {n} of {t}"
            indexes = [f[0] for f in fields if f[1] == "usize"]
            if not rows and len(indexes) > 1:
                yield path, line_of(text, m.start()), f"struct {m.group(1)}: indexes {', '.join(indexes)}"
        for name, line, parameters, _, _ in functions(text):
            if re.search(r": &(?:mut )?\[", parameters) and re.search(r"\b(at|from|place|index): usize", parameters):
                yield path, line, f"fn {name}: a slice with a place in it"


def kind7():
    for path, raw in sources():
        text = bare(raw)
        for m in re.finditer(r"\bmatch [^{]*", text):
            a, b = block(text, m.end())
            calls = re.findall(r"\n\s*[\w:]+(?:\([^)]*\))?(?: if [^=]*)? => (?:\w+(?:::|\.))*(\w+)\([^\n]*\),", text[a:b])
            if len(calls) > 3 and len(set(calls) - {"Ok", "Err", "Some", "write"}) > 3:
                yield path, line_of(text, m.start()), f"{' '.join(m.group().split())}: {len(calls)} arms with calls"
        for m in re.finditer(r"\[fn\(|Box<dyn|&dyn|fn\([^)]*\) ->", text):
            yield path, line_of(text, m.start()), m.group()


def kind8():
    groups = collections.defaultdict(list)
    for path in sorted(glob.glob("crates/*/proofs/**/Answers.antt", recursive=True)):
        text = open(path, encoding="utf-8").read()
        for m in re.finditer(r"\npub ([\w«».+-]+) : goal\.\S+\n((?:(?!\n\n|\npub ).)*)", text, re.S):
            body = " ".join(m.group(2).split())
            body = body.split("=", 1)[1].strip() if "=" in body else body
            if re.fullmatch(r"search (?:rules|\([^)]*\))", body):
                yield path, line_of(text, m.start() + 1), f"{m.group(1)}: {body}"
            else:
                groups[re.sub(r"-\d+\b|\b\d+\b", "", body)].append((path, line_of(text, m.start() + 1), m.group(1)))
    for body, where in sorted(groups.items(), key=lambda e: -len(e[1])):
        if len(where) > 2:
            for path, line, name in where:
                yield path, line, f"{name}, one of {len(where)} answers of one text"


def main():
    os.chdir(os.path.join(os.path.dirname(os.path.abspath(__file__)), ".."))
    wanted = [int(a) for a in sys.argv[1:]] or sorted(KINDS)
    for kind in wanted:
        places = list(globals()[f"kind{kind}"]())
        print(f"{kind}. {KINDS[kind]}: {len(places)}")
        for path, line, what in places:
            print(f"   {path}:{line}: {what}")


if __name__ == "__main__":
    main()
