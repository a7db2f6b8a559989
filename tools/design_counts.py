#!/usr/bin/env python3
"""Counts in crates/*/src the places that docs/DESIGN-PASS.md speaks of, by the text of the source.

tools/design_counts.py         a line for each rule: its point, its name, how many places
tools/design_counts.py --list  each place too
"""
import collections
import glob
import os
import re
import sys

os.chdir(os.path.join(os.path.dirname(os.path.abspath(__file__)), ".."))
SOURCES = sorted(glob.glob("crates/*/src/**/*.rt", recursive=True))
TEXTS = {path: open(path, encoding="utf-8").read() for path in SOURCES}


def line_of(text, at):
    return text.count("\n", 0, at) + 1


def matches(pattern, flags=re.M):
    return [
        (path, line_of(text, m.start()), " ".join(m.group(0).split()))
        for path, text in TEXTS.items()
        for m in re.finditer(pattern, text, flags)
    ]


def enums():
    """An enum of two cases of which one or both hold something, but for errors."""
    found = []
    for path, text in TEXTS.items():
        for m in re.finditer(r"^(?:pub(?:\(crate\))? )?enum (\w+) \{\n(.*?)^\}", text, re.M | re.S):
            body = re.sub(r"//.*", "", m.group(2))
            cases = re.findall(r"^    \w+ ?([({]?)", body, re.M)
            if len(cases) == 2 and any(cases):
                found.append((path, line_of(text, m.start()), "enum " + m.group(1)))
    return found


def functions():
    """(path, line, name, parameters, clauses) of each function."""
    for path, text in TEXTS.items():
        for m in re.finditer(r"^ *(?:pub(?:\(crate\))? )?(?:extern \"C\" )?fn (\w+)[^(]*\(", text, re.M):
            depth, i = 1, m.end()
            while depth:
                depth += {"(": 1, ")": -1}.get(text[i], 0)
                i += 1
            inner, parts, level, start = text[m.end() : i - 1], [], 0, 0
            for j, c in enumerate(inner):
                level += {"(": 1, "[": 1, "<": 1, ")": -1, "]": -1, ">": -1}.get(c, 0)
                if c == "," and level == 0:
                    parts.append(inner[start:j].strip())
                    start = j + 1
            parts.append(inner[start:].strip())
            first = text[i : text.index("\n", i)]
            body = re.search(r"\n *\{", text[i:])
            head = "" if body is None or re.search(r"[{};]$", first) else text[i : i + body.start()]
            clauses = re.findall(r"(?:requires|ensures)\*?(?: \w+)? \{ (.*?) \}\n", head + "\n", re.S)
            yield path, line_of(text, m.start()), m.group(1), [p for p in parts if p], clauses


def many_parameters():
    return [(p, l, f"{name}: {len(ps)} parameters") for p, l, name, ps, _ in functions() if len(ps) >= 6]


def repeated_clauses():
    where = collections.defaultdict(list)
    for path, line, name, _, clauses in functions():
        for clause in set(" ".join(c.split()) for c in clauses):
            if "result" not in clause:
                where[re.sub(r"\.(old|now|new)\b", "", clause)].append((path, line, name))
    return [(p, l, f"{n}: {c}") for c, places in where.items() if len(places) >= 3 for p, l, n in places]


CASTS = r"^ *(?:pub(?:\(crate\))? )?fn \w+\(\w+: \w+\) -> \w+\n?(?: *ensures[^\n]*\n)* *\{\n *(?:\w+ as \w+|\(\w+ % \w+\) as \w+|if \w+ \{ \w+ \} else \{ \w+ \})\n *\}"
RULES = [
    ("1", "an enum of the shape of Option or Result", enums),
    ("1", "a code, or whether it fits, as a field beside values", lambda: matches(r"^ +(?:pub(?:\(crate\))? )?(?:code|fits): \w+,$")),
    ("1", "a constant number for a kind", lambda: [x for x in matches(r"^(?:pub(?:\(crate\))? )?const (?!MOST_|HEAD|ROOM)\w+: (?:u64|usize) = \d+;") if re.search(r"kinds|playing|workload", x[0])]),
    ("1", "a parameter or field that is a kind, a mode or a call as a number", lambda: matches(r"\b(?:kind|mode|call): (?:u64|usize)")),
    ("1", "0 where there is none, in words", lambda: matches(r"^ *//.*\b(?:or 0 where|which is 0 where|or 0 for)\b.*$")),
    ("3", "while or loop", lambda: matches(r"^ *(?:'\w+: )?(?:while\b.*|loop) \{$")),
    ("4", "a function that only casts or says which of two numbers", lambda: matches(CASTS)),
    ("4", "fn number or fn word: an enum as a number", lambda: matches(r"^ *pub fn (?:number|word)\(self\)")),
    ("4", "a code compared through its number", lambda: matches(r"\.number\(\) [!=]= 0")),
    ("4", "a condition written out as true and false", lambda: matches(r"\{ (?:true|false) \} else|else \{ (?:true|false) \}|\{\n +(?:true|false)\n +\} else|else \{\n +(?:true|false)\n")),
    ("5", "a function of six parameters or more", many_parameters),
    ("5", "a clause that stands in three functions or more", repeated_clauses),
    ("6", "a buffer with a length or a place beside it", lambda: matches(r"\b(?:filled|key_length|filled_to): usize|\b(?:bytes|tags|data|history|list)(?:_end)?: usize")),
    ("6", "a local that only copies a field", lambda: matches(r"^ *let (\w+) = (?:\w+\.)+\w+;$")),
    ("7", "a match or a comparison on a kind as a number", lambda: matches(r"match (?:kind|mode|opcode|number|expected|call)\b.*\{|if (?:kind|mode|call|number) [<=]=? ?\w+")),
]

for point, name, rule in RULES:
    places = rule()
    print(f"{point}  {len(places):4}  {name}")
    if "--list" in sys.argv[1:]:
        for path, line, what in places:
            print(f"           {path}:{line}: {what}")
