#!/usr/bin/env python3
"""Spells the repository's own definitions and lemmas as Rattle's library spells its own, once, after the kit's port.py.

usage: tools/respell.py        at the top of the repository

A definition in lower camel case, a constructor and a lemma with dashes get snake case, and a definition whose value is a type gets upper camel
case. A name that would meet another of the same file gets '_lem' behind it. The generated names of goals stay: they are those of
the declarations of proofs/F/ that name a goal. The names that changed go to standard output, old and new.
"""
import collections
import glob
import re
import sys

# What delimits a name in antt.
NAME = r"[^\s(){}.;,@\"«»]+"
DECLARED = re.compile(rf"^(?: +(?=pub |[^\s]*-))?(?:(?:abbrev|unfoldable|pub)\s+)*({NAME}) :(?!:)\s*(.*)$")
GOAL = re.compile(r"^(tie|goal)\.|^\(?\w+ : tie\.")


def snake(name):
    words = re.sub(r"(?<=[a-z0-9])[A-Z]", lambda m: "_" + m[0].lower(), name)
    words = re.sub(r"(?<=_[a-z])[A-Z]", lambda m: "_" + m[0].lower(), words)
    return words.replace("-", "_")


def declared(text):
    for line in text.splitlines():
        m = DECLARED.match(line)
        if m and not GOAL.match(m[2]) and not m[1].startswith("--"):
            yield m[1], m[2]


def wanted(name, kind):
    if re.search(r"(→|^) ?Type [01]$", kind) and name[0].islower():
        return name[0].upper() + name[1:]
    if not name[0].islower() and name[0] != "+":
        return name
    return snake(name)


def tokens(text, source):
    """The names that could be hidden: of a source its parameters, fields and locals, of another file all that are no part of a path."""
    if source:
        return set(re.findall(r"\b(\w+)\s*:(?!:)", text)) | set(re.findall(r"\blet (?:mut )?(\w+)", text)) | set(re.findall(r"(?<![.\w-])[a-z]\w*[A-Z]\w*", text))
    return set(re.findall(rf"(?<![.\w]){NAME}(?![.\w])", text))


def turn(text, table):
    def one(m):
        return table.get(m[0], m[0])

    # A name behind a dot is a field, but for the last part of a module's path.
    return re.sub(rf"(?<![.\w-]){NAME}", one, text) if table else text


def turn_rest(files):
    """What is still in lower camel case in a file of antt: constructors, and private names of a part of a file."""
    rest = set()
    for f in files:
        if f.endswith(".antt"):
            with open(f, encoding="utf-8") as it:
                for line in it:
                    if not line.lstrip().startswith("--"):
                        rest |= set(re.findall(r"(?<![\w.'-])[a-z][a-z0-9]*[A-Z]\w*", line))
    table = {name: snake(name) for name in rest}
    for f in files:
        with open(f, encoding="utf-8") as it:
            text = it.read()
        has = set(re.findall(NAME, text))
        # A lemma of the file that would then share a name gets '_lem'.
        taken = {table[name] for name in has & set(table) if table[name] in has}
        out = turn(turn(text, {name: name + "_lem" for name in taken}), table)
        if out != text:
            with open(f, "w", encoding="utf-8") as it:
                it.write(out)
            yield f


def main():
    every = sorted(
        glob.glob("crates/*/specs/**/*.antt", recursive=True)
        + glob.glob("crates/*/proofs/**/*.antt", recursive=True)
    )
    sources = sorted(glob.glob("crates/*/src/**/*.rt", recursive=True))
    edits = sorted(glob.glob("crates/*/must-fail/*.edit"))
    texts = {f: open(f, encoding="utf-8").read() for f in every + sources + edits}
    shared, local = {}, collections.defaultdict(dict)
    for f in every:
        inside = re.search(r"/proofs/.*(Proof|Answers|Invariants)\.antt$", f)
        for name, kind in declared(texts[f]):
            new = wanted(name, kind)
            if new == name or name.endswith("-spec") and inside:
                continue
            (local[f] if inside else shared)[name] = new
    # Where a lemma would have a definition's name, it gets '_lem'.
    taken = {new for name, new in shared.items() if "-" not in name}
    for f in every:
        taken |= {name for name, _ in declared(texts[f]) if name not in shared}
    for table in [shared, *local.values()]:
        for name in sorted(table):
            if "-" in name and table[name] in taken:
                print(f"# {name}: {table[name]} is there already")
                table[name] += "_lem"
    for table, files in [(shared, every + sources)] + [(local[f], [f]) for f in local]:
        for name in sorted(table):
            for f in files:
                has = tokens(texts[f], f.endswith(".rt"))
                if name in has and table[name] in has:
                    print(f"# {name}: {table[name]} stands in {f} already")
    for new, n in collections.Counter(shared.values()).items():
        if n > 1:
            print(f"# fall together: {[k for k in shared if shared[k] == new]} {new}")
    for f in texts:
        table = shared | local.get(f, {})
        # In a function's own file a name that names a goal stays.
        for line in texts[f].splitlines():
            m = DECLARED.match(line)
            if m and GOAL.match(m[2]):
                table.pop(m[1], None)
        out = turn(texts[f], table)
        if out != texts[f]:
            open(f, "w", encoding="utf-8").write(out)
    for f in turn_rest(list(texts)):
        print(f"# {f}: constructors and private names")
    for name in sorted(shared):
        print(f"{name}\t{shared[name]}")
    for f in sorted(local):
        for name in sorted(local[f]):
            print(f"{name}\t{local[f][name]}\t{f}")


if __name__ == "__main__":
    sys.exit(main())
