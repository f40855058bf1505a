#!/usr/bin/env python3
"""Spells the repository's own definitions and lemmas as today's Rattle does: words in snake case, types and modules in camel case.

usage: tools/respell.py        at the top of the repository, once, right after the kit's port.py

It goes over specs/, proofs/, the clauses of src/ and the must-fail edits of each crate. A name is turned where a file of specs/ or a file of
lemmas in proofs/ declares it; a dash within it becomes an underscore, but in a name that begins with a capital, where a dash joins a fact to
a word. A name stays, and is listed, where its new spelling stands for something else already in a file that has it. Names of Rust items,
strings and what functions' proofs call their goals are left alone.
"""

import collections
import glob
import re
import sys

WORD = re.compile(r'[^\s(){}.;,@"«»]+')
# A declaration: its indent, the words before the name, the name, its parameters, and the colon of its type.
DECLARED = re.compile(r"(?m)^ *(?:(?:abbrev|unfoldable|pub|mutual) )*(?:(?:record|data|ruleset) )?([^\s(){}.;,@\"«»:]+)(?: [({][^\n]*?[)}])* :(?=\s)")
CONSTRUCTORS = re.compile(r"(?m)^ *(?:pub )?data [^\n]*\n((?:(?:  [^\n]*)?\n)*)")
RECORDED = re.compile(r"(?m)^ *(?:pub )?([^\s(){}.;,@\"«»:]+) :(?=\s)")
# A fact that was spelled as a word, and constructors that were spelled as types. (Those of `Scan` and `Edit` stay: `line`, `kind`, `add` are others' names.)
FACTS = {"noMore": "NoMore", "InText": "in_text", "InList": "in_list"}
# A lemma or a field that has the new spelling of a definition already gets `_lem`, in the files that end so.
HAD = {
    "digits_value": ["theorems/proofs/Printed.antt"],
    "is_digit": ["theorems/proofs/Printed.antt"],
    "in_all": ["rendering/specs/Parts.antt", "rendering/proofs/Short.antt", "rendering/proofs/Answered.antt", "printing/proofs/Lengths.antt"],
    "loaded_lines": ["text/proofs/Lines.antt", "theorems/proofs/Base.antt", "theorems/proofs/Revising.antt", "meaning/proofs/Loaded.antt", "arpa/proofs/Longer.antt"],
    "next_place": ["extending/proofs/Placed.antt", "extending/proofs/Turns.antt"],
}
LEM = "_lem"
# Words of the language and of the kit's libraries, which a declaration's pattern may meet.
NEVER = set("-- use pub module record data where let in elim open".split())


def respelled(name):
    if name in FACTS:
        return FACTS[name]
    words = re.sub(r"(?<=[a-z0-9])[A-Z]", lambda m: "_" + m[0].lower(), name)
    if name[0].isupper():
        # A fact keeps its capitals, and the dash that joins a word to it.
        head, dash, rest = name.partition("-")
        if not dash:
            return name
        return head + dash + re.sub(r"(?<=[a-z0-9])[A-Z]", lambda m: "_" + m[0].lower(), rest).replace("-", "_")
    return words.replace("-", "_")


def text_of(path):
    with open(path, encoding="utf-8") as f:
        return f.read()


def is_walk(path):
    return path.endswith(("/Proof.antt", "/Answers.antt", "/Invariants.antt"))


def main():
    antt = sorted(p for p in glob.glob("crates/*/specs/**/*.antt", recursive=True) + glob.glob("crates/*/proofs/**/*.antt", recursive=True))
    texts = {p: text_of(p) for p in antt}
    for p in antt:
        for n in HAD:
            if any(p.endswith(end) for end in HAD[n]):
                texts[p] = WORD.sub(lambda m: n + LEM if m[0] == n else m[0], texts[p])
    # The words of a file, without the steps of a path.
    words = {p: set(WORD.findall(re.sub(r"(?<!\S)Rattle(?:\.[\w'+-]+)+", "", t))) for p, t in texts.items()}

    # The names that are ours, and those of the kit's libraries that a file imports.
    ours = set()
    for p, t in texts.items():
        if p.endswith("/Proof.antt"):
            continue
        names = set(DECLARED.findall(t)) | {n for body in CONSTRUCTORS.findall(t) for n in RECORDED.findall(body)}
        ours |= {n for n in names if n not in NEVER and not n.startswith("--")}
    theirs = collections.defaultdict(set)
    crates = {p.split("/")[1] for p in antt}
    for p, t in texts.items():
        for path, items in re.findall(r"(?m)^ *(?:pub )?use ([^\s;{]+)\.\{([^}]*)\}", t):
            steps = path.split(".")
            if steps[0] == "Rattle" and steps[1] in crates and "declared" not in steps and not steps[-1] == "Goals":
                continue
            for n in items.split(","):
                theirs[p].add(n.split(" as ")[0].strip())

    table, stays = {}, []
    for n in sorted(ours):
        if respelled(n) != n:
            table[n] = respelled(n)
    # A lemma that would have the name of a definition beside it gets `_lem`.
    met = lambda n, new: [p for p in antt if n in words[p] and new in words[p] and not is_walk(p)]
    for n, new in sorted(table.items()):
        twins = [o for o in table if o != n and table[o] == new and any(n in words[p] and o in words[p] for p in antt)]
        if "-" in n and (twins or met(n, new)):
            table[n] = new + LEM
            print(f"a lemma beside its function: {n} is {new}{LEM}")
    for n, new in sorted(table.items()):
        if met(n, new):
            stays.append((n, new, met(n, new)[:2]))
            del table[n]
    for n in sorted(table):
        for o in sorted(table):
            if n < o and table[n] == table[o] and any(n in words[p] and o in words[p] for p in antt):
                print(f"fall together: {n} and {o} are both {table[n]}", file=sys.stderr)

    def turn(text, spared=frozenset()):
        return WORD.sub(lambda m: table[m[0]] if m[0] in table and m[0] not in spared else m[0], text)

    turned = 0
    for p in antt:
        spared = theirs[p] & set(table)
        if is_walk(p):
            # What the proof of a function declares is named after the code.
            spared |= set(re.findall(r"(?m)^(?:abbrev )?(?:pub )?([^\s(){}.;,@\"«»:]+) : (?:tie|goal)\.", texts[p]))
        new = turn(texts[p], spared)
        if new != text_of(p):
            turned += 1
            with open(p, "w", encoding="utf-8") as f:
                f.write(new)
    for p in sorted(glob.glob("crates/*/src/**/*.rt", recursive=True)):
        t = text_of(p)
        lines, inside = t.split("\n"), False
        for i, line in enumerate(lines):
            if re.match(r"\s*ghost use ", line) or re.match(r"\s*(requires|ensures|ghost)\b", line) or inside:
                lines[i] = turn(line)
                inside = lines[i].count("{") > lines[i].count("}") if not inside else lines[i].count("}") <= lines[i].count("{")
        new = "\n".join(lines)
        if new != t:
            turned += 1
            with open(p, "w", encoding="utf-8") as f:
                f.write(new)

    # The edits' texts: our names, a field without the blank before its dot, and the names of integers' operations.
    snake = {respelled(n) for n in ours} | ours
    left = 0
    for p in sorted(glob.glob("crates/*/must-fail/*.edit")):
        crate, path, out = p.split("/")[1], None, []
        for line in text_of(p).split("\n"):
            if line.startswith("file:"):
                path = f"crates/{crate}/" + line[5:].strip()
            if line.startswith(("old:", "new:")) and path.endswith(".antt"):
                line = re.sub(r"(?<=[\w)\]]) \.(?=[a-z])", ".", line)
                line = re.sub(r"(?<= )\((\w+\.\w+)\)", r"\1", line)
                line = re.sub(r"\bgetD\b", "get_or", re.sub(r"\bnegℤ", "neg_ℤ", line))
                line = WORD.sub(lambda m: table.get(m[0]) or (respelled(m[0]) if m[0] not in snake and respelled(m[0]) in snake else m[0]), line)
            if line.startswith("old:") and text_of(path).count(line[4:].strip()) == 0:
                left += 1
                print(f"left: {p}: {line}")
            out.append(line)
        new = "\n".join(out)
        if new != text_of(p):
            turned += 1
            with open(p, "w", encoding="utf-8") as f:
                f.write(new)

    for n, new, where in stays:
        print(f"stays: {n} (not {new}): {' '.join(where)}")
    print(f"respell: {len(table)} names, {turned} files; {len(stays)} names stay; {left} edits left")


main()
