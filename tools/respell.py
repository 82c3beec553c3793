#!/usr/bin/env python3
"""Brings the names that this repository's own specs/ and proofs/ declare to snake case: 'titles-of' to 'titles_of', 'headOf' to 'head_of', 'zero?' to 'is_zero'.

usage: respell.py [--check] [ROOT]

It was run once, right behind the kit's port.py, and stays here so that the respelling can be repeated on an older commit.
What turns: a name that a definition, a lemma, a field, a constructor or a binder of a .antt file declares, or an import's 'as', in the .antt files below crates/ (code and comments),
in the clauses and 'ghost use' lines of .rt files, and in the code spans of docs/.
What stays: functions of src/, strings, labels that Rattle makes (the first name behind goal. c. w. l. g. in a function's proof folder), names of the library.
--check writes nothing and lists names that would fall together.
"""
import collections
import os
import re
import sys

DECL = re.compile(r"^\s*(?:(?:abbrev|unfoldable|pub|data|record|mutual|ruleset)\s+)*([^\s(){}.;,@\"«»:=]+)\s*(?:\([^)]*\)\s*|\{[^}]*\}\s*)*:(?!=)\s")
BIND = re.compile(r"[({]([^(){}:=⊢→]+?)\s*:\s")
WORD = re.compile(r"[^\s(){}.;,@\"«»\[\]|]+")
SPECIAL = {"zero?": "is_zero", "short?": "is_short", "no-room?": "is_no_room", "exact?": "is_exact", "held?": "is_held", "once?": "is_once",
    # lemmas that would have the name of a definition
    "next_here": "next_here_lem", "run-next": "run_next_lem", "text-next": "text_next_lem", "head-word": "head_word_lem"}
KEBAB = re.compile(r"^[a-z0-9]+[a-z0-9_]*'*(?:-[a-z0-9_]+'*)+[₀-₉]*$")
CAMEL = re.compile(r"^[a-z]+[a-z0-9]*(?:[A-Z][a-z0-9]*)+$")
HEADS = ("goal.", "c.", "w.", "l.", "g.")
CLAUSE = re.compile(r"(?:requires|ensures)\b[^{;]*\{|ghost\s+(?:invariant\s*|\w+\s*(?::|=)\s*(?:(?:owns|lends)\s*)?)?\{|ghost\s+use\b")


def new_name(n):
    if n in SPECIAL:
        return SPECIAL[n]
    if n.startswith("getD-"):
        return "get_or-" + n[5:].replace("-", "_")
    if KEBAB.match(n):
        return n.replace("-", "_")
    if CAMEL.match(n):
        return re.sub(r"([A-Z])", lambda m: "_" + m.group(1).lower(), n)
    return None


def files(root, ends):
    for d, ds, fs in os.walk(os.path.join(root, "crates")):
        ds[:] = sorted(x for x in ds if x != "out")
        for f in sorted(fs):
            if f.endswith(ends):
                yield os.path.join(d, f)


def is_answer(p):
    return os.path.basename(p) in ("Answers.antt", "Invariants.antt", "Choices.antt", "Proof.antt")


def table(root):
    names = set()
    for p in files(root, ".antt"):
        for line in open(p, encoding="utf-8"):
            if line.lstrip().startswith("--") or re.search(r":\s*goal\.", line):
                continue
            m = DECL.match(line)
            if m:
                names.add(m.group(1))
            for m in BIND.finditer(line):
                names.update(m.group(1).split())
    for p in files(root, (".antt", ".rt")):
        for m in re.finditer(r"\bas ([a-z][\w-]*)(?=[,}])", open(p, encoding="utf-8").read()):
            names.add(m.group(1))
    return {n: new_name(n) for n in names if new_name(n)}


def turn_code(text, rows, labels):
    """Each whole word of text that rows has; behind a head of labels the first name stays."""
    out, at = [], 0
    for m in WORD.finditer(text):
        w = m.group()
        if w in rows:
            before = text[: m.start()]
            if labels and any(before.endswith(h) and not re.search(r"[\w'-]$", before[: -len(h)]) for h in HEADS):
                continue
            out.append(text[at : m.start()] + rows[w])
            at = m.end()
    out.append(text[at:])
    return "".join(out)


def turn_antt(text, rows, labels):
    lines = text.split("\n")
    for i, line in enumerate(lines):
        if labels and re.match(r"^\s*(?:abbrev )?pub \S+ : goal\.", line):
            continue
        lines[i] = turn_code(line, rows, labels)
    return "\n".join(lines)


def turn_rt(text, rows):
    """The clauses and the 'ghost use' items alone."""
    out, at = [], 0
    while True:
        m = CLAUSE.search(text, at)
        if not m:
            break
        if m.group().rstrip().endswith("use"):
            end = text.index(";", m.end())
        else:
            depth, end = 1, m.end()
            while depth:
                depth += {"{": 1, "}": -1}.get(text[end], 0)
                end += 1
        out.append(text[at : m.start()] + turn_code(text[m.start() : end], rows, False))
        at = end
    out.append(text[at:])
    return "".join(out)


def turn_md(text, rows):
    return re.sub(r"`([^`\n]+)`", lambda m: "`" + turn_code(m.group(1), rows, False) + "`", text)


def main(argv):
    check = "--check" in argv
    argv = [a for a in argv if a != "--check"]
    root = argv[0] if argv else "."
    rows = table(root)
    words = collections.defaultdict(set)
    for p in files(root, ".antt"):
        for w in WORD.findall(open(p, encoding="utf-8").read()):
            words[w].add(os.path.relpath(p, root))
    back = collections.defaultdict(list)
    for a, b in rows.items():
        back[b].append(a)
        both = words[a] & words.get(b, set())
        if both:
            print(f"meets: {a} -> {b}: {sorted(both)[:4]}")
        elif b in words:
            print(f"also: {a} -> {b}, in other files: {sorted(words[b])[:3]}")
    for b, xs in back.items():
        if len(xs) > 1:
            print(f"two: {xs} -> {b}")
    if check:
        print(len(rows), "names")
        return
    for p in list(files(root, ".antt")) + list(files(root, ".rt")):
        text = open(p, encoding="utf-8").read()
        new = turn_antt(text, rows, is_answer(p)) if p.endswith(".antt") else turn_rt(text, rows)
        if new != text:
            open(p, "w", encoding="utf-8").write(new)
    docs = os.path.join(root, "docs")
    for f in [os.path.join(docs, x) for x in sorted(os.listdir(docs)) if x.endswith(".md")] + [os.path.join(root, "README.md")]:
        text = open(f, encoding="utf-8").read()
        new = turn_md(text, rows)
        if new != text:
            open(f, "w", encoding="utf-8").write(new)


main(sys.argv[1:])
