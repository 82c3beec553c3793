#!/usr/bin/env python3
"""Counts the places in src/ that the page docs/DESIGN-PASS.md speaks of.

  python3 tools/places.py [-v] [FOLDER]

FOLDER has crates/; without it the repository that the script lies in. -v lists each place. A place that is counted is one to
look at, and not always one to change.
"""
import collections
import pathlib
import re
import sys

ARGS = [a for a in sys.argv[1:] if a != "-v"]
ROOT = pathlib.Path(ARGS[0] if ARGS else pathlib.Path(__file__).resolve().parent.parent)
FULL = "-v" in sys.argv
FILES = sorted(p for p in ROOT.glob("crates/*/src/*.rt"))
KEYWORDS = set("fn let mut if else match for in while loop return self Self Some None Ok Err true false as pub impl const".split())


def code(path):
    """The lines of a file without comments and tests."""
    text = path.read_text()
    at = text.find("#[cfg(test)]")
    text = text if at < 0 else text[:at]
    return [re.sub(r"//.*", "", line) for line in text.split("\n")]


def functions(path):
    """Each function: its line, name, parameters, clauses and body."""
    lines = code(path)
    i = 0
    while i < len(lines):
        found = re.match(r"(\s*)(?:pub(?:\(crate\))? )?(?:extern \"C\" )?fn (\w+)", lines[i])
        if not found:
            i += 1
            continue
        indent, j = found.group(1), i
        while j < len(lines) and not re.match(indent + r"(\{\}?\s*$|\}\s*$)", lines[j]) and not (
            lines[j].rstrip().endswith("{") and j == i) and not lines[j].rstrip().endswith(";"):
            j += 1
        k = j
        while k < len(lines) and not re.match(indent + r"(\}|\{\})\s*$", lines[k]) and not (k == j and lines[k].rstrip().endswith(";")):
            k += 1
        head = "\n".join(lines[i:j + 1])
        yield i + 1, found.group(2), head, "\n".join(lines[j + 1:k])
        i = max(k, i) + 1


def lines_with(*patterns):
    for path in FILES:
        for number, line in enumerate(code(path), 1):
            if "ensures" in line or "requires" in line or "ghost" in line:
                continue
            if any(re.search(p, line) for p in patterns):
                yield f"{path.relative_to(ROOT)}:{number}: {line.strip()}"


def enums_like_option():
    for path in FILES:
        text = "\n".join(code(path))
        for name, body in re.findall(r"enum (\w+)[^{]*\{(.*?)\n\}", text, re.S):
            variants = [v.strip() for v in re.split(r",\n", body) if v.strip()]
            bare = [v for v in variants if re.fullmatch(r"\w+", v)]
            if len(variants) == 2 and len(bare) == 1:
                yield f"{path.relative_to(ROOT)}: enum {name}"


def zeros_for_theorems():
    for path in FILES:
        for number, name, head, body in functions(path):
            if re.search(r"-> u8\b", head) and body.strip() == "0":
                yield f"{path.relative_to(ROOT)}:{number}: fn {name}"


def skeleton(head, body):
    signature = head.split("ensures")[0].split("requires")[0]
    words = re.findall(r'"[^"]*"|b\'.\'|\w+|[^\s\w]', signature[signature.find("("):] + body)
    return " ".join(w if w in KEYWORDS or not re.match(r"\w|\"", w) else "w" for w in words)


def twins():
    groups = collections.defaultdict(list)
    for path in FILES:
        for number, name, head, body in functions(path):
            if len([w for w in re.findall(r"\w+", body)]) >= 3:
                groups[skeleton(head, body)].append(f"{path.relative_to(ROOT)}:{number}: fn {name}")
    for names in groups.values():
        if len(names) > 1:
            yield "; ".join(names)


def walks():
    """Loops whose head and first statements are spelled alike."""
    groups = collections.defaultdict(list)
    for path in FILES:
        lines = code(path)
        for number, line in enumerate(lines, 1):
            if re.match(r"\s*(while|loop)\b", line):
                groups[" ".join(l.strip() for l in lines[number - 1:number + 2])].append(f"{path.relative_to(ROOT)}:{number}")
    for key, names in groups.items():
        if len(names) > 1:
            yield f"{key}: " + "; ".join(names)


def parameters_together():
    pairs = collections.Counter()
    for path in FILES:
        crate = path.parts[-3]
        for _, name, head, _ in functions(path):
            signature = head[:head.find(")\n")] if ")\n" in head else head
            names = sorted(set(re.findall(r"(\w+: &?(?:mut )?(?:\[?\w+\]?|u32|usize))(?=[,)\n])", signature)))
            for i, a in enumerate(names):
                for b in names[i + 1:]:
                    pairs[crate, a, b] += 1
    for (crate, a, b), count in sorted(pairs.items()):
        if count >= 4:
            yield f"{crate}: ({a}, {b}) in {count} functions"


def facts_repeated():
    facts = collections.defaultdict(set)
    for path in FILES:
        crate = path.parts[-3]
        for _, name, head, _ in functions(path):
            for clause in re.split(r"\n\s*(?:ensures|requires)\b", head)[1:]:
                for fact in re.split(r"→|×|[{}]", " ".join(clause.split())):
                    fact = re.sub(r"\.(old|new|now|entry)\b", "", fact).strip(" ()")
                    if re.search(r"[≤<≡]|^[A-Z]\w+ ", fact) and "result" not in fact and len(fact) > 6:
                        facts[crate, fact].add(name)
    for (crate, fact), names in sorted(facts.items()):
        if len(names) >= 3:
            yield f"{crate}: {fact}  in {len(names)} functions"


def proofs():
    total = 0
    for crate in sorted(ROOT.glob("crates/*")):
        files = list(crate.glob("proofs/**/*.antt"))
        lines = sum(len(f.read_text().split("\n")) - 1 for f in files)
        answers = sum(len(re.findall(r"^pub [^\n]*: goal\.", f.read_text(), re.M)) for f in files)
        if lines:
            yield f"{crate.name}: {lines} lines, {answers} answers and invariants"


POINTS = [
    ("1a own enums of the shape of Option", lambda: enums_like_option()),
    ("1b a flag in a struct or a case", lambda: lines_with(r"^\s*(pub(\(crate\))? )?\w+: bool,$", r"\{ \w+: bool")),
    ("1c numbers for kinds, flags and rules", lambda: lines_with(r"Unlawful\([0-9A-Z_]+, ", r"Unlawful\(u32", r"(kind|flags) (==|>=|<=) [0-9]", r"RULE_\w+: u32", r"plain\(\w+, \d, \d\)")),
    ("1d a number that means nothing, or stands for none", lambda: list(zeros_for_theorems()) + list(lines_with(r"return 0;", r"\{ 1 \} else \{ 0 \}"))),
    ("2a functions alike but for names, types and constants", lambda: twins()),
    ("2b loops that begin alike", lambda: walks()),
    ("3a while and loop", lambda: lines_with(r"^\s*(while|loop)\b")),
    ("3b for over a range", lambda: lines_with(r"^\s*for \w+ in .*\.\.")),
    ("3c for with an early return, or that adds up", lambda: (f"{p.relative_to(ROOT)}:{n}: fn {name}" for p in FILES for n, name, h, b in functions(p)
        if re.search(r"for [^\n]* in [^\n.]*(\.iter\(\))?(\.enumerate\(\))? \{", b) and re.search(r"return (true|false|i);|\+= 1;|\w+ = \(?\d|\w = mixed", b))),
    ("4a as", lambda: lines_with(r" as (u8|u32|i32|i64|u64)\b")),
    ("4b ranges, lengths and equality spelled out", lambda: lines_with(r">=? .* && .* <=? ", r"<=? \w+ \|\| .* >=? ", r"< \w+ \|\| .* > ", r"== 0 \|\| .* > ", r"len\(\) (==|>) 0", r"\.value == 0 &&", r"\bis\(word, ")),
    ("4c a struct copied field by field", lambda: lines_with(r"^\s*(value|flags|kind): d\.(value|flags|kind),$")),
    ("4d a match that only converts", lambda: lines_with(r"Ok\((\w+)\) => Ok\(\1\)", r"Ok\((\w+)\) => \1,", r"^\s*None => (None|Err)", r"Some\((\w+)\) => \*?\1,", r"else \{ None \}")),
    ("5a parameters that stand together in four functions or more", lambda: parameters_together()),
    ("5b facts in the contracts of three functions or more", lambda: facts_repeated()),
    ("6 a buffer with a length or an end beside it, a Vec behind a reference", lambda: lines_with(r"tail: usize", r"&(mut )?Vec<", r"\w+\(u32, Vec<")),
    ("7 a switch on which test to run", lambda: lines_with(r"match class", r"class: Class", r"Class::\w+\)")),
    ("8 proofs", lambda: proofs()),
]

for title, find in POINTS:
    places = list(find())
    print(f"{title}: {len(places)}")
    if FULL:
        for place in places:
            print("    " + place)
