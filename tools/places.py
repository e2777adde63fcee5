#!/usr/bin/env python3
"""Counts, point by point, the places in crates/*/src that docs/DESIGN-PASS.md speaks of.

tools/places.py          counts
tools/places.py --list   the places themselves

A place is found by its shape alone; whether it is to be changed is for the page to say.
"""
import collections
import glob
import re
import sys

LIST = "--list" in sys.argv


def bare(text):
    """Without comments and clauses, which hold no code."""
    text = re.sub(r"//[^\n]*", "", text)
    return re.sub(r"^[ \t]*(requires|ensures|ghost)\b[^\n]*\{.*\}[^\n]*$", "", text, flags=re.M)


def closed(text, at):
    """The place behind the brace that closes the one at the place."""
    depth = 0
    for i in range(at, len(text)):
        depth += {"{": 1, "}": -1}.get(text[i], 0)
        if depth == 0:
            return i + 1
    return len(text)


def enums(text):
    for m in re.finditer(r"\benum (\w+)[^{]*\{", text):
        body = text[m.end(): closed(text, m.end() - 1) - 1]
        variants = re.findall(r"(\w+)\s*(\([^)]*\)|\{[^}]*\})?\s*(?:= \d+)?\s*(?:,|$)", body)
        yield m.group(1), [(v, bool(d)) for v, d in variants]


def functions(text):
    for m in re.finditer(r"\bfn (\w+)(?:<[^>]*>)?\s*\(", text):
        i, depth = m.end() - 1, 0
        while True:
            depth += {"(": 1, ")": -1}.get(text[i], 0)
            i += 1
            if depth == 0:
                break
        start = text.find("{", i)
        if start < 0:
            continue
        names = re.findall(r"(\w+)\s*:\s*((?:[^,()<>]|<[^>]*>|\([^)]*\))+)", text[m.end(): i - 1])
        yield m.group(1), names, text[i:start].strip(), text[start: closed(text, start)], text.count("\n", 0, m.start()) + 1


def shape(params, answer, body):
    """The code with its names, types and numbers put out of sight."""
    tokens = re.findall(r"\w+|::|[^\w\s]", body)
    words = {"if", "else", "match", "let", "mut", "return", "while", "loop", "for", "in", "break", "continue"}
    return (len(params), bool(answer), " ".join(t if t in words or not re.match(r"\w", t) else "x" for t in tokens))


def show(title, places):
    print(f"{len(places):4d}  {title}")
    if LIST:
        for p in places:
            print(f"        {p}")


files = {p: open(p, encoding="utf-8").read() for p in sorted(glob.glob("crates/*/src/**/*.rt", recursive=True))}
code = {p: bare(t) for p, t in files.items()}

print("1. Option, Result, numbers for kinds and refusals")
like = []
for p, t in code.items():
    for name, variants in enums(t):
        empty = [v for v, d in variants if not d]
        if len(variants) == 2 and len(empty) <= 1:
            like.append(f"{p}: {name}")
        elif len(variants) > 2 and any(v in ("Nothing", "Refused", "Beyond", "Bad", "Other") for v, _ in variants):
            like.append(f"{p}: {name} (three or more)")
show("own enums of the shape of Option or Result, or with a variant for nothing or a refusal", like)
numbers = [f"{p}:{i}: {line.strip()}" for p, t in code.items() for i, line in enumerate(t.split("\n"), 1)
           if re.search(r"\b(number|kind|detail): \d+|\brefused\(\d+|\b(Low|UpTo|Bounded|open|plain)\(\d+|\bnumber != 0|\b(number|role) == \d", line)]
show("lines with a bare number for a kind, a detail or a refusal", numbers)

print("2. Twins")
twins = collections.defaultdict(list)
for p, t in code.items():
    for name, params, answer, body, line in functions(t):
        if len(body.split()) >= 8:
            twins[shape(params, answer, body)].append(f"{p}:{line}: {name}")
groups = [g for g in twins.values() if len(g) > 1]
show("functions of one shape with another", [f for g in groups for f in g + [""] if f])
print(f"{len(groups):4d}  groups of them")

print("3. Loops")
loops, by_hand = [], []
for p, t in code.items():
    for m in re.finditer(r"^\s*(?:'\w+: )?(?:while [^{]*|loop )\{", t, flags=re.M):
        body = t[m.end() - 1: closed(t, m.end() - 1)]
        place = f"{p}:{t.count(chr(10), 0, m.start()) + 2}: {m.group(0).strip()}"
        loops.append(place)
        if re.search(r"[+-]= (1|8|unit|width);", body):
            by_hand.append(place)
show("while and loop", loops)
show("of them with a count by hand", by_hand)
show("for, and chains of iterators", [f"{p}: {m.group(0).strip()}" for p, t in code.items()
                                     for m in re.finditer(r"^\s*for [^{]*\{|\.(iter|chunks\w*|windows)\([^)]*\)", t, flags=re.M)])

print("4. Equality, order, copying, conversion, printing")
tables = []
for p, t in code.items():
    for name, params, answer, body, line in functions(t):
        arms = re.findall(r"=> ([^,{}]+)", body)
        if re.match(r"\{\s*match ", body) and arms and all(re.fullmatch(r"\d+|true|false|\w+::\w+", a.strip()) for a in arms):
            tables.append(f"{p}:{line}: {name}")
show("functions that are one match of constants (conversions and tests)", tables)
tests = [f"{p}:{line}: {name}" for p, t in code.items() for name, params, answer, body, line in functions(t)
         if answer == "-> bool" and re.search(r"return (true|false);", body)]
show("tests that return true or false by hand", tests)
show("derives of PartialEq, impls of From, TryFrom, Display", [f"{p}: {m.group(0)}" for p, t in code.items()
     for m in re.finditer(r"derive\([^)]*PartialEq[^)]*\)|impl (?:From|TryFrom|Display|fmt::Display)\b[^{]*", t)])

print("5. Facts and parameters that travel together")
many = [f"{p}:{line}: {name} ({len(params)})" for p, t in code.items() for name, params, answer, body, line in functions(t) if len(params) >= 6]
show("functions of six parameters or more", many)
asked = collections.Counter()
for t in files.values():
    for m in re.finditer(r"^\s*requires[^{]*\{ (.*) \}$", t, flags=re.M):
        for fact in m.group(1).split(" × "):
            asked[fact.strip("() ")] += 1
show("facts asked for in three requires or more", [f"{f} ({n})" for f, n in asked.most_common() if n >= 3])

print("6. Buffers with a length beside")
beside = [f"{p}:{line}: {name}" for p, t in code.items() for name, params, answer, body, line in functions(t)
          if any(ty.strip().startswith("&mut [") for _, ty in params) and answer.endswith("usize") and any(n in ("at", "count") for n, _ in params)]
show("functions that take a buffer and a place in it, and give the place behind", beside)

print("7. Switches")
switches = [f"{p}:{line}: {name}" for p, t in code.items() for name, params, answer, body, line in functions(t)
            if re.match(r"\{\s*match \w+ \{", body) and len(re.findall(r"=> \w+(?:::\w+)*\(", body)) >= 2]
show("functions that are one match, of which two arms or more call another", switches)

print("8. Proofs")
answers = glob.glob("crates/*/proofs/**/Answers.antt", recursive=True)
given = sum(len(re.findall(r"^(?:abbrev )?(?:pub )?[\w-]+ : goal\.", open(a, encoding="utf-8").read(), flags=re.M)) for a in answers)
print(f"{len(answers):4d}  files of answers")
print(f"{given:4d}  answers")
print(f"{sum(len(open(a, encoding='utf-8').read().splitlines()) for a in answers):4d}  lines of them")
