#!/usr/bin/env python3
"""Lists the places in src/ at which a plainer form may be possible, by point of docs/DESIGN-PASS.md.

    tools/places.py          counts
    tools/places.py 3        counts, and the places of point 3

It finds by text and shape, so it lists more than there is: the page says what came of each.
"""
import collections
import glob
import re
import sys

FILES = [f for f in sorted(glob.glob("crates/*/src/*.rt")) if not f.endswith("tests.rt")]
LINES = {f: open(f).read().split("\n") for f in FILES}


def code(line):
    return line.split("//")[0]


def lines_with(pattern):
    return [
        (f, n, line.strip())
        for f in FILES
        for n, line in enumerate(LINES[f], 1)
        if re.search(pattern, code(line)) and "ensures" not in line and "ghost" not in line
    ]


def functions():
    """Each function: file, line, head, clauses, body."""
    for f in FILES:
        n = 0
        while n < len(LINES[f]):
            start = re.match(r"(\s*)(pub(\(crate\))? )?(const )?fn (\w+)", LINES[f][n])
            if not start:
                n += 1
                continue
            end = n
            while end < len(LINES[f]) and LINES[f][end] not in (start[1] + "}", start[1] + "{}"):
                if LINES[f][end].rstrip().endswith(";") and "{" not in LINES[f][end]:
                    break
                end += 1
            text = LINES[f][n : end + 1]
            opens = next((i for i, t in enumerate(text) if t in (start[1] + "{", start[1] + "{}") or re.search(r"[^{]\{$", t)), len(text))
            head = " ".join(t.strip() for t in text[: opens + 1] if not re.match(r"\s*(ensures|requires)", t))
            clauses = [t.strip() for t in text[: opens + 1] if re.match(r"\s*(ensures|requires)", t)]
            yield f, n + 1, start[5], head, clauses, [code(t) for t in text[opens + 1 :]]
            n = end + 1


def point_1():
    found = lines_with(r"\benum [A-Z]")
    found += lines_with(r"^\s*(pub )?\w+: bool,|-> bool\b")
    return found + lines_with(r"^\s*(0x[0-9A-F]+|\d+)(\.\.=\S+)? =>")


def shape(body):
    tokens = re.findall(r"\"[^\"]*\"|\w+|[^\w\s]", " ".join(body))
    return tuple("w" if re.match(r"\w", t) else "s" if t[0] == '"' else t for t in tokens)


def point_2():
    groups = collections.defaultdict(list)
    for f, n, name, _, _, body in functions():
        if len(shape(body)) >= 10:
            groups[shape(body)].append((f, n, name))
    alike = [(f, n, f"alike {i}: {name}") for i, g in enumerate(g for g in groups.values() if len(g) > 1) for f, n, name in g]
    fields = collections.defaultdict(list)
    for f in FILES:
        for m in re.finditer(r"(struct|enum) (\w+)[^\n{;]*\{\n(.*?)\n\}", "\n".join(LINES[f]), re.S):
            fields[re.sub(r"\s*//[^\n]*|pub(\(crate\))? ", "", m[3])].append((f, "\n".join(LINES[f])[: m.start()].count("\n") + 1, m[2]))
    return alike + [(f, n, "same fields: " + name) for g in fields.values() if len(g) > 1 for f, n, name in g]


def point_3():
    return lines_with(r"\bwhile |\bfor _ in |\.enumerate\(\)|\bfor \w+ in 0\.\.|\+= [12];|= \w+\.wrapping_add\(1\);")


def point_4():
    found = [(f, n, "fn " + name) for f, n, name, _, _, _ in functions() if re.search(r"(^|_)(name|text|number|opcode|digit|mark|byte|word|of|value|no)($|_)", name)]
    found += lines_with(r"impl (PartialEq|Eq|Ord|PartialOrd|Clone|Copy|Default|Debug) ")
    for f in FILES:
        text = "\n".join(LINES[f])
        for m in re.finditer(r"Ok\((\w+|\(\))\) => Ok\(\1\)|Err\(\w+\) => (return )?Err\(|Err\(_\) => (return )?Err\(|None => return None|else \{\n\s*return None;", text):
            found.append((f, text[: m.start()].count("\n") + 1, m[0].split("\n")[0]))
    return found


def point_5():
    facts = collections.Counter()
    where = {}
    groups = collections.Counter()
    for f, n, name, head, clauses, _ in functions():
        for c in clauses:
            fact = re.sub(r"^(ensures|requires)\*?( \w+)? ", "", c)
            facts[fact] += 1
            where.setdefault(fact, (f, n))
        given = re.findall(r"(\w+): ([^,()]+(?:<[^>]*>)?)", head[head.find("(") :].split("->")[0])
        given = sorted({(a, b.strip(" ,)")) for a, b in given})
        for i, a in enumerate(given):
            for b in given[i + 1 :]:
                pair = f"{a[0]}: {a[1]}, {b[0]}: {b[1]}"
                groups[pair] += 1
                where.setdefault(pair, (f, n))
    return [(*where[x], f"{k} contracts: {x}") for x, k in facts.most_common() if k >= 3] + [
        (*where[x], f"{k} functions: {x}") for x, k in groups.most_common() if k >= 3
    ]


def point_6():
    return lines_with(r"\b(first|second|third|fourth): Marked|&'?\w* ?mut \[u8\].*&'?\w* ?mut \[u8\]|^\s*(bytes|marks): &|Vec<Named>|\[Named\]|\(u8, u8, u8, u8\)|p: u8, q: u8")


def point_7():
    return lines_with(r"\bFn(Once|Mut)?\(|\bdyn\b|\benum (Direction|Base|Width|Verb|Seal)\b|match (op|self\.width|direction|verb)\b")


POINTS = {str(i): p for i, p in enumerate([point_1, point_2, point_3, point_4, point_5, point_6, point_7], 1)}

for number, find in POINTS.items():
    places = find()
    print(f"point {number}: {len(places)}")
    if number in sys.argv[1:]:
        for f, n, text in places:
            print(f"  {f}:{n}: {text}")
