#!/usr/bin/env python3
"""The places of docs/DESIGN-PASS.md counted in another way: by the shape of the text, with no list of names.
   tools/places2.py        how many each point has
   tools/places2.py N      the places of point N, a line each"""
import collections, glob, re, sys


def items(kind):
    """(crate/file, name, text) of each fn, enum or struct, without comments and ghost use."""
    for path in sorted(glob.glob("crates/*/src/*.rt")):
        text = "\n".join(l for l in open(path).read().split("\n") if not re.match(r" *(//|ghost use)", l))
        for m in re.finditer(r'^( *)(?:pub )?(?:const )?(?:extern "C" )?%s (\w+)' % kind, text, re.M):
            rest = text[m.start():]
            end = re.search(r"\n%s\}|[;}]$" % m.group(1), rest, re.M)
            yield path[7:].replace("/src/", "/"), m.group(2), rest[: end.end() if end else None]


def params(text):
    depth, at, parts, cur = 0, text.index("("), [], ""
    for c in text[at:]:
        depth += (c in "([{<") - (c in ")]}>")
        if depth == 0:
            break
        if c == "," and depth == 1:
            parts.append(cur)
            cur = ""
        elif not (c == "(" and depth == 1):
            cur += c
    return [" ".join(p.split()) for p in parts + [cur] if ":" in p and "self" not in p.split(":")[0]]


def body(text):
    m = re.search(r"^ *\{$|\) (?:-> [^{]*)?\{$|\{$", text, re.M)
    return text[m.end():] if m else ""


def crate(path):
    return path.split("/")[0]


def clauses(text):
    for m in re.finditer(r"(?:requires|ensures)(?: \w+)? \{(.*)\}$", text, re.M):
        for part in m.group(1).split("×"):
            yield " ".join(part.strip(" ()").split())


def point1():
    for p, n, t in items("enum"):
        yield f"{p}: enum {n}: " + ", ".join(re.findall(r"^    (\w+)", t, re.M))
    for p, n, t in items("struct"):
        if re.search(r": bool", t):
            yield f"{p}: struct {n} with a bool"
    for p, n, t in items("fn"):
        flags = [q for q in params(t) if re.search(r": bool$", q)]
        if flags:
            yield f"{p}: {n}({', '.join(flags)})"
        if re.search(r"(?:kind|outcome)\w* == \d|match (?:kind|outcome|number)\w* \{", body(t)):
            yield f"{p}: {n} tells a kind by its number"


def point2():
    groups = collections.defaultdict(list)
    for p, n, t in items("fn"):
        t = re.sub(r"^ *(requires|ensures|measure).*$", "", t, flags=re.M)
        seen, shape = {}, []
        for w in re.findall(r"\w[\w.]*|[^\s\w]", t):
            if re.match(r"\w", w) and w not in ("fn", "pub", "let", "mut", "for", "in", "if", "else", "match", "return", "self"):
                w = "#%d" % seen.setdefault(w, len(seen))
            shape.append(w)
        if len(shape) >= 30 and n != "main":
            groups[" ".join(shape)].append(f"{p}:{n}")
    for g in groups.values():
        if len(g) > 1:
            yield " ".join(g)


def point3():
    for p, n, t in items("fn"):
        for m in re.finditer(r"\b(while|loop)\b", body(t)):
            yield f"{p}: {n}: {m.group(1)}"


def point4():
    for p, n, t in items("fn"):
        if re.match(r"(is_same|same|equal|eq|cmp|less|greater|larger|clone|copy|print|show|to_|from_|as_)", n):
            yield f"{p}: {n}"
        elif re.match(r"\s*\w+(::\w+)? \{[\w\s:,.()*]*\}\s*\}\s*$", body(t)) and not t.lstrip().startswith(("fn from", "fn try_from")):
            yield f"{p}: {n} copies fields into a struct"


def point5():
    facts, groups = collections.defaultdict(set), collections.defaultdict(set)
    for p, n, t in items("fn"):
        for c in clauses(t):
            if len(c) > 12:
                facts[crate(p), c].add(n)
        names = params(t)
        for a, b, c in zip(names, names[1:], names[2:]):
            groups[crate(p), f"{a}, {b}, {c}"].add(n)
    for (k, c), s in sorted(facts.items()):
        if len(s) > 2:
            yield f"{k}: fact in {len(s)}: {c[:150]}"
    for (k, g), s in sorted(groups.items()):
        if len(s) > 2:
            yield f"{k}: together in {len(s)}: {g}"


def point6():
    for p, n, t in items("fn"):
        ps = params(t)
        counts = [q.split(":")[0] for q in ps if re.match(r"(n|m|count|len|size|used|filled): usize", q)]
        lists = [q.split(":")[0] for q in ps if "[" in q]
        for c in counts:
            if lists:
                yield f"{p}: {n}: {c} beside {', '.join(lists)}"
        if len(re.findall(r"let mut \w+ = \[[^;\]]*; \w+\]", t)):
            yield f"{p}: {n} has an array"


def point7():
    for p, n, t in items("fn"):
        for q in params(t):
            m = re.match(r"(\w+): bool$", q)
            if m and re.search(r"\bif !?%s\b|[!|&] ?%s\b" % (m.group(1), m.group(1)), body(t)):
                yield f"{p}: {n} branches on {m.group(1)}"
        if re.search(r"match \w+ \{\s*\d", body(t)):
            yield f"{p}: {n} matches numbers"


points = {1: point1, 2: point2, 3: point3, 4: point4, 5: point5, 6: point6, 7: point7}
if len(sys.argv) > 1:
    print("\n".join(points[int(sys.argv[1])]()))
else:
    for k, f in points.items():
        print(k, len(list(f())))
