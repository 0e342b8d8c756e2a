#!/usr/bin/env python3
"""Spells the repository's own definitions and lemmas as the kit does: words in snake case, types and modules in camel case.

usage: respell.py            rewrites the crates below the current folder, after the kit's port.py
       respell.py --list     prints each old name and its new one, and the names that would fall together; rewrites nothing

Names are those that specs/*.antt and proofs/*.antt declare: definitions, lemmas, constructors and fields. Functions of src/, strings and
generated names are left alone.
"""

import collections
import os
import re
import sys

DECLARED = re.compile(r"^\s*((?:(?:pub|abbrev|unfoldable)\s+)*)([^\s:(){}\[\].,;λ=]+)\s*(?:[({][^\n]*)?\s:\s")
NAME = r"[^\s(){}\[\].;,@\"«»:]+"
KEYWORDS = {"record", "data", "module", "use", "let", "elim", "where", "unfolding", "infixl", "infixr", "mod"}
# names of which the kit spells a part in its own way
PARTS = {"getD": "get_or"}
# a lemma that would have its function's name, and a definition that would have a lemma's
OTHER = {
    "belowAt": "is_below_at",
    "zBottom": "z_bottom_of",
    "zTop": "z_top_of",
}
# the fields that are spelled as a definition of OTHER
FIELDS = {"zBottom": "z_bottom", "zTop": "z_top"}


def crates(root):
    return sorted(os.path.join(root, c) for c in os.listdir(root) if os.path.isdir(os.path.join(root, c)))


def files(folder):
    for at, dirs, names in os.walk(folder):
        dirs[:] = sorted(d for d in dirs if d != "out")
        for name in sorted(names):
            if name.endswith((".antt", ".rt", ".edit")):
                yield os.path.join(at, name)


def is_shared(path):
    """A file of specs/, or a lemma file right in proofs/."""
    parts = path.split(os.sep)
    return path.endswith(".antt") and ("specs" in parts or parts[-2] == "proofs")


def snake(name):
    for old, new in PARTS.items():
        name = re.sub(rf"(?<![A-Za-z]){old}(?![A-Za-z])", new, name)
    name = re.sub(r"(?<=[a-z0-9])([A-Z])", lambda m: "_" + m[1].lower(), name)
    return name.replace("-", "_")


def is_word(name):
    """A name in lower case, which is no type: types keep their capital, and a name behind a type keeps its dash."""
    return bool(re.match(r"[a-z]", name)) or bool(re.match(r"[A-Z]-", name))


def declared(root):
    names = collections.defaultdict(list)
    for path in files(root):
        if not is_shared(path):
            continue
        for number, line in enumerate(open(path, encoding="utf-8"), 1):
            if line.lstrip().startswith("--"):
                continue
            found = DECLARED.match(line)
            if found and found[2] not in KEYWORDS:
                names[found[2]].append((path, number))
    return names


def spellings(names):
    new = {}
    for name in names:
        if is_word(name) and ("-" in name or re.search(r"[a-z0-9][A-Z]", name)):
            new[name] = snake(name)
    new.update({name: to for name, to in OTHER.items() if name in names})
    taken = collections.Counter(new.get(name, name) for name in names)
    for name, to in new.items():
        if taken[to] > 1 and "-" in name:
            new[name] = to + "_lem"
    return new


def cut(text, path):
    """The text as (is_code, part): comments apart, but for what stands in backticks."""
    mark = "--" if path.endswith(".antt") else "//"
    for line in text.splitlines(keepends=True):
        start = re.search(rf"(?:^|\s){mark}", line)
        if start and not path.endswith(".edit"):
            yield True, line[: start.start()]
            for i, part in enumerate(re.split(r"(`[^`]*`)", line[start.start() :])):
                yield i % 2 == 1, part
        else:
            yield True, line


def foreign(text):
    """The names that a file imports from the kit."""
    own = "|".join(os.path.basename(c) for c in crates("crates"))
    names = set()
    for module, group in re.findall(r"(?m)^\s*(?:pub |ghost )?use ([^\s{]+?)\.\{([^}]*)\}", text):
        if not re.match(rf"Rattle\.(?:{own})\.", module):
            names.update(word for it in group.split(",") for word in it.split()[:1])
    return names


def turned(text, path, new):
    new = {name: to for name, to in new.items() if name not in foreign(text)}

    def one(m):
        word = m[0]
        behind = m.string[m.end() :]
        is_field = m.string[: m.start()].endswith(".") or re.match(r" =", behind) or re.match(r" :", behind) and "abbrev" not in m.string[: m.start()]
        if word in FIELDS and is_field:
            return FIELDS[word]
        return new.get(word, word)

    plain = re.compile(r"(?<![\w·-])[A-Za-z][\w'₀-₉→-]*")
    out = []
    for is_code, part in cut(text, path):
        if not is_code:
            out.append(part)
            continue
        if path.endswith(".rt"):
            # a string of Rust stays
            pieces = re.split(r'("(?:[^"\\]|\\.)*")', part)
        else:
            pieces = [part]
        out.append("".join(p if i % 2 else plain.sub(one, p) for i, p in enumerate(pieces)))
    return "".join(out)


def report(root, names, new):
    back = collections.defaultdict(set)
    for old in names:
        back[new.get(old, old)].add(old)
    for to, olds in sorted(back.items()):
        if len(olds) > 1:
            print(f"together: {', '.join(sorted(olds))} -> {to}: " + "; ".join(f"{p}:{n}" for o in sorted(olds) for p, n in names[o]))
    made = {to: old for old, to in new.items()}
    for path in files(root):
        text = open(path, encoding="utf-8").read()
        if path.endswith(".rt"):
            words = set(re.findall(r"(?<![\w.])[a-z]\w*(?=\s*:(?!:))", text)) | set(re.findall(r"\blet (?:mut )?(\w+)", text))
            for w in sorted(words):
                if w in made and re.search(rf"(?<![\w-]){re.escape(made[w])}(?![\w-])", text):
                    print(f"parameter, field or local: {w} ({made[w]}) in {path}")
        else:
            words = set(re.findall(r"(?<![\w·-])[A-Za-z][\w'₀-₉→-]*", text))
            for w in sorted(words):
                if w in made and made[w] in words:
                    print(f"both: {made[w]} and {w} in {path}")


def main():
    root = "crates"
    names = declared(root)
    new = spellings(names)
    if "--list" in sys.argv:
        for old, to in sorted(new.items()):
            print(f"{old}\t{to}")
        report(root, names, new)
        return
    for path in files(root):
        with open(path, encoding="utf-8") as f:
            text = f.read()
        to = turned(text, path, new)
        if to != text:
            with open(path, "w", encoding="utf-8") as f:
                f.write(to)


if __name__ == "__main__":
    main()
