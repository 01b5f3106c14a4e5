#!/usr/bin/env python3
"""Brings the repository's own definitions and lemmas to today's spelling: words in snake case.

usage: python3 tools/respell.py [--list]      at the top, once, right after port.py; --list prints the names, old and new, and writes nothing

A name is the repository's own if a file of specs/ writes it and no line imports it from elsewhere. The names of src/ stay as they are.
It goes over specs/, proofs/, the clauses and `ghost use` lines of src/, the edits of must-fail/ and the names in backquotes of README.md and docs/.
"""
import collections, glob, os, re, sys

NAME = re.compile(r"(?<![\w\-'₀-₉·◌])[A-Za-z][\w'₀-₉]*(?:-[\w'₀-₉]+)*(?![\w\-'₀-₉·◌])")
# What std spells anew, as a part of a name of ours.
PARTS = {"getD": "get_or", "get_d": "get_or", "eqb": "eq", "leb": "le", "ltb": "lt"}
# Lemmas that would fall together with the function that they are of.
CHOSEN = {n: n.replace("-", "_") + "_lem" for n in ("first-at", "sort-of", "with-kept", "table-p", "added-kind", "corner-at", "block-at")}
# The same in one file alone, where another file's name is the lemma's.
ALONE = {
    "crates/items/specs/Laws/Accepted.antt": {"kept_on": "kept_on_lem"},
    "crates/items/specs/Laws/Boards.antt": {"with_items": "with_items_lem"},
}

def read(path):
    with open(path, encoding="utf-8") as it:
        return it.read()

def code(text):
    return re.sub(r"(?m)--(?= |$).*$", "", text)

def imports(text):
    for it in re.finditer(r"(?m)^(?:ghost )?use ([^{};\n]*?)(?:\.\{([^}]*)\})?;?$", text):
        path, names = it[1].split("."), it[2] or ""
        yield path, [n.strip() for n in names.split(",") if n.strip()]

def is_odd(name):
    return name[0].islower() and ("-" in name or bool(re.search("[a-z0-9][A-Z]", name)) or name.startswith("get_d_"))

def gather():
    own_crates = set(os.listdir("crates"))
    odd, foreign = set(), set()
    for path in glob.glob("crates/*/specs/**/*.antt", recursive=True):
        text = code(read(path))
        for parts, names in imports(text):
            own = parts[0] == "Rattle" and len(parts) > 1 and parts[1] in own_crates and "declared" not in parts
            if not own:
                foreign.update(n.split(" as ")[0] for n in names)
        body = re.sub(r"(?m)^use .*$", "", text)
        odd.update(n for n in NAME.findall(body) if is_odd(n))
    return odd - foreign

def snake(word):
    word = re.sub("^get_d_", "get_or_", word)
    return re.sub(r"([a-z0-9])([A-Z])", lambda m: m[1] + "_" + m[2].lower(), word)

def respelled(name):
    return CHOSEN.get(name) or "_".join(PARTS.get(p, snake(p)) for p in name.split("-"))

def main():
    names = {n: respelled(n) for n in gather()}
    names = {a: b for a, b in names.items() if a != b}
    if "--list" in sys.argv:
        for a, b in sorted(names.items()):
            print(a, b)
    clash(names)
    if "--list" not in sys.argv:
        turn(names)

def turned(text, names):
    return NAME.sub(lambda it: names.get(it[0], it[0]), text)

def humps(names):
    """Names that are no words of English, so that they are turned in plain text too."""
    return {a: b for a, b in names.items() if "-" not in a}

def antt(text, names):
    parts = re.split(r"(?m)(--(?= |$).*$)", text)
    return "".join(turned(it, names if k % 2 == 0 else humps(names)) for k, it in enumerate(parts))

def source(text, names):
    out, depth = [], None
    for line in text.split("\n"):
        if depth is None and re.match(r"ghost use ", line):
            out.append(turned(line, names)); continue
        if depth is None and re.match(r"\s+(requires|ensures)\*? ?(\w+ )?\{", line):
            depth = 0
        if depth is not None:
            depth += line.count("{") - line.count("}")
            out.append(turned(line, names))
            depth = None if depth <= 0 else depth
            continue
        out.append(re.sub(r"//.*$", lambda it: turned(it[0], humps(names)), line))
    return "\n".join(out)

def edit(text, names):
    out, inside = [], ""
    for line in text.split("\n"):
        if line.startswith("file: "):
            inside = line[6:]
        clause = inside.startswith("specs/") or re.search("≡|requires|ensures|ghost use", line)
        out.append(turned(line, names if clause else humps(names)) if re.match("(old|new):", line) else line)
    return "\n".join(out)

def page(text, names):
    return re.sub(r"`[^`\n]+`", lambda it: turned(it[0], names), text)

def turn(names):
    for how, where in ((antt, "crates/*/specs/**/*.antt"), (antt, "crates/*/proofs/**/*.antt"), (source, "crates/*/src/**/*.rt"),
                       (edit, "crates/*/must-fail/*.edit"), (page, "README.md"), (page, "docs/*.md")):
        for path in sorted(glob.glob(where, recursive=True)):
            text = read(path)
            new = how(text, names | ALONE.get(path, {}))
            if new != text:
                with open(path, "w", encoding="utf-8") as it:
                    it.write(new)

def clash(names):
    """Prints each file in which two names become one."""
    for path in sorted(glob.glob("crates/*/specs/**/*.antt", recursive=True) + glob.glob("crates/*/proofs/**/*.antt", recursive=True)):
        seen = collections.defaultdict(set)
        for n in set(NAME.findall(code(read(path)))):
            seen[(names | ALONE.get(path, {})).get(n, n)].add(n)
        for new, olds in seen.items():
            if len(olds) > 1:
                print("falls together:", path, new, sorted(olds))

if __name__ == "__main__":
    main()
