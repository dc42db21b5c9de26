#!/usr/bin/env python3
"""Brings the repository's own definitions and lemmas to today's spelling: run once, at the top, right after the kit's port.py.

A definition is in snake case (wellFormed becomes well_formed); a fact or a type keeps its capital. In a lemma's name a dash stays
between two words that are names themselves (length-drop), and any other becomes an underscore (put-more becomes put_more). A lemma that
would have a definition's name gets _lem. Names of src/ stay. It goes over crates/ and over what README.md and docs/ have in backquotes,
and writes nothing where two names would fall together in a file. In edits and pages, which port.py does not read, it also turns the
names that port.py turned. With the word names it prints the table alone.
"""

import glob
import re
import sys

DECLARED = re.compile(r"^( *)((?:(?:abbrev|unfoldable|pub) )*)([^\s:(){}]+) :(?: |$)")
TOKEN = re.compile(r"(?<![^\s(){}\[\].,;:\"`|*⌜⌝])[^\s(){}\[\].,;:\"`|*⌜⌝]+")
LIBRARY = {"length", "take", "drop", "get_or", "set", "replicate", "append", "map", "number", "over", "slice", "sum"}


def sources(kind):
    return [p for p in sorted(glob.glob("crates/**/*." + kind, recursive=True)) if "/out/" not in p]


def read(path):
    with open(path, encoding="utf-8") as f:
        return f.read()


def write(path, text):
    if text != read(path):
        with open(path, "w", encoding="utf-8") as f:
            f.write(text)


def is_laws(path):
    return re.search(r"/proofs/[^/]+\.antt$", path) is not None


def snake(word):
    if not re.match(r"[a-z]", word):
        return word
    word = re.sub(r"(?<=[a-z])U(?=\d)", "_u", word)
    return re.sub(r"(?<=[a-z0-9])([A-Z])(?=[a-z])", lambda m: "_" + m.group(1).lower(), word)


def declared():
    """The names of definitions and those of lemmas."""
    definitions, lemmas = set(), set()
    for path in sources("antt"):
        if "/specs/" not in path and not is_laws(path):
            continue
        for line in read(path).splitlines():
            m = DECLARED.match(line)
            if m and not (m.group(1) and "/specs/" in path):
                is_definition = "/specs/" in path or "abbrev" in m.group(2) or "unfoldable" in m.group(2)
                (definitions if is_definition else lemmas).add(m.group(3))
    return definitions, lemmas - definitions


def table():
    definitions, lemmas = declared()
    words = {snake(d) for d in definitions} | LIBRARY
    turned = {}
    for name in sorted(definitions | lemmas):
        parts = [snake(p) for p in re.sub(r"^getD(?=-|$)", "get_or", name).split("-")]
        new = parts[0]
        for before, after in zip(parts, parts[1:]):
            new += ("-" if before in words and after in words else "_") + after
        turned[name] = new
    taken = {turned[d] for d in definitions}
    for name in lemmas:
        if turned[name] in taken:
            turned[name] += "_lem"
    return {old: new for old, new in turned.items() if old != new}


def function_names():
    return {n for path in sources("rt") for n in re.findall(r"\bfn (\w+)", read(path))}


def is_field(path, name, functions):
    """A field of a record of ours, and no step of a function, which is named by what it calls."""
    return "-" in name and path.endswith(".antt") and (is_laws(path) or "/specs/" in path or name.replace("-", "_") not in functions)


def respelled(path, text, turned, functions, finals=frozenset()):
    def turn(m):
        old, before = m.group(0), text[: m.start()]
        if old not in turned:
            new = snake(old).replace("-", "_")
            return new if new in finals and re.match(r"[a-z]+[A-Z-]", old) else old
        if before.endswith("."):
            owner = re.search(r"[^\s(){}\[\].,;:]*\.$", before).group(0)
            if not owner[:1].isupper() and not re.match(r"[a-z]\w*[A-Z]", old) and not is_field(path, old, functions):
                return old
        if path.endswith((".rt", ".edit")) and re.fullmatch(r"[a-z0-9_]+", old):
            return old
        return turned[old]

    return TOKEN.sub(turn, text)


def in_code(text, turn):
    """Turns the code of a text, and what its comments have in backquotes."""
    lines = text.split("\n")
    is_comment = [re.match(r" *(--|//)", line) is not None for line in lines]
    code = turn("\n".join("" if c else line for line, c in zip(lines, is_comment))).split("\n")
    quoted = lambda line: re.sub(r"`[^`\n]+`", lambda m: turn(m.group(0)), line)
    return "\n".join(quoted(line) if c else done for line, done, c in zip(lines, code, is_comment))


def together(path, text, turned):
    """Names of a file that were two and would be one."""
    by_new = {}
    text = re.sub(r"^ *--.*$", "", text, flags=re.M)
    for m in TOKEN.finditer(text):
        if not text[: m.start()].endswith("."):
            by_new.setdefault(turned.get(m.group(0), m.group(0)), set()).add(m.group(0))
    return [sorted(olds) for olds in by_new.values() if len(olds) > 1]


def main():
    turned = table()
    if sys.argv[1:] == ["names"]:
        for old in sorted(turned):
            print(old, turned[old])
        return 0
    definitions, lemmas = declared()
    functions = function_names()
    finals = {turned.get(n, n) for n in definitions | lemmas}
    wholes = sources("antt") + sources("rt")
    clashes = [(path, pair) for path in sources("antt") for pair in together(path, read(path), turned)]
    for path, pair in clashes:
        print("respell: two names would be one:", path, *pair, file=sys.stderr)
    if clashes:
        return 1
    for path in wholes:
        write(path, in_code(read(path), lambda text: respelled(path, text, turned, functions)))
    for path in sorted(glob.glob("crates/*/must-fail/*.edit")):
        write(path, respelled(path, read(path), turned, functions, finals))
    for path in ["README.md"] + sorted(glob.glob("docs/**/*.md", recursive=True)):
        write(path, re.sub(r"`[^`\n]+`", lambda m: respelled(path, m.group(0), turned, functions, finals), read(path)))
    return 0


if __name__ == "__main__":
    raise SystemExit(main())
