#!/usr/bin/env python3
"""Respells the repository's own definitions and lemmas in snake case, once, after the kit's port.py: snake_names.py [--list] [FOLDER].

A name is the repository's own where a file of crates/*/specs or crates/*/proofs declares it, a proof of a function (Proof.antt) aside:
what such a file declares answers a goal, whose name the prover makes. A name in camel case becomes one in snake case; so does a dashed
name that is a record's field or stands in specs/. A lemma that is named after two words keeps the dash between them. Types, modules, and
what Rust declares keep their names, and so do strings of the sources. Where two names would fall together the script stops.
"""
import collections
import os
import re
import sys

DECLARES = re.compile(r"^\s*(?:(?:abbrev|unfoldable|pattern|pub)\s+)*([^\s:(){}.;,|\[\]«»]+)(\s*\{[^}]*\})?\s*:\s")
OTHER = re.compile(r"^\s*(?:let|in|use|module|where)\b")
SPLITS = re.compile(r"([\s(){}\[\].;,:\"@|«»⟦⟧⌜⌝`·]+)")
# lemmas whose dash port.py took for a word of the kit's: a definition of that name is respelled, so they get the dash back
OTHERWISE = {"add_none": "add-none", "raw_at": "raw-at", "four_bytes": "four-bytes", "too_long": "too-long", "two_digits": "two-digits"}
# fields that would be spelled as a definition is; their dashed names are also steps of proofs of functions, whose names the prover makes
FIELDS = {"block-length": "length_of_block", "block-place": "place_of_block", "serial-length": "length_of_serial", "serial-place": "place_of_serial"}


def snake(name):
    return OTHERWISE.get(name) or FIELDS.get(name) or re.sub(r"(?<=[a-z0-9])(?=[A-Z])", "_", name).replace("-", "_").lower()


def files(root, tops, ends):
    for top in tops:
        if os.path.isfile(os.path.join(root, top)):
            yield os.path.join(root, top)
        for folder, names, found in os.walk(os.path.join(root, top)):
            names[:] = sorted(n for n in names if n not in ("out", "target", ".git"))
            for name in sorted(found):
                if name.endswith(ends):
                    yield os.path.join(folder, name)


def read(path):
    with open(path, encoding="utf-8") as file:
        return file.read()


def declared(root):
    """The names that the repository declares, those of records' fields and of specs/ apart."""
    every, snaked = set(), set()
    for path in files(root, ["crates"], (".antt",)):
        if path.endswith("/Proof.antt"):
            continue
        record = None
        for line in read(path).split("\n"):
            indent = len(line) - len(line.lstrip())
            if not line.strip() or line.lstrip().startswith("--"):
                continue
            if record is not None and indent <= record:
                record = None
            if re.match(r"^\s*(?:pub\s+)?record\s.*\bwhere$", line):
                record = indent
            found = None if OTHER.match(line) else DECLARES.match(line)
            if found:
                every.add(found.group(1))
                if record is not None or "/specs/" in path:
                    snaked.add(found.group(1))
    return every, snaked


def renamed(root):
    every, snaked = declared(root)
    table = {name: new for name, new in OTHERWISE.items() if name in every}
    for name in every:
        if name[0].isalpha() and not name[0].isupper() and "◌" not in name:
            if re.search(r"[a-z0-9][A-Z]", name) or ("-" in name and name in snaked):
                table[name] = snake(name)
    return table


def turn(text, table):
    parts = SPLITS.split(text)
    strings = 0
    for i, part in enumerate(parts):
        if i % 2 == 1:
            strings += part.count('"')
        elif strings % 2 == 0:
            parts[i] = table.get(part, part)
    return "".join(parts)


def turn_words(text, table):
    """Of prose: what stands between backticks, and names in camel case anywhere."""
    text = re.sub(r"`([^`]*)`", lambda found: "`" + turn(found.group(1), table) + "`", text)
    return turn(text, {old: new for old, new in table.items() if "-" not in old})


def turn_code(text, table, words, comment):
    """Code by one table; what stands after `comment` by the other."""
    lines = []
    for line in text.split("\n"):
        at = line.find(comment)
        at = len(line) if at < 0 else at
        lines.append(turn(line[:at], table) + turn_words(line[at:], words))
    return "\n".join(lines)


def write(path, new, old):
    if new != old:
        with open(path, "w", encoding="utf-8") as file:
            file.write(new)


def main():
    args = [a for a in sys.argv[1:] if not a.startswith("--")]
    root = args[0] if args else "."
    table = renamed(root)
    back = collections.defaultdict(set)
    for old, new in table.items():
        back[new].add(old)
    together = {new: olds for new, olds in back.items() if len(olds) > 1}
    if "--list" in sys.argv:
        for old in sorted(table):
            print(old, table[old])
    for new, olds in sorted(together.items()):
        print("fall together:", new, *sorted(olds))
    if "--list" in sys.argv or together:
        return 1 if together else 0
    # functions of the sources have two of those names, so sources and prose keep them
    words = {old: new for old, new in table.items() if old not in OTHERWISE}
    for path in files(root, ["crates"], (".antt",)):
        text = read(path)
        here = table
        if path.endswith("/Proof.antt"):
            own = set(re.findall(r"^(?:abbrev\s+)?(?:pub\s+)?(\S+)\s*:\s*tie\.", text, re.M))
            here = {old: new for old, new in table.items() if old not in own and old not in FIELDS and old not in ("four_bytes", "two_digits")}
        write(path, turn_code(text, here, words, "--"), text)
    for path in files(root, ["crates"], (".rt",)):
        text = read(path)
        write(path, turn_code(text, words, words, "//"), text)
    for path in files(root, ["README.md", "docs", "tests"], (".md",)):
        text = read(path)
        write(path, re.sub(r"`([^`\n]*)`", lambda found: "`" + turn(found.group(1), words) + "`", text), text)
    return 0


if __name__ == "__main__":
    sys.exit(main())
