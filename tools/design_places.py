#!/usr/bin/env python3
"""Prints the places of docs/DESIGN-PASS.md, by the points 1 to 7 of that page: design_places.py [--counts] [--at COMMIT] [FOLDER].

Each line is a place: its point, file:line, the function or type, and what it is. With --counts only the numbers come, by crate and point,
as the table of the page. With --at the files are read as they stand at that commit. A file is read as text: comments, the contents of
strings, contracts and ghost lines are taken out first, the rules are patterns on what is left, and the page states each of them in a line.
"""
import collections
import os
import re
import subprocess
import sys

POINTS = range(1, 8)
Function = collections.namedtuple("Function", "crate path line name exported asked about params result requires starts body")  # asked: by the trait that its impl is of
Type = collections.namedtuple("Type", "crate path line name about word parts")  # parts: (name, [types]) of each variant, or of each field
OWN = re.compile(r"(?://|b?\"(?:\\.|[^\"\\])*\"|b'(?:\\.|[^'\\])')")
WIDER = {"u8": ("u16", "u32", "u64", "usize"), "u16": ("u32", "u64", "usize"), "u32": ("u64",), "bool": ("u8", "u32", "u64", "usize")}
BIG = r"(?:256|65536|16777216|4294967296|1099511627776|281474976710656|72057594037927936|576460752303423488)"

# point 4, on the body of a function: what stands there, and what does the same today
HAND = [
    (r"/ %s(?: %% 256)?\) as u8|/ 4294967296[,\]]" % BIG, "a number taken apart into bytes or halves: to_be_bytes, to_le_bytes"),
    (r"\* %s\b" % BIG, "a number put together from bytes, halves or bits: from_be_bytes, from_le_bytes, <<"),
    (r"% 4294967296\) as u32", "arithmetic that wraps: wrapping_add, wrapping_mul"),
    (r"\[i\] != \w+\[i\]|fits_form\(\w+\[i\], \w+\[i\]\)", "two slices compared by index: ==, zip and all"),
    (r"\bout\[at \+ \w\] = ", "a slice copied or filled by index: copy_from_slice, fill"),
    (r"\*(\w+) = \*\w+;", "a slice copied byte by byte: copy_from_slice"),
    (r"\b(\w)\[0\],\s+\1\[1\],\s+\1\[2\]|\b(\w+)\[0\], \2\[1\], \2\[2\]", "an array copied element by element: copy_from_slice"),
    (r"= (\w+)\((\w+), 0\);\s*let \w+ = \1\(\2, 1\);\s*let \w+ = \1\(\2, 2\);", "an array read element by element: map, zip"),
    (r"\b(?:parts::)?same_bytes\(", "a call of same_bytes: == on slices"),
    (r"\(\w+(?:\.\w+)+ == [a-z_]+\) & \(\w+(?:\.\w+)+ == [a-z_]+\)", "a value compared field by field: derive(PartialEq), =="),
    (r"\(\w+ <= (\w+)\) & \(\1 <= [\w.()]+\)", "a range tested by two comparisons: matches!, contains"),
    (r"if \w+\[at\] < (\w+) \{\s*return false;\s*\}\s*if \w+ < \w+\[at\]", "a range tested by two comparisons in a loop: all, contains"),
    (r"(?:if (\w+) == \w+ \{\s*return [^;]*;\s*\}\s*)(?:if \1 == \w+ \{\s*return [^;]*;\s*\}\s*){2,}|\((\w+) == \w+\) \| \(+\2 == \w+\) \|", "three or more tests of one value in a row: match, matches!"),
    (r"(\w+)\[0\] != [\s\S]*\1\[1\] != ", "bytes compared one by one: starts_with, a slice pattern"),
    (r"(?:if [^{]* \{\s*return false;\s*\}\s*){4,}", "four or more tests in a row that each return false: &&, contains"),
    (r"\.len\(\) <= 0\b", "an empty slice by its length: is_empty, first, split_first"),
    (r"if (?:i|at|p) < \w+\.len\(\) \{|if \w+\.len\(\) <=? (?:i|at|p) \{|\.len\(\) - (?:at|4) < \w+[^{]*\{", "a byte or part that may not be there, by comparing a length: get"),
    (r"\{ 1 \} else \{ 0 \}", "a number from a bool: usize::from"),
    (r"if (\d+) < \w+ \{\s*return \1;|\{ 0 \} else \{ \(\w+ - |if (\w+) <= (\w+) \{\s*return [^;]*;\s*\}\s*[^;]*\2 - \3|if room < at ", "a sum or difference that is cut off: saturating_add, saturating_sub, min, checked_sub"),
    (r"\b255 - |\+ 4294967040|-1 - ", "a signed number to or from its bytes: as, from_ne_bytes"),
    (r"b'.' \+|- 0x30\b", "a digit from or to its number"),
    (r"\bput_number\(", "a text put together number by number: Display, write!"),
]


def blank(text):
    """The text with comments and what stands in strings made blank, lines and columns as they were."""
    out, at = [], 0
    while True:
        found = OWN.search(text, at)
        if not found:
            return "".join(out) + text[at:]
        out.append(text[at:found.start()])
        if found.group().startswith("//"):
            at = text.find("\n", found.start())
            at = len(text) if at < 0 else at
            out.append(" " * (at - found.start()))
        else:
            word, at = found.group(), found.end()
            inner = word.index(word[-1]) + 1
            out.append(word[:inner] + re.sub(r"[^\n]", "_", word[inner:-1]) + word[-1])


def matching(text, at):
    """The place after what closes the bracket at this place; the > of -> and => closes none."""
    depth = 0
    for i in range(at, len(text)):
        if text[i] in "([{":
            depth += 1
        elif text[i] in ")]}":
            depth -= 1
            if depth == 0:
                return i + 1
    return len(text)


def first(text, at, marks):
    """The first place from `at` on of one of the marks that stands in no bracket."""
    while at < len(text) and text[at] not in marks:
        if text[at] in "([{":
            at = matching(text, at)
        elif text[at] == "<":
            depth = 0
            while at < len(text):
                depth += (text[at] == "<") - (text[at] == ">" and text[at - 1] not in "-=")
                at += 1
                if depth == 0:
                    break
        else:
            at += 1
    return at


def split(text, mark):
    """The parts of a text between marks that stand in no bracket."""
    parts, depth, last = [], 0, 0
    for i, c in enumerate(text):
        if c in "([{<":
            depth += 1
        elif c in ")]}" or (c == ">" and text[i - 1] not in "-="):
            depth -= 1
        elif c == mark and depth == 0:
            parts.append(text[last:i])
            last = i + 1
    return [p.strip() for p in parts + [text[last:]] if p.strip()]


def uncontracted(text):
    """The text without contracts and ghost lines, and for each place where a `requires` stood, what it said."""
    said = {}
    for found in re.finditer(r"^[ \t]*(requires|ensures)\b[^{\n]*\{|^[ \t]*ghost use [^;]*;", text, re.M):
        end = matching(text, found.end() - 1) if found.group(1) else found.end()
        if found.group(1) == "requires":
            said[found.start()] = text[found.end():end - 1].strip()
        text = text[:found.start()] + re.sub(r"[^\n]", " ", text[found.start():end]) + text[end:]
    return text, said


def about(lines, line):
    """The comment above a line."""
    words = []
    for i in range(line - 2, -1, -1):
        if re.match(r"\s*//", lines[i]):
            words.insert(0, lines[i].strip()[2:].strip())
        elif not lines[i].strip().startswith("#["):
            break
    return " ".join(words)


def read(path, raw):
    """The functions and the types of a file."""
    text, said = uncontracted(blank(raw))
    lines, crate = raw.split("\n"), path.split("/")[1]
    functions, types = [], []
    impls = [(found.start(), matching(text, found.end() - 1)) for found in re.finditer(r"^[ \t]*impl\b[^{;]*\bfor\b[^{;]*\{", text, re.M)]
    for found in re.finditer(r"\bfn\s+(\w+)\s*(?=[<(])", text):
        opens = first(text, found.end(), "(")
        close = matching(text, opens)
        begin = first(text, close, ";{")
        if begin == len(text) or text[begin] == ";":
            continue
        end = matching(text, begin)
        line = text.count("\n", 0, found.start()) + 1
        params = [tuple(re.sub(r"\s+", " ", part).strip() for part in p.split(":", 1)) for p in split(text[opens + 1:close - 1], ",") if ":" in p]
        requires = [said[at] for at in sorted(said) if close <= at < begin]
        result = text[close:begin].replace("->", "").strip()
        functions.append(Function(crate, path, line, found.group(1), "extern" in lines[line - 1], any(a < found.start() < b for a, b in impls), about(lines, line), [(n.replace("mut ", ""), t) for n, t in params], result, requires, text.count("\n", 0, begin) + 1, text[begin:end]))
    for found in re.finditer(r"^[ \t]*(?:pub )?(enum|struct)\s+(\w+)\s*(?:<[^>{]*>)?\s*\{", text, re.M):
        line = text.count("\n", 0, found.start(2)) + 1
        parts = []
        for part in split(text[found.end():matching(text, found.end() - 1) - 1], ","):
            if found.group(1) == "struct":
                name, _, of = part.partition(":")
                parts.append((name.replace("pub ", "").strip(), [of.strip()]))
            else:
                name, holds = re.match(r"(?:#\[[^\]]*\]\s*)*(\w+)\s*([\s\S]*)", part).groups()
                parts.append((name, [of.split(":")[-1].strip() for of in split(holds[1:-1], ",")] if holds[:1] in ("(", "{") else []))
        types.append(Type(crate, path, line, found.group(2), about(lines, line), found.group(1), parts))
    return functions, types


def sources(root, commit):
    """The path and text of each source file."""
    if commit:
        names = subprocess.run(["git", "-C", root, "ls-tree", "-r", "--name-only", commit, "crates"], capture_output=True, text=True, check=True).stdout.split()
    else:
        names = [os.path.join("crates", c, "src", n) for c in os.listdir(os.path.join(root, "crates")) if os.path.isdir(os.path.join(root, "crates", c, "src")) for n in os.listdir(os.path.join(root, "crates", c, "src"))]
    for name in sorted(n for n in names if re.fullmatch(r"crates/\w+/src/\w+\.rt", n)):
        if commit:
            yield name, subprocess.run(["git", "-C", root, "show", "%s:%s" % (commit, name)], capture_output=True, text=True, check=True).stdout
        else:
            with open(os.path.join(root, name), encoding="utf-8") as file:
                yield name, file.read()


def inside(f, at):
    """The line of a place in a function's body."""
    return f.starts + f.body.count("\n", 0, at)


def own_enums(functions, types):
    """Point 1."""
    for t in types:
        if t.word == "enum":
            holds = [of for _, of in t.parts]
            refuses = [of for of in holds if of in (["Refusal"], ["u32"], ["u32", "usize"])]
            nothing = [of for of in holds if not of]
            values = [of for of in holds if of and of not in refuses]
            if len(holds) == 2 and len(nothing) == 1 and not refuses:
                yield t, "an enum of the shape of Option"
            elif len(holds) == 2 and len(refuses) == 1:
                yield t, "an enum of the shape of Result"
            elif len(holds) == 3 and len(nothing) == 1 and len(refuses) == 1 and values:
                yield t, "an enum of the shape of a Result of an Option"
        else:
            if any(of == ["bool"] and re.match(r"(found|known|some|ok|is|has)(_|$)", name) for name, of in t.parts):
                yield t, "a flag with a value beside it"
            if any(name == "number" and of == ["u32"] for name, of in t.parts) and "board's number" not in t.about:
                yield t, "a field that is the number of a refusal"
            if "0 where there is none" in t.about:
                yield t, "a number that is 0 where there is none"
    for f in functions:
        text = f.name + f.result + f.body + " ".join(t for _, t in f.params)
        if f.result == "u32" and re.search(r"[;}]\s*0\s*\}$", f.body) and re.search(r"return (?:[1-9]|1\d|2[0-3]);", f.body):
            yield f, "a result that is the number of a refusal, and 0 for nothing"
        if f.result == "Refusal" and re.search(r"\b(?:refusal|Refusal::from)\(0\)", f.body):
            yield f, "a refusal of number 0 for nothing"
        if re.search(r"\bnumber == 0\b", f.body):
            yield f, "a refusal of number 0 for nothing"
        if any(t == "bool" and n in ("is", "found", "some") for n, t in f.params):
            yield f, "a flag with a value beside it"
        if ("number", "u32") in f.params and re.search(r"efus|is_unmade", text) and "board's number" not in f.about:
            yield f, "a parameter that is the number of a refusal"
        if re.search(r"\b(format|form) (==|!=) \d", f.body) and ("format", "u32") in f.params + [("format", t) for n, t in f.params if n == "form"]:
            yield f, "a format, or a form, by its number"
        if re.search(r"\b0 < \w+\.own\b|\bown == 0\b", f.body):
            yield f, "a length that is asked whether it is 0, for whether there is a board"


def plain(f):
    """A function's text without what twins differ in."""
    body = f.body
    names = [n for n, _ in f.params] + re.findall(r"\blet (?:mut )?(\w+)", body)
    for i, name in enumerate(dict.fromkeys(names)):
        body = re.sub(r"(?<![\w.:])%s\b(?!\s*:(?!:))" % re.escape(name), "v%s" % chr(97 + i % 26), body)
    body = "(%s) %s " % (", ".join(t for _, t in f.params), f.result) + body
    body = re.sub(r"\b(?:[ui](?:8|16|32|64|size))::from\((\w+)\)", r"\1 as int", body)
    body = re.sub(r"\b[ui](?:8|16|32|64|size)\b", "int", body)
    body = re.sub(r"\b(?:0x[0-9A-Fa-f]+|\d+)\b", "0", body)
    body = re.sub(r"(?<=[a-zA-Z_])\d+\b", "", body)
    body = re.sub(r"\b[A-Z]\w*(?:::[A-Z]\w*)?", "T", body)
    return re.sub(r"\s+", " ", re.sub(r"\b\w+::(?=\w)", "", body)).strip()


def tokens(text):
    return collections.Counter(re.findall(r"\w+|[^\w\s]", text))


def near(a, b):
    """How much of two functions' text is the same, from 0 to 1."""
    return 2 * sum((a & b).values()) / (sum(a.values()) + sum(b.values()))


def twins(functions, types):
    """Point 2: groups of functions, each joined to another of its group by one of the rules."""
    some = [f for f in functions if not f.exported and not f.asked and not re.match(r"\{\s*match [\w.*]+ \{\s*Format::", f.body)]
    text = [plain(f) for f in some]
    bags = [tokens(t) for t in text]
    words = [re.sub(r"\d+", "", f.name).split("_") for f in some]
    shared = [set(re.findall(r"\b\w+::[A-Z][A-Z_]+\b", f.body)) for f in some]
    group = list(range(len(some)))

    def root(i):
        while group[i] != i:
            i = group[i]
        return i

    for i in range(len(some)):
        for j in range(i):
            a, b = some[i], some[j]
            if "%s(" % a.name in b.body or "%s(" % b.name in a.body:
                continue
            if a.crate == b.crate:
                same = text[i] == text[j] and len(text[i]) > 40
                numbered = len(text[i]) > 200 and re.search(r"\d$", a.name) and re.search(r"\d$", b.name)
                level = 0.6 if words[i] == words[j] else 0.75 if numbered else 0.92 if a.result == b.result and len(text[i]) > 70 and "rt" not in dict(a.params) else 2
            else:
                same = text[i] == text[j] or bool(shared[i] & shared[j])
                akin = words[i][-1] == words[j][-1] or words[i][0] == words[j][0] != "is"
                level = 0.65 if a.name == b.name and a.result == b.result else 0.84 if akin and len(text[i]) > 90 else 0.95 if len(text[i]) > 140 else 2
            if same or level <= 1 and near(bags[i], bags[j]) >= level:
                group[root(i)] = root(j)
    members = collections.defaultdict(list)
    for i in range(len(some)):
        members[root(i)].append(some[i])
    for number, fs in enumerate((fs for fs in members.values() if len(fs) > 1), 1):
        for f in fs:
            yield f, "twins %d: %s" % (number, ", ".join("%s::%s" % (g.crate, g.name) for g in fs if g is not f))
    structs = [t for t in types if t.word == "struct"]
    for a in structs:
        for b in structs:
            shared = [p[0] for p in a.parts if p in b.parts]
            if a is not b and len(a.parts) >= 3 and len(shared) == len(a.parts):
                yield a, "all of its fields stand in %s too" % b.name


def loops(functions, types):
    """Point 3."""
    for f in functions:
        for found in re.finditer(r"\b(?:(while)\b[^{]*|(loop)\s*|for\s+(\S+|\([^)]*\))\s+in\s[^{]*)\{", f.body):
            end = matching(f.body, found.end() - 1)
            inner = f.body[found.end() - 1:end]
            used = []
            for name, sign, by, other in re.findall(r"\b(\w+) ([+-])= ([^;]+);|\b(\w+) = (?:\w+\.next|step_\w+\(\4, [^;]*);", inner):
                name = name or other
                uses = len(re.findall(r"\b%s\b" % name, inner))
                moves = len(re.findall(r"\b%s (?:[+-]=|= )" % name, inner))
                if not found.group(3) or uses > moves:
                    used.append("%s %s= %s" % (name, sign, by) if sign else "%s goes on" % name)
            if used:
                line = inside(f, found.start())
                yield f._replace(line=line), "a place or a count moved by hand: %s" % ", ".join(dict.fromkeys(used))


def known(functions, types):
    """What types names of fields, variants and functions have, where all of a name have one type."""
    table = collections.defaultdict(set)
    for t in types:
        for name, of in t.parts:
            if t.word == "struct":
                table["." + name].update(of)
            else:
                table[t.name + "::" + name].add(tuple(of))
    for f in functions:
        table[f.name + "("].add(f.result)
        table["%s::%s(" % (f.crate, f.name)].add(f.result)
    return {name: next(iter(of)) for name, of in table.items() if len(of) == 1}


def called(name, f, table):
    """The type of the result of a function that another calls."""
    return table.get(name if "::" in name else "%s::%s" % (f.crate, name), "")


def widened(f, table):
    """The casts of a function that From would make, by source and aim."""
    local = dict(f.params)
    for found in re.finditer(r"(\w+::\w+)\(([\w, ]+)\) =>", f.body):
        for name, of in zip(split(found.group(2), ","), table.get(found.group(1), ())):
            local[name] = of
    for found in re.finditer(r"\blet (?:mut )?(\w+) = (?:(\w+)\[\w+\]|((?:\w+::)?\w+\())", f.body):
        if found.group(2):
            local[found.group(1)] = element(local.get(found.group(2), ""))
        elif found.group(3):
            local[found.group(1)] = called(found.group(3), f, table)
    for found in re.finditer(r"\blet (\w+) = \w+\.(\w+);", f.body):
        local[found.group(1)] = table.get("." + found.group(2), "")
    casts = []
    for found in re.finditer(r" as (u16|u32|u64|usize)\b", f.body):
        before = f.body[:found.start()]
        at = len(before)
        while at and (before[at - 1] in ")]" or re.match(r"[\w.:]", before[at - 1])):
            if before[at - 1] in ")]":
                depth = 0
                while at:
                    at -= 1
                    depth += (before[at] in ")]") - (before[at] in "([")
                    if depth == 0:
                        break
            else:
                at -= 1
        term = before[at:].strip()
        inside = re.match(r"\((\w+) [-%/] \w+\)$", term)
        name = inside.group(1) if inside else term
        call = re.match(r"((?:\w+::)?\w+\()", name)
        if call:
            of = called(call.group(1), f, table)
        elif re.match(r"\w+\[.*\]$", name):
            of = element(local.get(name.split("[")[0], ""))
        elif "." in name:
            of = table.get("." + name.split(".")[-1], "")
        else:
            of = local.get(name, "")
        if found.group(1) in WIDER.get(of, ()):
            casts.append("%s as %s" % (of, found.group(1)))
    return casts


def element(kind):
    found = re.match(r"(?:&(?:mut )?)?\[(\w+)", kind)
    return found.group(1) if found else ""


def by_hand(functions, types):
    """Point 4."""
    table = known(functions, types)
    for f in functions:
        for pattern, what in HAND:
            if re.search(pattern, f.body) and not (f.name == "same_bytes" and "a call" in what):
                yield f, what
        casts = widened(f, table)
        if casts:
            yield f, "%d widening casts that From makes: %s" % (len(casts), ", ".join(sorted(set(casts))))


def together(functions, types):
    """Point 5."""
    for crate in sorted({f.crate for f in functions}):
        mine = [f for f in functions if f.crate == crate and len(f.params) >= 3]
        sets = {frozenset(f.params) for f in mine}
        while True:
            more = {a & b for a in sets for b in sets if len(a & b) >= 3} - sets
            if not more:
                break
            sets |= more
        ranked = []
        for s in sets:
            has = [f for f in mine if s <= set(f.params)]
            if len(has) >= 3:
                ranked.append((-len(s) * len(has), sorted(s), has))
        covered = set()
        for _, s, has in sorted(ranked, key=lambda r: (r[0], r[1])):
            fresh = [f for f in has if (f.path, f.line) not in covered]
            if fresh:
                covered.update((f.path, f.line) for f in has)
                order = [p for p in has[0].params if p in s]
                yield has[0], "%s go together in %d functions: %s" % (", ".join("%s: %s" % p for p in order), len(has), ", ".join(f.name for f in has))
        facts = collections.defaultdict(list)
        for f in functions:
            if f.crate == crate:
                for fact in {re.sub(r"^\((.*)\)$", r"\1", part) for text in f.requires for part in split(text.replace("<", "‹"), "×")}:
                    facts[fact].append(f)
        for fact, has in sorted(facts.items()):
            if len(has) >= 3:
                yield has[0], "required in %d functions: %s: %s" % (len(has), fact, ", ".join(f.name for f in has))


def buffers(functions, types):
    """Point 6."""
    for f in functions:
        names = dict(f.params)
        bytes_in = [n for n, t in f.params if re.match(r"&\[u8", t)]
        out = [n for n, t in f.params if re.match(r"&mut \[u8|&\[u8; 4096\]", t)]
        numbers = [n for n, t in f.params if t in ("usize", "Place")]
        if out and "image" not in names and {"at", "to", "start"} & set(numbers):
            yield f, "an output with the place from which it is written"
        if numbers == ["n"] and (out and not bytes_in or bytes_in == ["out"]):
            yield f, "an output with the number of its bytes that count"
        pairs = [p for p in (("start", "end"), ("start", "over"), ("p", "end"), ("p", "size"), ("at", "n"), ("from", "cut"), ("start", "n")) if set(p) <= set(numbers)]
        if bytes_in and pairs:
            yield f, "a part of a slice by %s beside it" % " and ".join(pairs[0])
        for found in re.finditer(r"let mut (\w+) = \[0u8; (\d+)\]", f.body):
            name = found.group(1)
            line = inside(f, found.start())
            if re.search(r"part_of\(&%s, 0, |&%s\[\.\.[^\]]|&%s\[\w+\.\.\]" % (name, name, name), f.body):
                yield f._replace(line=line), "a local array of bytes, %s, with its length beside it" % name
            elif re.search(r"\b%s\[\w+\] = 1;" % name, f.body):
                yield f._replace(line=line), "a set of codes as an array of bytes 0 and 1"
            elif re.search(r"&mut %s\b|&%s, \w+\)" % (name, name), f.body) and re.search(r"_put\b|taken", f.body):
                yield f._replace(line=line), "a local array of bytes, %s, with its length beside it" % name
        if any(t == "&[u8; 256]" and n == "seen" for n, t in f.params):
            yield f, "a set of codes as an array of bytes 0 and 1"
        if len([1 for _, t in f.params if re.match(r"&\[u\d+; 256\]", t)]) >= 3 or len(re.findall(r"let \w+ = (?:AHEAD|REMAINDERS)\w+;", f.body)) >= 3:
            yield f, "parallel arrays: four tables that are read together"
        if "wanted" in names and re.search(r"\b(?:while|for|loop)\b", f.body):
            yield f, "a sorted list gone through by hand for one of its numbers"
        if re.search(r"\.len\(\) / \d|\.len\(\) - at\) / \d|\b\d <= \w+\.len\(\) - at", f.body):
            yield f, "records of a fixed size counted by a length: chunks_exact"


def switches(functions, types):
    """Point 7."""
    steps = [t.name for t in types if t.word == "enum" and any(n == "Nothing" and not of for n, of in t.parts)]
    for f in functions:
        found = re.search(r"match [\w.*]+ \{(?=\s*Format::)", f.body)
        if found:
            arms = re.findall(r"Format::\w+ => (\{?[^,]*)", f.body[found.end():])
            calls = any(re.search(r"[a-z_]\(", arm) for arm in arms)
            yield f, "a match on Format that chooses %s" % ("a function" if calls else "a value")
        for step in steps:
            if re.search(r"\b%s::\w+(?:\(\w+\))? =>" % step, f.body):
                yield f, "a match on %s, which says what step to run" % step
        if re.search(r"if words (?:==|<=)", f.body):
            yield f, "a chain of ifs that chooses a function by a size"
        if re.search(r"\[fn\(|: fn\(|\[&dyn ", f.body):
            yield f, "a table of functions"


def main(arguments):
    commit = None
    if "--at" in arguments:
        at = arguments.index("--at")
        commit = arguments[at + 1]
        del arguments[at:at + 2]
    counts = "--counts" in arguments
    rest = [a for a in arguments if a != "--counts"]
    root = rest[0] if rest else os.path.dirname(os.path.dirname(os.path.abspath(__file__)))
    functions, types = [], []
    for path, raw in sources(root, commit):
        fs, ts = read(path, raw)
        functions += fs
        types += ts
    rules = [own_enums, twins, loops, by_hand, together, buffers, switches]
    table = collections.defaultdict(collections.Counter)
    for point, rule in zip(POINTS, rules):
        for of, what in sorted(rule(functions, types), key=lambda p: (p[0].path, p[0].line, p[1])):
            table[of.crate][point] += 1
            if not counts:
                print("%d  %s:%d  %s  %s" % (point, of.path, of.line, of.name, what))
    if counts:
        print("| Crate | %s |" % " | ".join(str(p) for p in POINTS))
        print("|---|%s" % ("---:|" * len(POINTS)))
        for crate in sorted(table):
            print("| %s | %s |" % (crate, " | ".join(str(table[crate][p]) for p in POINTS)))
        print("| all | %s |" % " | ".join(str(sum(table[c][p] for c in table)) for p in POINTS))


if __name__ == "__main__":
    main(sys.argv[1:])
