#!/usr/bin/env python3
"""Brings the repository's own definitions and lemmas to the kit's spelling, once, right after port.py.

usage: python3 tools/port_names.py [--check]      at the top of the repository; --check only prints what would fall together

The rules are those of the kit's guide to contracts, "Names": everything but types and modules is in snake case; a dash joins two names, as in
`length-over`, and a plain word is added with `_`, as in `row_of_low`. Functions of src/, exported names, strings, inputs and outputs keep theirs.
"""

import os
import re
import sys

WORD = re.compile(r"[A-Za-z\u0370-\u03ff_][\w'\u2080-\u2089-]*")
USE = re.compile(r"^\s*use ([^\s{]+?)\.?(?:\{([^}]*)\}.*| as (\S+))?$")
TEXT = re.compile(r'"(?:[^"\\]|\\.)*"')
TICKED = re.compile(r"`[^`]*`")
# Words of the library that stand in names of lemmas as themselves.
LIBRARY = {"length", "take", "drop", "set", "replicate", "get_or", "append", "bit"}
# What port.py had joined by `_` since a library has the same spelling, though both parts are names.
JOINED = {"length_over": "length-over", "length_part": "length-part", "length_pairs": "length-pairs"}
# Lemmas that would have the name of the definition that they are about.
LEMMAS = {"at-column", "control-of", "isCell-of", "items-of", "nulls-of", "restored-of", "show-of", "stepped-back", "with-pen"}


def files(ends):
    for folder, dirs, names in os.walk("crates"):
        dirs[:] = sorted(d for d in dirs if d != "out")
        for name in sorted(names):
            if name.endswith(ends):
                yield os.path.join(folder, name)


def read(path):
    with open(path, encoding="utf-8") as f:
        return f.read()


def snake(part):
    return re.sub(r"(?<=[a-z0-9])([A-Z])", lambda m: "_" + m.group(1).lower(), part)


def is_camel(part):
    return part[:1].islower() and any(c.isupper() for c in part)


def turned(word, names):
    """The new spelling of a word: parts in snake case, a dash kept between two names and `_` elsewhere."""
    word = JOINED.get(word, word + "-lem" if word in LEMMAS else word)
    parts = word.split("-")
    if any(not p for p in parts):
        return word
    out = snake(parts[0]) if is_camel(parts[0]) else parts[0]
    for left, right in zip(parts, parts[1:]):
        both = left in names and right in names
        out += ("-" if both else "_") + (snake(right) if is_camel(right) else right)
    return out


def declared(text):
    for line in text.split("\n"):
        m = re.match(r"^(?:abbrev |unfoldable )?pub (?:record |data )?([A-Za-z][\w'-]*)", line)
        if m and m.group(1) not in ("mod", "use", "module"):
            yield m.group(1)


def imported(text):
    """The words that a file has from the kit, and the names that it gives modules."""
    words = set()
    for line in text.split("\n"):
        m = USE.match(line)
        if not m:
            continue
        if m.group(3):
            words.add(m.group(3))
        own = re.match(r"Rattle\.(\w+)\.", line.strip()[4:])
        if own and os.path.isdir(os.path.join("crates", own.group(1))):
            continue
        words.update(w.strip() for w in (m.group(2) or "").split(",") if w.strip())
    return words


def fields():
    """The fields of the repository's own records, which may stand behind a dot."""
    found = set()
    for path in files(".antt"):
        inside = False
        for line in read(path).split("\n"):
            if re.match(r"^\s*(pub )?record ", line):
                inside = True
            elif inside and not line.strip():
                inside = False
            elif inside:
                m = re.match(r"^\s+(?:pub )?([a-z][\w'-]*(?: [a-z][\w'-]*)*) :", line)
                if m:
                    found.update(m.group(1).split())
    return found


def goals(text):
    """What a proof by hand calls after the goals of its function."""
    return set(re.findall(r"^([A-Za-z\u0370-\u03ff][\w'-]*) : tie\.", text, re.M))


def turn_code(text, keep, own_fields, names, said):
    out, at = [], 0
    for m in WORD.finditer(text):
        word = m.group(0)
        behind = text[m.start() - 1] if m.start() else " "
        if word in keep or (behind == "." and word not in own_fields) or word.startswith("_"):
            continue
        if not (is_camel(word.split("-")[0]) or "-" in word or word in JOINED):
            continue
        new = turned(word, names)
        if new != word:
            said.setdefault(new, set()).add(word)
            out.append(text[at:m.start()])
            out.append(new)
            at = m.end()
    out.append(text[at:])
    return "".join(out)


def turn_line(line, mark, keep, own_fields, names, said):
    """A line: its code, and of a remark or a string only what stands between backticks."""
    if line.lstrip().startswith(mark):
        return TICKED.sub(lambda m: turn_code(m.group(0), keep, own_fields, names, said), line)
    out, at = [], 0
    for m in TEXT.finditer(line):
        out.append(turn_code(line[at:m.start()], keep, own_fields, names, said))
        out.append(m.group(0))
        at = m.end()
    out.append(turn_code(line[at:], keep, own_fields, names, said))
    return "".join(out)


def turn(text, mark, keep, own_fields, names, said):
    lines = []
    for line in text.split("\n"):
        m = USE.match(line) if mark == "--" else None
        own = m and re.match(r"\s*use Rattle\.(\w+)\.", line)
        if m and not (own and os.path.isdir(os.path.join("crates", own.group(1)))):
            lines.append(line)
        else:
            lines.append(turn_line(line, mark, keep, own_fields, names, said))
    return "\n".join(lines)


def main():
    check = "--check" in sys.argv
    names = set(LIBRARY)
    for path in files(".antt"):
        if "/specs/" in path:
            names.update(declared(read(path)))
    own_fields, said, before = fields(), {}, set()
    written = {}
    for path in files((".antt", ".rt")):
        text = read(path)
        before.update(WORD.findall(text))
        keep = imported(text) | goals(text)
        mark = "--" if path.endswith(".antt") else "//"
        written[path] = turn(text, mark, keep, own_fields, names, said)
    for new, olds in sorted(said.items()):
        if len(olds) > 1 or new in before:
            print("together:", new, "<-", " ".join(sorted(olds)), "(stands already)" if new in before else "")
    if check:
        for new, olds in sorted(said.items()):
            print(" ".join(sorted(olds)), "->", new)
        return
    for path, text in written.items():
        with open(path, "w", encoding="utf-8") as f:
            f.write(text)


if __name__ == "__main__":
    main()
