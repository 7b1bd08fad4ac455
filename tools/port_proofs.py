#!/usr/bin/env python3
"""Turns the proofs that walk the code by hand into Invariants.antt and Answers.antt.

usage: python3 tools/port_proofs.py NAMES CRATE [FUNCTION..]      at the top of the repository

NAMES is the folder to which `rt check --generated NAMES --old-names` of that crate wrote names.json, which has each goal's and each step's old
and new name. A Proof.antt that is turned goes; what could not be turned is printed.
"""

import json
import os
import re
import sys

WORD = r"[A-Za-z\u0370-\u03ff_][\w'\u2080-\u2089-]*"
PATH = re.compile(rf"(?<![\w.'-])c((?:\.[\w'-]+)*)(?![\w'-])")


def norm(word):
    return word.replace("-", "_").lower()


def blocks(text):
    """The file's head, and its declarations, each with the remarks above it."""
    lines = text.rstrip("\n").split("\n")
    head, at = [], 0
    while at < len(lines) and (lines[at].startswith(("--", "use ")) or not lines[at].strip()):
        head.append(lines[at])
        at += 1
    # remarks that stand right above the first declaration belong to it
    own = []
    while head and head[-1].startswith("--") and len(head) > 1 and any(x.startswith("use ") for x in head):
        own.insert(0, head.pop())
    found, now = [], own
    for line in lines[at:]:
        starts = re.match(rf"^(?:abbrev |pub |unfoldable )*{WORD} :", line) or (line.startswith("--") and now and not now[-1].startswith("--"))
        if starts and now and not all(x.startswith("--") for x in now):
            found.append(now)
            now = []
        now.append(line)
    if now:
        found.append(now)
    return head, [[x for x in b] for b in found]


class Turner:
    def __init__(self, crate, spelled, data):
        self.crate, self.spelled, self.data, self.said = crate, spelled, data, []
        self.steps, self.callees, self.arms, self.typed = {}, {}, {}, {}
        for place, _, (old, new), callee, _ in data["places"]:
            if old:
                self.steps[norm(old)] = new
                if callee:
                    self.callees[new] = data["params"].get(callee, [])
        for (old, new), _ in data["loops"]:
            self.steps[norm(old)] = new
        for arm in data["arms"]:
            for field, step, path in (arm[2] if arm else []):
                if path:
                    self.arms.setdefault((norm(step), tuple(path)), f"{arm[0]}.{field}")
        for place in data["typed"]:
            for var, step in place:
                self.typed.setdefault(norm(step), var)

    def path(self, m):
        parts = [p for p in m.group(1).split(".")[1:] if p != "before"]
        if not parts:
            return "c"
        step = norm(parts[0])
        for n in range(len(parts), 1, -1):
            arm = self.arms.get((step, tuple(parts[1:n])))
            if arm:
                return ".".join(["c", arm, *parts[n:]])
        if step in self.typed and len(parts) > 1 and parts[1] == "given":
            return ".".join(["c.type_inv", self.typed[step], *parts[2:]])
        if step in self.steps:
            parts[0] = self.steps[step]
            if len(parts) > 2 and parts[1] == "new" and parts[2].isdigit():
                # the values that a call leaves were a list of pairs: .0, .1.0, .1.1.0
                given, n = self.callees.get(parts[0], []), 0
                while len(parts) > 3 and parts[2] == "1":
                    n += 1
                    parts.pop(2)
                if parts[2] == "0" and n < len(given):
                    parts[2] = given[n]
                else:
                    self.said.append(f"what the call {parts[0]} leaves: {m.group(0)}")
        elif step not in ("args", "requires", "ranges", "type_inv"):
            self.said.append(f"no step {parts[0]}: {m.group(0)}")
        return ".".join(["c", *parts])

    def flat(self, text):
        """A text in which every place of the code is `c` itself."""
        while True:
            text = PATH.sub(lambda m: "c" + "".join("." + p for p in m.group(1).split(".")[1:] if p != "before"), text)
            m = re.search(rf"let ({WORD}) = c in[ \n]*", text)
            if not m:
                break
            name, rest = m.group(1), text[m.end():]
            rest = re.sub(rf"(?<![\w.'-]){re.escape(name)}(?![\w'-])", "c", rest)
            text = text[:m.start()] + rest
        return text

    def turn(self, text):
        return PATH.sub(self.path, text)


def split(block):
    """Of a declaration: its remarks, its marks and name, its type, its `unfolding` line, its parameters and its body."""
    remarks = [x for x in block if x.startswith("--")]
    lines = [x for x in block if not x.startswith("--")]
    while lines and not lines[-1].strip():
        lines.pop()
    if not lines:
        return remarks, "", "", "", [], None, ""
    m = re.match(rf"^((?:abbrev |pub |unfoldable )*)({WORD}) : (.*)$", lines[0])
    marks, name, kind = m.groups()
    at = 1
    while at < len(lines) and not lines[at].startswith(("unfolding", name + " ", name + " =")):
        kind += "\n" + lines[at]
        at += 1
    unfolding = []
    while at < len(lines) and lines[at].startswith("unfolding"):
        unfolding.append(lines[at])
        at += 1
    body = "\n".join(lines[at:])
    m = re.match(rf"^{re.escape(name)}((?: [^\s=]+)*) =(.*)$", body, re.S)
    if not m:
        return remarks, marks, name, kind, unfolding, None, body
    return remarks, marks, name, kind, unfolding, m.group(1).split(), m.group(2)


def arguments(text):
    """The arguments of tie.spec, as texts."""
    at = text.index("tie.spec") + len("tie.spec")
    found, depth, now = [], 0, ""
    while at < len(text):
        ch = text[at]
        if ch == ")" and depth == 0:
            break
        depth += ch == "("
        depth -= ch == ")"
        if ch.isspace() and depth == 0:
            if now:
                found.append(now)
            now = ""
        else:
            now += ch
        at += 1
    if now:
        found.append(now)
    return found


def invariant(turner, which, body, params, loop, changed):
    """An invariant or a measure, of `l`."""
    (old, new), names = loop
    spelled = []
    for name, moves in zip(names, changed):
        spelled.append((name + "\u2080" if moves else name, f"l.initial.{name}" if moves else f"l.{name}"))
    spelled += [(name, f"l.{name}") for name, moves in zip(names, changed) if moves]
    if len(params) != len(spelled):
        turner.said.append(f"{which}-{new} has {len(params)} parameters and not {len(spelled)}")
    for given, (_, said) in zip(params, spelled):
        body = re.sub(rf"(?<![\w.'-]){re.escape(given)}(?![\w'\u2080-\u2089-])", "\x01" + said[1:], body)
    return body.replace("\x01", "l")


def turn_file(crate, path, data):
    with open(path, encoding="utf-8") as f:
        text = f.read()
    head, decls = blocks(text)
    where = os.path.dirname(path).split("/proofs/", 1)[1].replace("/", ".")
    turner = Turner(crate, where, data)
    parts = [split(b) for b in decls]
    close = [p for p in parts if "tie.close" in p[6]]
    if not close:
        return None, None, ["no tie.close"]
    spec = arguments(close[0][6])
    loops, changed = data["loops"], data["changed"]
    uses = [x for x in head if x.startswith("use ") and ".Statement.{" not in x and " as tie" not in x]
    title = [x for x in head if x.startswith("--")]
    own = {p[2]: p for p in parts if p is not close[0]}

    # the invariants come first, two for each loop; then a goal each
    invs = [p for p in parts if re.match(r"tie\.(invariant|decreases|Inv|Measure)", p[3])]
    taken = set(p[2] for p in invs)
    goals = [a for a in spec if a not in taken]
    needs = data["needs"]
    goal_of = {}
    for p in parts:
        m = re.match(rf"tie\.Need-({WORD}|[\w-]+)", p[3])
        if not m:
            continue
        said = norm(m.group(1))
        for old, new in needs:
            if said in (norm(old), norm(new)):
                goal_of[p[2]] = new
                break
    if len(goals) == len(needs):
        for a, (old, new) in zip(goals, needs):
            if a in own:
                if goal_of.get(a, new) != new:
                    turner.said.append(f"{a}: by its type {goal_of[a]}, by its place {new}")
                goal_of[a] = new
    else:
        turner.said.append(f"{len(goals)} answers for {len(needs)} goals")

    # helpers that take a place
    places, valued, plain = {}, {}, []
    for p in parts:
        if p in invs or p is close[0] or p[2] in goal_of:
            continue
        m = re.match(rf"^(?:\(({WORD}) : tie\.[\w-]+(?: {WORD})*\)|tie\.[\w-]+(?: {WORD})*)\s*\u2192\s*(.*)$", p[3], re.S)
        if m and p[5] and len(p[5]) == 1:
            name = p[5][0]
            result = m.group(2)
            body = p[6]
            if m.group(1) and m.group(1) != "c":
                result = re.sub(rf"(?<![\w.'-]){re.escape(m.group(1))}(?![\w'-])", "c", result)
            if name != "c":
                body = re.sub(rf"(?<![\w.'-]){re.escape(name)}(?![\w'-])", "c", body)
            if result.startswith("tie."):
                places[p[2]] = body
            else:
                valued[p[2]] = (result, body, p[4])
        elif m:
            turner.said.append(f"{p[2]} takes a place and more")
            plain.append(p)
        else:
            plain.append(p)

    def simple(text):
        text = turner.flat(text)
        before = None
        while before != text:
            before = text
            for name in places:
                text = re.sub(rf"\((?:{re.escape(name)}) c\)", "c", text)
                text = re.sub(rf"(?<![\w.'-]){re.escape(name)} c(?![\w.'-])", "c", text)
                text = turner.flat(text)
        for name in valued:
            text = re.sub(rf"\({re.escape(name)} c\)", name, text)
            text = re.sub(rf"(?<![\w.'-]){re.escape(name)} c(?![\w.'-])", name, text)
        return text

    def with_helpers(text, extra):
        """The helpers that a text uses, as lets above it."""
        text = simple(text)
        needed = []

        def visit(t):
            for name, (result, body, unf) in valued.items():
                if re.search(rf"(?<![\w.'-]){re.escape(name)}(?![\w'-])", t) and name not in [n for n, _, _ in needed]:
                    r, b = simple(result), simple(body)
                    visit(r)
                    visit(b)
                    extra.extend(unf)
                    needed.append((name, r, b))

        visit(text)
        lets = ""
        for name, r, b in needed:
            r = " ".join(r.split())
            r = f"({r})" if r.startswith("let ") else r
            lets += f"\n    let {name} : {r} =" + (b if b.startswith("\n") else b) + " in"
        body = text
        if lets:
            body = lets + (("\n    " + body.strip()) if not body.startswith("\n") else body)
        return turner.turn(body)

    invariants = []
    for p in invs:
        kind = "invariant" if re.match(r"tie\.(invariant|Inv)", p[3]) else "decreases"
        said = re.match(r"tie\.(?:invariant|decreases|InvT|MeasureT)[_-]([\w-]+)", p[3])
        said = norm(said.group(1)) if said else "loop"
        chosen = [k for k, ((old, new), _) in enumerate(loops) if said in (norm(old), norm(new))]
        if not chosen:
            turner.said.append(f"no loop {said}")
            continue
        k = chosen[0]
        new = loops[k][0][1]
        body = invariant(turner, kind, p[6], p[5] or [], loops[k], changed[k])
        invariants += p[0] + [f"abbrev pub {kind}-{new} : goal.{kind}-{new}"] + p[4] + [f"{kind}-{new} l ={body}", ""]

    answers = []
    for p in plain:
        if p[5] is None:
            answers += p[0] + [f"{p[1]}{p[2]} : {p[3]}"] + p[4] + [p[6], ""]
        else:
            answers += p[0] + [f"{p[1]}{p[2]} : {p[3]}"] + p[4] + [" ".join([p[2], *p[5]]) + " =" + p[6], ""]
    done = set()

    def answer(new, remarks, unfolding, params, body):
        if new in done:
            turner.said.append(f"{new} answered twice")
        done.add(new)
        if params and params[0] != "c":
            body = re.sub(rf"(?<![\w.'-]){re.escape(params[0])}(?![\w'-])", "c", body)
        if len(params) > 1 and re.search(rf"(?<![\w.'-]){re.escape(params[1])}(?![\w'-])", body):
            turner.said.append(f"{new} uses {params[1]}")
        extra = []
        body = with_helpers(body, extra)
        if extra:
            words = []
            for x in unfolding + extra:
                words += [w for w in x.split()[1:] if w not in words]
            unfolding = ["unfolding " + " ".join(words)]
        body = body.replace("search rules", "search rules")
        return remarks + [f"pub {new} : goal.{new}"] + unfolding + [f"{new} c ={body}", ""]

    for p in parts:
        if p[2] in goal_of and p[5] is not None:
            answers += answer(goal_of[p[2]], p[0], p[4], p[5], p[6])
        elif p[2] in goal_of:
            turner.said.append(f"{p[2]} has no single equation")
    if len(goals) == len(needs):
        for a, (old, new) in zip(goals, needs):
            m = re.match(r"^\(\u03bb (c(?: \S+)?)\. (.*)\)$", a, re.S)
            if m and m.group(2).strip() != "search rules":
                answers += answer(new, [], [], m.group(1).split(), " " + m.group(2))
    full = f"Rattle.{crate}.proofs.{where}"
    inv_text = ans_text = None
    if invariants:
        inv_text = "\n".join(title + uses + [f"use {full}.Given as goal", ""] + invariants).rstrip("\n") + "\n"
    if answers:
        ans_text = "\n".join(title + uses + [f"use {full}.Goals as goal", ""] + answers).rstrip("\n") + "\n"
    return inv_text, ans_text, turner.said


def main():
    names, crate, only = sys.argv[1], sys.argv[2], sys.argv[3:]
    with open(os.path.join(names, "names.json"), encoding="utf-8") as f:
        data = json.load(f)
    top = f"crates/{crate}/proofs"
    for folder, _, files in sorted(os.walk(top)):
        if "Proof.antt" not in files:
            continue
        where = folder[len(top) + 1:].replace("/", ".")
        if only and where not in only:
            continue
        key = f"Rattle-{crate}-proofs.{where}.Lts"
        if key not in data:
            print(f"{crate} {where}: no names")
            continue
        inv, ans, said = turn_file(crate, os.path.join(folder, "Proof.antt"), data[key])
        for x in said:
            print(f"{crate} {where}: {x}")
        if "no tie.close" in said:
            continue
        for name, text in (("Invariants.antt", inv), ("Answers.antt", ans)):
            if text:
                with open(os.path.join(folder, name), "w", encoding="utf-8") as f:
                    f.write(text)
        os.remove(os.path.join(folder, "Proof.antt"))
        if not inv and not ans:
            os.rmdir(folder)


if __name__ == "__main__":
    main()
