#!/usr/bin/env python3
"""Brings the repository's own names to one spelling: definitions, lemmas, fields and variables in snake case.

Run once, at the top, after the kit's own script: `setNumber` and `set-number` become `set_number`. Names of the kit and
names that the kit makes keep theirs, as do the names of src/, strings, and comments that speak of neither.
"""
import collections
import pathlib
import re
import sys

WORD = re.compile(r"(?<![\w'-])[A-Za-zα-κμ-ωΑ-Ω][\w'-]*")
CAMEL = re.compile(r"^[a-z][a-z0-9_']*[A-Z]")
USE = re.compile(r"^\s*(?:pub )?(?:ghost )?use\s+([\w.'«»-]+?)(?:\.\{([^}]*)\}|\s+as\s+([\w'-]+))?\s*;?\s*$", re.M)
KIT = ("Rattle.std", "mathlib", "Prim", "native", "lib", "borrow", "seplogic", "mir", "types", "denote", "base", "logic",
       "exec", "std", "core")
# Lemmas in snake case already, each of which would have the name of its function: the crate, the lemma.
LEMMAS = {"counters": {"goes_on"}, "ordered": {"goes_on", "one_more"}}
RESERVED = set("data record deriving module where use mod pub package open as unfoldable abbrev axiom unfold unfolding "
               "ruleset mutual infix infixl infixr elim let in do Type coe fcoe tcoe hcom com result".split())


def snake(name):
    if "-" in name or CAMEL.match(name):
        name = name.replace("-", "_")
        if CAMEL.match(name):
            name = re.sub(r"(?<=[a-z0-9'])([A-Z])(?=[a-z0-9_']|$)", lambda m: "_" + m.group(1).lower(), name)
            name = re.sub(r"__+", "_", name)
    return name


def imports(text):
    """Names that a file takes from the kit, and where its other names come from."""
    kit, own = set(), set()
    for module, names, alias in USE.findall(text):
        top = module.split(".")[0]
        there = kit if module.startswith(KIT) or top in KIT else own
        for part in re.split(r"[,\s]+", names or ""):
            if part and part != "as":
                there.add(part)
        if alias:
            own.add(alias)
    # `a as b` in a list: b is the file's own
    for m in re.finditer(r"([\w'-]+)\s+as\s+([\w'-]+)", text):
        kit.discard(m.group(2))
        own.add(m.group(2))
    return kit, own


def is_walk(path):
    return "proofs" in path.parts and (
        path.name in ("Proof.antt", "Answers.antt", "Invariants.antt") or "Calls" in path.parts)


def wants(name):
    return snake(name) != name and snake(name) not in RESERVED and "--" not in name


def split_comment(line, mark):
    at = line.find(mark)
    return (line, "") if at < 0 else (line[:at], line[at:])


def clauses(text):
    """The parts of a .rt file that are contracts: [(start, end)]."""
    found = []
    for m in re.finditer(r"\b(?:requires|ensures|decreases)\*?(?:\s+\w+)?\s*\{|\bghost use [^;]*;|\bghost [\w ]*[:{][^;]*[;}]", text):
        if m.group(0).startswith("ghost use"):
            found.append((m.start(), m.end()))
            continue
        depth, i = 0, m.start()
        while i < len(text):
            if text[i] == "{":
                depth += 1
            elif text[i] == "}":
                depth -= 1
                if depth == 0:
                    break
            i += 1
        found.append((m.start(), i + 1))
    return found


def main():
    top = pathlib.Path(".")
    antt = sorted(p for p in top.glob("crates/**/*.antt") if "out" not in p.parts)
    texts = {p: p.read_text() for p in antt}
    names = set()
    for p, text in texts.items():
        if is_walk(p):
            continue
        kit, _ = imports(text)
        code = "\n".join(split_comment(l, "--")[0] for l in text.split("\n"))
        names |= {w for w in WORD.findall(code) if wants(w) and w not in kit}
    # "A lemma that would have its function's name gets `_lem`": of two that fall together the one with a dash.
    taken = {snake(w) for w in names if "-" not in w}
    for p, text in texts.items():
        if not is_walk(p):
            code = "\n".join(split_comment(l, "--")[0] for l in text.split("\n"))
            taken |= {w for w in WORD.findall(code) if snake(w) == w}
    spelled = {w: snake(w) + ("_lem" if "-" in w and snake(w) in taken else "") for w in names}
    # a name that some file takes from the kit is the kit's there, and ours elsewhere
    changed = {}
    clashes = collections.defaultdict(set)
    for p, text in texts.items():
        kit, _ = imports(text)
        mine = names - kit
        lemmas = LEMMAS.get(p.parts[1], set())
        out = []
        present = set()
        for line in text.split("\n"):
            code, comment = split_comment(line, "--")
            present |= {w + "_lem" if w in lemmas else w for w in WORD.findall(code)}
            code = WORD.sub(lambda m: m.group(0) + "_lem" if m.group(0) in lemmas else m.group(0), code)
            code = WORD.sub(lambda m: spelled[m.group(0)] if m.group(0) in mine else m.group(0), code)
            comment = re.sub(r"`([\w'-]+)`", lambda m: "`" + (spelled[m.group(1)] if m.group(1) in mine else m.group(1)) + "`", comment)
            comment = WORD.sub(lambda m: spelled[m.group(0)] if m.group(0) in mine and CAMEL.match(m.group(0)) else m.group(0), comment)
            out.append(code + comment)
        if not is_walk(p):
            by = collections.defaultdict(set)
            for w in present:
                by[spelled[w] if w in mine else w].add(w)
            for new, olds in by.items():
                if len(olds) > 1:
                    clashes[(new, tuple(sorted(olds)))].add(str(p))
        changed[p] = "\n".join(out)
    for p in sorted(top.glob("crates/*/src/**/*.rt")):
        text = p.read_text()
        kit, _ = imports(text)
        mine = names - kit
        out, last = [], 0
        for a, b in clauses(text):
            if a < last:
                continue
            out.append(text[last:a])
            part = text[a:b]
            new = WORD.sub(lambda m: spelled[m.group(0)] if m.group(0) in mine else m.group(0), part)
            by = collections.defaultdict(set)
            for w in WORD.findall(part):
                by[spelled[w] if w in mine else w].add(w)
            for n, olds in by.items():
                if len(olds) > 1:
                    clashes[(n, tuple(sorted(olds)))].add(str(p))
            out.append(new)
            last = b
        out.append(text[last:])
        text = "".join(out)
        text = re.sub(r"(?m)//.*$", lambda c: WORD.sub(
            lambda m: spelled[m.group(0)] if m.group(0) in mine and CAMEL.match(m.group(0)) else m.group(0), c.group(0)), text)
        changed[p] = text
    # the pages, and the edits of definitions
    pages = [top / "README.md", *sorted(top.glob("docs/*.md"))]
    for p in pages:
        text = p.read_text()
        changed[p] = re.sub(r"`([^`\n]+)`", lambda c: "`" + WORD.sub(
            lambda m: spelled[m.group(0)] if m.group(0) in names else m.group(0), c.group(1)) + "`", text)
    for p in sorted([*top.glob("crates/*/must-fail/*.edit"), *top.glob("tools/edits/*/*.edit")]):
        text = p.read_text()
        changed[p] = "\n".join(
            re.sub(r"^((?:old|new): ?)(.*)$", lambda c: c.group(1) + WORD.sub(
                lambda m: spelled[m.group(0)] if m.group(0) in names else m.group(0), c.group(2)), line)
            for line in text.split("\n"))
    for (new, olds), where in sorted(clashes.items()):
        print(f"together: {new}: {', '.join(olds)}: {', '.join(sorted(where))}")
    if "--dry" in sys.argv:
        return
    count = 0
    for p, text in changed.items():
        if text != p.read_text():
            p.write_text(text)
            count += 1
    print(f"respelled: {len(names)} names, {count} files")


if __name__ == "__main__":
    main()
