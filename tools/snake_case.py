#!/usr/bin/env python3
"""Spells this repository's own definitions and lemmas as Rattle spells its words: in snake case.

usage: python3 tools/snake_case.py [ROOT]

Run once, after port.py of Rattle's kit, on the tree that it left. A name counts as ours where a file of specs/ or proofs/ other than a Proof.antt declares it;
names that Rattle makes, names of src/, exported C names, strings, inputs and outputs are left. Where a definition and a lemma fall together, the lemma ends
in `_lem`. Prints each place where two names would fall together in one file, and changes nothing then.
"""
import collections
import glob
import json
import os
import re
import sys

ROOT = sys.argv[1] if len(sys.argv) > 1 else "."
MODS = r"(?:(?:pub|private|abbrev|unfoldable|opaque)\s+)*"
ID = r"[^\s(){}\[\].,;:@\"λ`|]+"
WORD = re.compile(ID)
SIGNED = re.compile(r"\s*(" + MODS + r")((?:" + ID + r"\s+)*" + ID + r")\s+:\s")
LIBRARY = "/opt/rattle"

# lemmas that would fall together with the word that they are about
LEMMAS = {n: n.replace("-", "_") + "_lem" for n in ("first-of", "all-below", "is-nan", "nan-bits", "rest-of")}
# the same where port.py had spelled the lemma already: in all files of proofs and definitions, or in one
SPELLED = {"fit_refused": "fit_refused_lem", "held_by": "held_by_lem"}
SPELLED_IN = {"stakebook/specs/PrintedLaws.antt": {"told_text": "told_text_lem"}, "solve/specs/CornerLaws.antt": {"right_of": "right_of_lem"}}


def files(*kinds):
    for folder, dirs, names in os.walk(os.path.join(ROOT, "crates")):
        dirs[:] = sorted(d for d in dirs if d != "out")
        for name in sorted(names):
            if name.endswith(kinds):
                yield os.path.join(folder, name)


def declared(path):
    """The names that a file of definitions or lemmas declares, each with whether it is a definition (abbrev, unfoldable, a field, a type)."""
    with open(path, encoding="utf-8") as f:
        for line in f:
            if line.lstrip().startswith("--"):
                continue
            m = SIGNED.match(line)
            if m:
                for name in m.group(2).split():
                    yield name, "abbrev" in m.group(1) or "unfoldable" in m.group(1)


def library():
    """The names that the library declares."""
    names = set()
    for top in ("rattle", "logic_built"):
        for folder, _, found in os.walk(os.path.join(LIBRARY, top)):
            for name in found:
                if name.endswith(".antt"):
                    names.update(n for n, _ in declared(os.path.join(folder, name)))
    return names


def snake(name):
    return re.sub("[A-Z]+", lambda m: "_" + m[0].lower(), name).replace("-", "_").replace("__", "_")


def ours(name):
    return re.match("[a-z]", name) and re.search("[A-Z-]", name)


def renamings():
    """Each old name with its new one, and those that the library has too, which only files that declare them or import them from a crate of ours turn."""
    where = collections.defaultdict(set)
    defined = set()
    for p in files(".antt"):
        if p.endswith("/Proof.antt"):
            continue
        for name, is_definition in declared(p):
            where[name].add(p)
            if is_definition:
                defined.add(name)
    names = {n for n in where if ours(n)}
    new = {n: LEMMAS.get(n, snake(n)) for n in names}
    by_new = collections.defaultdict(set)
    for n, s in new.items():
        by_new[s].add(n)
    for s, olds in by_new.items():
        if len(olds) > 1:
            # the definition keeps the name: it was written in camel case, the lemma with dashes
            for n in olds:
                if "-" in n:
                    new[n] = s + "_lem"
    return new, names & library(), where


def imports(text):
    """The names that a file imports, each with whether from a crate of ours."""
    mine = set(os.listdir(os.path.join(ROOT, "crates")))
    for m in re.finditer(r"use ([\w.'-]+)\.\{([^}]*)\}", text):
        parts = m.group(1).split(".")
        own = parts[0] == "Rattle" and len(parts) > 1 and parts[1] in mine
        for name in re.split(r",\s*", m.group(2)):
            yield name.split(" as ")[0].strip(), own


def turner(path, text, new, shared, where):
    """What turns a token of this file."""
    here = {}
    theirs = set()
    for name, own in imports(text):
        if name in shared:
            (here.__setitem__(name, new[name]) if own else theirs.add(name))
    for name in shared:
        if path in where[name]:
            here[name] = new[name]
    for name in theirs & set(here):
        print(f"both of the library and ours: {path}: {name}")
    table = {n: s for n, s in new.items() if n not in shared} | here
    if path.endswith(".antt"):
        table |= SPELLED
        for end, more in SPELLED_IN.items():
            if path.endswith(end):
                table |= more
    return table


def functions():
    """The names of the functions of src/."""
    names = {"well_formed"}
    for p in files(".rt"):
        with open(p, encoding="utf-8") as f:
            names.update(re.findall(r"\bfn (\w+)", f.read()))
    return names


def turn_antt(text, table, made=()):
    """made: the functions whose names a Proof.antt cites behind a dot, as Rattle spells them: as in src/."""
    out = []
    for line in text.split("\n"):
        at = comment(line)

        def to(m):
            if made and m.start() and line[m.start() - 1] == ".":
                plain = re.sub(r"-\d+$", "", m[0])
                if snake(plain) in made:
                    return snake(plain) + m[0][len(plain):]
            return table.get(m[0], m[0])

        if re.match(r"\s*(?:pub )?use ", line):
            # names within braces, and no part of a path
            out.append(re.sub(r"\{[^}]*\}?", lambda b: WORD.sub(lambda m: table.get(m[0], m[0]), b[0]), line[:at]) + line[at:])
        else:
            out.append(WORD.sub(to, line[:at]) + turn_prose(line[at:], table))
    return "\n".join(out)


def comment(line):
    m = re.search(r"(?:^|\s)--(?:\s|$)", line)
    return m.start() if m else len(line)


def turn_prose(text, table):
    """Words of prose: those in camel case, and within backticks those with dashes too."""
    text = re.sub(r"`[^`\n]*`", lambda m: WORD.sub(lambda w: table.get(w[0], w[0]), m[0]), text)
    return re.sub(r"(?<![\w-])[a-z]+\w*[A-Z]\w*", lambda m: table.get(m[0], m[0]), text)


def turn_rt(text, table):
    """Rust names have neither dashes nor capitals inside, so only clauses have ours; strings and comments are prose or left."""
    out = []
    for line in text.split("\n"):
        parts = re.split(r'("(?:[^"\\]|\\.)*"|//.*$)', line)
        for i, part in enumerate(parts):
            if part.startswith("//"):
                parts[i] = turn_prose(part, table)
            elif not part.startswith('"'):
                parts[i] = WORD.sub(lambda m: table.get(m[0], m[0]), part)
        out.append("".join(parts))
    return "\n".join(out)


def falls_together(path, old, table):
    """Names that were two in a file of proofs and would be one."""
    tokens = set()
    for line in old.split("\n"):
        code = line[:comment(line)]
        if re.match(r"\s*(?:pub )?use ", code):
            code = re.sub(r"^[^{]*", " ", code)
        tokens.update(m[0] for m in WORD.finditer(code) if not (path.endswith("/Proof.antt") and m.start() and code[m.start() - 1] == "."))
    seen = collections.defaultdict(set)
    for t in tokens:
        seen[table.get(t, t)].add(t)
    return {s: sorted(o) for s, o in seen.items() if len(o) > 1}


def main():
    new, shared, where = renamings()
    made = functions()
    write = {}
    bad = 0
    for p in files(".antt", ".rt", ".edit"):
        with open(p, encoding="utf-8") as f:
            text = f.read()
        table = turner(p, text, new, shared, where)
        if p.endswith("/Proof.antt"):
            # names of generated goals, and those of a proof's own steps, are left
            table = {n: s for n, s in table.items() if not re.fullmatch(r"(?:returns|loop|need|need|invariant|decreases)-.*|.*-requires(?:-\d+)?", n)}
        if p.endswith(".antt"):
            to = turn_antt(text, table, made if p.endswith("/Proof.antt") else ())
        else:
            to = turn_rt(text, table)
        if p.endswith(".antt"):
            for s, olds in falls_together(p, text, table).items():
                print(f"fall together in {p}: {', '.join(olds)}")
                bad += 1
        if to != text:
            write[p] = to
    pages = [os.path.join(ROOT, "README.md"), os.path.join(ROOT, "CONTRIBUTING.md"), *sorted(glob.glob(os.path.join(ROOT, "docs", "**", "*.md"), recursive=True))]
    for p in pages:
        if not os.path.exists(p) or os.path.basename(p).startswith("PORT"):
            continue
        with open(p, encoding="utf-8") as f:
            text = f.read()
        to = turn_prose(text, new)
        if to != text:
            write[p] = to
    if bad and "--force" not in sys.argv:
        raise SystemExit(f"{bad} places; nothing was changed")
    for p, to in write.items():
        with open(p, "w", encoding="utf-8") as f:
            f.write(to)
    print(f"{len(new)} names, {len(write)} files")


main()
