#!/usr/bin/env python3
"""Spells this repository's own antt names as today's Rattle does: definitions, lemmas, fields and variables in snake case.

usage: tools/respell.py        at the top, once, behind port.py; it prints what it renamed as OLD NEW lines

A name that camel case or dashes join becomes one of snake case. Where a lemma and a definition would fall together in a file that speaks
of both, the lemma gets `_lem`. Names of the library, of Rattle's goals and of functions of src/ stay.
"""

import glob
import os
import re

# Two lemmas that would hide the definition they speak of.
HIDING = {
    "crates/job/specs/Reading.antt": ("laid_out", "laid_out_lem"),
    "crates/track/specs/Headers.antt": ("laid_out", "laid_out_lem"),
}
HEAD = re.compile(r"^\s*(?:(?:pub|abbrev|unfoldable)\s+)*([a-z][\w'\-₀-₉]*)\s*(?:\{[^}]*\}\s*)?(?:\([^)]*\)\s*)*:\s")
TOKEN = re.compile(r"[A-Za-z_«][^\s(){}\[\],;:.\"`@»]*»?")


def snake(name):
    name = re.sub(r"([a-z0-9])([A-Z])", lambda m: m.group(1) + "_" + m.group(2).lower(), name)
    return name.replace("-", "_")


def read(path):
    with open(path, encoding="utf-8") as f:
        return f.read()


def code_of(text, mark):
    """The lines without what stands behind a comment's mark, and without imports."""
    return [line.split(mark)[0] for line in text.split("\n")]


def names_in(line):
    return TOKEN.findall(line)


def joined(name):
    return name[0].islower() and bool(re.search(r"[a-z0-9][A-Z]|[\w']-[\w']", name)) and not re.search(r"[^\w'\-₀-₉]", name)


def main():
    antt = sorted(p for p in glob.glob("crates/**/*.antt", recursive=True) if "/out/" not in p)
    specs = [p for p in antt if not re.search(r"/proofs/", p)]
    proofs = [p for p in antt if re.search(r"/proofs/", p)]
    sources = sorted(p for p in glob.glob("crates/*/src/*.rt"))
    for path, (old, lemma) in HIDING.items():
        text = read(path)
        write(path, text, re.sub(r"\b%s\b" % old, lemma, text))
    library, defined, used = set(), set(), {}
    for path in antt + sources:
        text = read(path)
        for m in re.finditer(r"^(?:ghost )?use\s+(\S+?)(?:\.\{([^}]*)\})?(?: as .*)?;?$", text, re.M):
            own = re.match(r"Rattle\.([a-z_]+)\.", m.group(1))
            if not (own and os.path.isdir("crates/" + own.group(1))):
                library.update(n.split(" as ")[0].strip() for n in (m.group(2) or "").split(","))
    for path in specs:
        lines = [l for l in code_of(read(path), "--")]
        for line in lines:
            m = HEAD.match(line)
            if m:
                defined.add(m.group(1))
        used[path] = {t for l in lines for t in names_in(l)}
    for path in proofs:
        used[path] = {t for l in code_of(read(path), "--") for t in names_in(l)}
    for path in sources:
        used[path] = {t for l in code_of(read(path), "//") for t in names_in(l)}
    spoken = {t for p in specs for t in used[p]}
    new = {t: snake(t) for t in spoken if joined(t) and t not in library}
    # Two names that become one: the one with dashes is the lemma.
    for old in sorted(new):
        if "-" not in old:
            continue
        other = [t for t in (spoken | library) if t != old and (new.get(t) or t) == new[old]]
        if any(old in used[p] and any(t in used[p] for t in other) for p in used):
            new[old] += "_lem"
    # Goals and other names that a proof file makes for itself stay.
    for path in specs + proofs + sources:
        text = read(path)
        mark = "//" if path.endswith(".rt") else "--"
        own = set()
        if path in proofs:
            own = {m.group(1) for m in (HEAD.match(l) for l in text.split("\n")) if m and m.group(1) not in defined}
        out = []
        for line in text.split("\n"):
            code, sep, said = line.partition(mark)
            code = TOKEN.sub(lambda m: m.group(0) if m.group(0) in own else new.get(m.group(0), m.group(0)), code)
            said = re.sub(r"`[^`]*`", lambda m: TOKEN.sub(lambda t: new.get(t.group(0), t.group(0)), m.group(0)), said)
            said = TOKEN.sub(lambda m: new[m.group(0)] if m.group(0) in new and "-" not in m.group(0) else m.group(0), said)
            out.append(code + sep + said)
        write(path, text, "\n".join(out))
    for path in sorted(glob.glob("crates/*/must-fail/*.edit")):
        text = read(path)
        write(path, text, TOKEN.sub(lambda m: new.get(m.group(0), m.group(0)), text))
    for path in ["README.md"] + sorted(glob.glob("docs/*.md")):
        if path.endswith("LANDINGS.md") or "PORT" in path:
            continue
        text = read(path)
        write(path, text, re.sub(r"`[^`\n]*`", lambda m: TOKEN.sub(lambda t: new.get(t.group(0), t.group(0)), m.group(0)), text))
    for old in sorted(new):
        print(old, new[old])


def write(path, old, text):
    if text != old:
        with open(path, "w", encoding="utf-8") as f:
            f.write(text)


main()
