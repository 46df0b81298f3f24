#!/usr/bin/env python3
"""Spells this repository's own definitions and lemmas as today's Rattle does.

usage: tools/spell.py [--list]        at the top of the repository, once, right after the kit's port.py

Words of our own antt files that hold a dash or capitals inside are turned: a word to snake case ('standing-after' to 'standing_after',
'onceNamed' to 'once_named'), a fact, type or module to camel case ('Fits-line' to 'FitsLine'). What turns is what specs/ and proofs/ declare,
and the names that they bind; what Rattle makes (goals, labels behind 'c.', 'goal.' and the like), what the library declares, constructors
and fields that come from src/, and Rust's own text stay; of src/ only the ghost fields in LABELS turn. --list prints the table and writes nothing.
"""

import os
import re
import sys

WORD = re.compile(r"[^\s(){}\[\].;,@\"«»|]+")
DECLARED = re.compile(r"^ *(?:(?:abbrev|unfoldable|pub|package|data|record|ruleset|module) +)*([^\s(){}\[\].;,@\"«»|:]+)(?: +[({][^)}\n]*[)}])* *:(?!=)")
# Two words that fall together get another name in one crate: there the second is the lemma about the first.
APART = {"ledger": {f"same-{x}": f"same_{x}_is" for x in ("name", "record", "station", "position")} | {"same_spot": "same_spot_is"}}

# Labels of ghost fields, which are Rust identifiers.
LABELS = {f"{x}In": f"{x}_in" for x in ("stations", "slots", "records", "roots", "t1", "t2")}


def files(top):
    for folder, dirs, names in os.walk(os.path.join(top, "crates")):
        dirs[:] = sorted(d for d in dirs if d not in ("out", ".git"))
        for name in sorted(names):
            if name.endswith((".antt", ".rt", ".edit")):
                yield os.path.join(folder, name)


def read(path):
    with open(path, encoding="utf-8") as f:
        return f.read()


def code(text):
    return "\n".join("" if line.lstrip().startswith("--") else line.split(" -- ")[0] for line in text.split("\n"))


def uses(text):
    """Each 'use' item: its path and its names."""
    for m in re.finditer(r"(?m)^\s*(?:pub )?(?:ghost )?use ([A-Za-z][^\s;{]*?)(?:\.\{([^}]*)\})?(?: as [^\s;]+)?;?\s*$", text):
        names = [n.strip().split(" as ")[0] for n in (m[2] or "").split(",")]
        yield m[1], [n for n in names if n]


def spelled(word):
    """The new spelling: camel case for what begins with a capital, else snake case."""
    parts = [p for p in word.split("-")]
    if word[0].isupper():
        return parts[0] + "".join(p[:1].upper() + p[1:] for p in parts[1:])
    joined = "_".join(parts)
    return re.sub(r"(?<=[a-z0-9])([A-Z])(?=[a-z])", lambda m: "_" + m[1].lower(), joined)


def table(top):
    own = {os.path.basename(d) for d in os.listdir(os.path.join(top, "crates"))}
    declared, bound, foreign, made = set(), set(), set(), set()
    for path in files(top):
        text = read(path)
        if not path.endswith(".antt"):
            continue
        body = code(text)
        for line in body.split("\n"):
            m = DECLARED.match(line)
            if m and not re.search(r": *goal\.", line) and not line.lstrip().startswith(("use ", "let ", "in ", "λ", "--")):
                declared.add(m[1])
            if re.search(r": *goal\.", line) and m:
                made.add(m[1])
        lemmas = re.search(r"/crates/\w+/(specs/.*|proofs/[^/]*)$", os.path.abspath(path))
        for m in WORD.finditer(body) if lemmas else re.finditer(r"(?<=let )" + WORD.pattern, body):
            if "-" in m[0] and not behind(body, m.start()):
                bound.add(m[0])
        for path_of, names in uses(body):
            steps = path_of.split(".")
            if not (steps[0] == "Rattle" and len(steps) > 1 and steps[1] in own):
                foreign.update(names)
            elif "Goals" in steps or "Given" in steps:
                made.update(names)
    turned = {}
    for word in sorted((declared | bound) - foreign - made):
        if not re.fullmatch(r"[A-Za-z][A-Za-z0-9_'-]*", word):
            continue
        new = spelled(word)
        if new != word:
            turned[word] = new
    return turned


def behind(text, at):
    """The word before the dot that stands right before 'at', with all its heads, or nothing."""
    m = re.search(r"([^\s(){}\[\];,@\"«»|]+)\.$", text[:at])
    return m[1] if m else ""


def turn(text, turned, path):
    out, last = [], 0
    quoted = [m.span() for m in re.finditer(r'"(?:[^"\\\n]|\\.)*"', text)] if path.endswith(".rt") else []
    word = WORD if path.endswith(".antt") else re.compile(WORD.pattern.replace("|", "|:"))
    for m in word.finditer(text):
        bare = m[0] if m[0] in turned else m[0].rstrip("'")
        if bare not in turned or any(a <= m.start() < b for a, b in quoted):
            continue
        if path.endswith(".antt") and behind(text, m.start()).split(".")[0] == "goal":
            continue
        out.append(text[last : m.start()] + turned[bare] + m[0][len(bare) :])
        last = m.end()
    return "".join(out) + text[last:]


def main():
    top = os.getcwd()
    turned = table(top)
    if "--list" in sys.argv:
        for old, new in turned.items():
            print(f"{old}\t{new}")
        return
    for path in files(top):
        text = read(path)
        crate = os.path.relpath(path, os.path.join(top, "crates")).split(os.sep)[0]
        after = turn(text, turned | LABELS | APART.get(crate, {}), path)
        if after != text:
            with open(path, "w", encoding="utf-8") as f:
                f.write(after)


if __name__ == "__main__":
    main()
