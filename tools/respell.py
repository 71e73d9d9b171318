#!/usr/bin/env python3
"""Brings the repository's own definitions and lemmas to today's spelling: functions and lemmas in snake case, facts in camel case.

Run once, at the top of the repository, after the kit's port.py. Only names that a file of specs/ or a lemma file of proofs/ declares are
changed, as whole names, in specs/, proofs/, the ghost parts of src/ and the code spans of README.md and docs/. Names that Rattle makes
(goals, and what it calls the parts of a function) and the names of the standard library stay as they are.
"""

import glob
import os
import re
import sys

DECLARED = re.compile(r"^\s*(?:(?:abbrev|unfoldable|pub|record|data)\s+)*([^\s(){};,.:\[\]]+)(?:\s+[({].*[)}])?\s*:\s")
# what Rattle calls the goals of a function; a file that answers goals declares no name that others cite
ANSWERS = {"Answers.antt", "Invariants.antt", "Proof.antt"}
# where an own name is spelled as a library's or as a part of a function: stays
KEPT = set()
NAME = re.compile(r"[^\s(){};,.:\[\]\"`]+")
GHOST = re.compile(r"ghost use [^;]*;|\b(?:ghost|requires|ensures)\b\*?(?: [a-z_0-9]+)?(?::| =)? ?\{")


def files(*patterns):
    return sorted(p for q in patterns for p in glob.glob(q, recursive=True))


def read(path):
    with open(path, encoding="utf-8") as f:
        return f.read()


def turned(name):
    """The name in today's spelling: `Labels-are-levels` is a fact, `NO-PLACE` and `row-at` are not."""
    words = name.split("-")
    if re.match(r"[A-Z][a-z]", name):
        return words[0] + "".join(w[:1].upper() + w[1:] for w in words[1:])
    return "_".join(words)


def declared():
    found = set()
    for p in files("crates/*/specs/**/*.antt", "crates/*/proofs/**/*.antt"):
        if os.path.basename(p) in ANSWERS:
            continue
        for line in read(p).splitlines():
            m = DECLARED.match(line)
            if m:
                found.add(m.group(1))
    return found


def respelt(text, names):
    return NAME.sub(lambda m: names.get(m.group(0), m.group(0)), text)


def ghost_parts(text, names):
    """The text of a source file with its ghost imports and clauses respelt."""
    out, at = [], 0
    for m in GHOST.finditer(text):
        if m.start() < at:
            continue
        end = m.end()
        if text[end - 1] == "{":
            depth = 1
            while depth and end < len(text):
                depth += {"{": 1, "}": -1}.get(text[end], 0)
                end += 1
        out += [text[at:m.start()], respelt(text[m.start():end], names)]
        at = end
    return "".join(out + [text[at:]])


def main():
    own = declared()
    names = {n: turned(n) for n in own if "-" in n and n not in KEPT and n.strip("-") == n}
    # port.py left `Goes_on` of Goes-on; GoesOn is a variant there
    names["Goes_on"] = "FrontGoesOn"
    taken = {}
    for old, new in sorted(names.items()):
        if new in own or new in taken:
            print(f"look: {old} and {taken.get(new, new)} fall together as {new}")
        taken[new] = old
    for p in files("crates/*/specs/**/*.antt", "crates/*/proofs/**/*.antt"):
        old = read(p)
        new = respelt(old, names)
        if new != old:
            open(p, "w", encoding="utf-8").write(new)
    for p in files("crates/*/src/**/*.rt"):
        old = read(p)
        new = ghost_parts(old, names)
        if new != old:
            open(p, "w", encoding="utf-8").write(new)
    # pages name what port.py respelt too
    pages = dict(names)
    pages.update({n.replace("_", "-"): n for n in own if "_" in n})
    for p in files("README.md", "docs/*.md"):
        old = read(p)
        new = re.sub(r"`[^`\n]*`", lambda m: respelt(m.group(0), pages), old)
        if new != old:
            open(p, "w", encoding="utf-8").write(new)
    print(f"{len(names)} names")


if __name__ == "__main__":
    sys.exit(main())
