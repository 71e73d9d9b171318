#!/usr/bin/env python3
"""Lists the pairs of parameters that three or more functions of crates/*/src take together.

    tools/parameters.py [COMMIT]

Reads the files of COMMIT (HEAD where it is left out). A pair is two parameters with the same names and types; `self` and
`rt` don't count. Prints how many functions take it, the pair, and the functions.
"""
import itertools
import re
import subprocess
import sys


def git(*words):
    return subprocess.run(["git", *words], capture_output=True, text=True, check=True).stdout


def functions(text):
    """Yields the name and the list of parameters of each function."""
    for match in re.finditer(r"\bfn (\w+)(?:<[^(]*>)?\(", text):
        depth, end = 1, match.end()
        while depth:
            depth += {"(": 1, ")": -1}.get(text[end], 0)
            end += 1
        inside = re.sub(r"\s+", " ", text[match.end():end - 1]).strip(" ,")
        parts, depth, word = [], 0, ""
        for char in inside:
            depth += {"(": 1, "<": 1, "[": 1, ")": -1, ">": -1, "]": -1}.get(char, 0)
            if char == "," and depth == 0:
                parts.append(word.strip())
                word = ""
            else:
                word += char
        parts.append(word.strip())
        yield match.group(1), [p for p in parts if ":" in p and not p.startswith("rt:")]


def main():
    commit = sys.argv[1] if len(sys.argv) > 1 else "HEAD"
    pairs = {}
    for path in git("ls-tree", "-r", "--name-only", commit, "crates").split():
        if "/src/" not in path or not path.endswith(".rt"):
            continue
        for name, parameters in functions(git("show", f"{commit}:{path}")):
            crate = path.split("/")[1]
            for pair in itertools.combinations(sorted(set(parameters)), 2):
                pairs.setdefault(pair, []).append(f"{crate}::{name}")
    for pair, names in sorted(pairs.items(), key=lambda item: (-len(item[1]), item[0])):
        if len(names) >= 3:
            print(len(names), ", ".join(pair), "in", ", ".join(sorted(names)))


main()
