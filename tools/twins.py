#!/usr/bin/env python3
"""twins.py [COMMIT]: groups of functions in crates/*/src whose bodies differ only in names, numbers and texts.

Reads the tree of COMMIT, or the working tree. A body of fewer than three lines says nothing and is left out, and so is
export_c, which repeats export by the toolchain's need.
"""
import collections
import pathlib
import re
import subprocess
import sys

HEAD = re.compile(r'( *)(?:pub(?:\(crate\))? )?(?:extern "C" )?fn (\w+)')
WORD = re.compile(r'b?"[^"]*"|b?\'[^\']*\'|[A-Za-z_]\w*|\d[\d_]*\w*|\S')
KEPT = set("if else match while for in let mut return loop Some None Ok Err true false".split())


def git(*words):
    return subprocess.run(["git", *words], check=True, capture_output=True, text=True).stdout


def files(commit):
    if commit is None:
        for path in sorted(pathlib.Path(".").glob("crates/*/src/**/*.rt")):
            yield str(path), path.read_text()
        return
    for path in git("ls-tree", "-r", "--name-only", commit, "crates").split():
        if re.fullmatch(r"crates/[^/]+/src/.*\.rt", path):
            yield path, git("show", f"{commit}:{path}")


def functions(text):
    """Each function's name and body; one that a trait only declares has none."""
    lines = text.splitlines()
    for at, line in enumerate(lines):
        if head := HEAD.match(line):
            begins = next(i for i in range(at, len(lines)) if lines[i].endswith(("{", ";")))
            if lines[begins].endswith("{"):
                ends = lines.index(head.group(1) + "}", begins)
                yield head.group(2), lines[begins + 1 : ends]


def shape(body):
    words = WORD.findall("\n".join(re.sub(r"//.*", "", line) for line in body))
    return tuple(w if w in KEPT or not (w[0].isalnum() or w[0] in "_\"'") else "_" for w in words)


def main():
    groups = collections.defaultdict(list)
    for path, text in files(sys.argv[1] if len(sys.argv) > 1 else None):
        if "/export_c/" not in path:
            for name, body in functions(text):
                if len(body) >= 3:
                    groups[shape(body)].append(f"{path}: {name}")
    twins = sorted(group for group in groups.values() if len(group) > 1)
    for group in twins:
        print("; ".join(group))
    print(f"{len(twins)} groups, {sum(map(len, twins))} functions")


main()
