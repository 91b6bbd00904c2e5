#!/usr/bin/env python3
"""Spells this repository's own names of specs/ and proofs/ as today's Rattle does.

usage: python3 tools/spell_names.py        at the top, once, right after the toolchain's own respelling script

A word in lower case is in snake case, a type or a module in upper camel case: `stations-of` becomes `stations_of`,
`Right-record` becomes `RightRecord`. Only names that are declared in specs/ or proofs/ change; names of the library, names of
goals and names of src/ stay. Says what fell together, and then changes nothing.
"""

import collections
import os
import re
import sys

DECLARED = re.compile(
    r"\s*(?:(?:abbrev|unfoldable|pub|data|record|ruleset) )*([^\s:(){}.]+)((?:\s+[({][^(){}]*[)}])*)\s*:(?!:)\s*(.*)$"
)
NAMED = re.compile(r"\s*(?:pub )?(?:data|record|ruleset|mod) ([^\s:(){}.]+)")
GOAL = re.compile(r"(?:goal|need|given)\.")
TOKEN = re.compile(r"[^\s(){}\[\],;.`\"|]+")


def files(root, ends):
    for folder, dirs, names in os.walk(root):
        dirs[:] = sorted(d for d in dirs if d not in ("out", ".git", "target"))
        for name in sorted(names):
            if name.endswith(ends):
                yield os.path.join(folder, name)


def declared(root):
    names = collections.defaultdict(set)
    for path in files(os.path.join(root, "crates"), (".antt",)):
        with open(path, encoding="utf-8") as f:
            for line in f:
                if line.lstrip().startswith("--"):
                    continue
                for pattern in (DECLARED, NAMED):
                    m = pattern.match(line)
                    if m and not (pattern is DECLARED and GOAL.match(m.group(3))):
                        names[m.group(1)].add(path)
        module = os.path.basename(path)[: -len(".antt")]
        names[module].add(path)
    return names


def spelled(name):
    parts = name.split("-")
    if name[0].isupper():
        return "".join(p[:1].upper() + p[1:] for p in parts)
    return "_".join(parts)


def main():
    root = os.getcwd()
    names = declared(root)
    new = {n: spelled(n) for n in names if "-" in n and re.fullmatch(r"[\w'-]+", n)}
    # the pages may name what the toolchain's script had respelled before
    said = lambda name: spelled(name) if "-" in name and spelled(name) in names else new.get(name, name)
    fell = collections.defaultdict(list)
    for old, to in new.items():
        fell[to].append(old)
    bad = [f"{to}: {', '.join(sorted(olds))}" for to, olds in fell.items() if len(olds) > 1]
    texts = {}
    for path in files(root, (".antt", ".rt", ".edit", ".md")):
        with open(path, encoding="utf-8") as f:
            texts[path] = f.read()
    for path, text in texts.items():
        if not path.endswith(".antt"):
            continue
        # a path to a function's own proofs is no use of its name
        tokens = set(TOKEN.findall(re.sub(r"(?m)^use [^{\n]*", "", text)))
        for token in tokens:
            if token in new and new[token] in tokens:
                bad.append(f"{path}: {token} and {new[token]}")
    if bad and "--force" not in sys.argv:
        print("\n".join(sorted(bad)))
        print("these fall together; nothing was changed")
        return 1
    count = 0
    for path, text in texts.items():
        if path.endswith(".md"):
            out = re.sub(r"`[^`\n]+`", lambda m: TOKEN.sub(lambda t: said(t.group(0)), m.group(0)), text)
        else:
            out = TOKEN.sub(lambda t: new.get(t.group(0), t.group(0)), text)
        if out != text:
            count += 1
            with open(path, "w", encoding="utf-8") as f:
                f.write(out)
    for path in list(files(os.path.join(root, "crates"), (".antt",))):
        folder, name = os.path.split(path)
        module = name[: -len(".antt")]
        if module in new:
            os.rename(path, os.path.join(folder, new[module] + ".antt"))
    print(f"{len(new)} names, {count} files")
    return 0


if __name__ == "__main__":
    raise SystemExit(main())
