#!/usr/bin/env python3
"""Respells the repository's own definitions and lemmas, once, after the kit's port.py: words in snake case.

A name is one that specs/ or proofs/ declare: `tablesFit` becomes tables_fit and `count-mono` becomes count_mono. Types, modules and
facts keep their upper camel case, functions of src/ their names, and goals the names that the check gives them.
Run at the top of the repository; prints names that would fall together.
"""
import glob
import re
import sys

# Where the rule would give two things one name.
NAMED = {
    "accepts-own": "accepts_own_is",
    "in-turn": "in_turn_tied",
    "mid-value": "mid_value_is",
    "never-part": "runs_never_part",
    "turnBy": "turn_from",
    "value-at": "value_at_place",
    "intake-verdict": "verdict-intake",
    "filter-verdict": "verdict-filter",
    "agree-verdict": "verdict-agree",
    "select-verdict": "verdict-select",
    "commit-verdict": "verdict-commit",
    "look-verdict": "verdict-look",
}
WORD = re.compile(r"[^\s(){}\[\];:,.«»\"`|/⟦⟧·]+")
HEAD = re.compile(r"^\s*((?:(?:unfoldable|abbrev|pub) +)*)([^\s(){}:;,.=|]+)((?: +[^\s(){}:;,.=|]+)*) +:\s")
KIND = re.compile(r"^\s*(?:pub +)?(?:data|record) +([^\s(){}:]+)")


def snake(name):
    if name in NAMED:
        return NAMED[name]
    return re.sub(r"(?<=[a-z0-9])([A-Z])", lambda m: "_" + m.group(1).lower(), name.replace("-", "_"))


def declared(path):
    """Names that a file of specs/ or proofs/ declares, but for goals."""
    for line in open(path, encoding="utf-8"):
        kind = KIND.match(line)
        if kind:
            yield kind.group(1)
            continue
        head = HEAD.match(line)
        if head and " : goal." not in line:
            yield head.group(2)
            yield from head.group(3).split()


def main():
    specs = sorted(glob.glob("crates/*/specs/**/*.antt", recursive=True))
    proofs = sorted(glob.glob("crates/*/proofs/**/*.antt", recursive=True))
    names = {name for path in specs + proofs for name in declared(path)}
    turned = {name: snake(name) for name in names if re.match(r"[a-z]", name) and snake(name) != name}
    code = sorted(glob.glob("crates/*/src/**/*.rt", recursive=True))
    edits = sorted(glob.glob("crates/*/must-fail/*.edit"))
    pages = sorted(glob.glob("docs/*.md")) + ["README.md"]
    for path in specs + proofs + code + edits + pages:
        text = open(path, encoding="utf-8").read()
        words = set(WORD.findall(text))
        for name in sorted(words & turned.keys()):
            others = {turned[name]} & words or {o for o in words & turned.keys() if o != name and turned[o] == turned[name]}
            if others:
                print(f"{path}: {name} falls together with {', '.join(sorted(others))}")
        turn = WORD.sub(lambda m: turned.get(m.group(0), m.group(0)), text)
        if turn != text and "--dry" not in sys.argv:
            open(path, "w", encoding="utf-8").write(turn)
    print(f"{len(turned)} names")
    if "--list" in sys.argv:
        for name in sorted(turned):
            print(f"{name} {turned[name]}")


main()
