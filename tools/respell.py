#!/usr/bin/env python3
"""Respells the repository's own definitions and lemmas: words in snake case, a dash only between two names.

usage: python3 tools/respell.py [--list | --every]      at the top of the checkout; run once, after the toolchain's own script

A definition or lemma is what a signature of specs/ or proofs/ declares. Names that the toolchain makes (the goals that
an answer or an invariant is for) and names of src/ stay. With --list nothing is written, and each name is printed
beside its new spelling. Names that would fall together are refused.

The library's `AllByRecursion` must not go by the name of its `All`, as the toolchain's script has it: it becomes
`Every`. With --every only that is done.
"""

import collections
import pathlib
import re
import sys

WORD = r"[A-Za-z_][\w']*(?:-[\w']+)*"
SIGNATURE = re.compile(rf"^ *(?:abbrev |unfoldable )?(?:pub )?({WORD})((?: {WORD})*) :(.*)$", re.M)
GOAL = re.compile(r"^ *goal\.")

# A lemma that would have the name of the definition that it is about, and names that hold an older name of the library.
APART = {
    "begun-if": "begun_if_lem",
    "farthest-first": "farthest_first_lem",
    "nothing-in": "nothing_in_lem",
    "pick-from": "pick_from_lem",
    "rule-of": "rule_of_lem",
    "last-of": "last_of_lem",
    "width-by": "width_by_lem",
    "taken_at": "taken_at_lem",
    "pick-tests": "pick_tests_lem",
    "getD-cut": "get_or-cut",
    "is-out-the-next-day": "is_out_the_next_day",
}


def texts(pattern):
    return {p: p.read_text(encoding="utf-8") for p in sorted(pathlib.Path("crates").glob(pattern)) if "out" not in p.parts}


def snake(name):
    return re.sub(r"(?<=[a-z0-9])([A-Z])", lambda m: "_" + m.group(1).lower(), name)


def every():
    for path, text in {**texts("*/specs/**/*.antt"), **texts("*/proofs/**/*.antt"), **texts("*/src/**/*.rt")}.items():
        if "AllByRecursion as All" in text:
            after = re.sub(r"(?<![\w'.-])All(?![\w'-])", "Every", text)
            path.write_text(after, encoding="utf-8")
    return 0


def main():
    if "--every" in sys.argv:
        return every()
    antt = {**texts("*/specs/**/*.antt"), **texts("*/proofs/**/*.antt")}
    declared, made, words = set(), set(), set("zero suc length take drop map set append filter removed".split())
    for path, text in antt.items():
        for m in SIGNATURE.finditer(text):
            names = [m.group(1)] + m.group(2).split()
            (made if GOAL.match(m.group(3)) else declared).update(names)
            if "specs" in path.parts:
                words.update(names)
    new = {}
    for name in sorted(declared - made):
        if not re.match(r"[a-z]", name):
            continue
        if name in APART:
            new[name] = APART[name]
            continue
        parts = name.split("-")
        spelt = snake(parts[0])
        for left, right in zip(parts, parts[1:]):
            spelt += ("-" if left in words and right in words else "_") + snake(right)
        if spelt != name:
            new[name] = spelt
    taken = collections.Counter()
    for text in antt.values():
        taken.update(re.findall(WORD, text))
    fused = [f"{a} and {b} would both be {new[a]}" for a in new for b in new if a < b and new[a] == new[b]]
    fused += [f"{a} would be {new[a]}, which is declared" for a in new if new[a] in (declared | made) - set(new)]
    if "--list" in sys.argv:
        for name, spelt in new.items():
            print(name, spelt, f"(also {taken[spelt]} times in use)" if taken[spelt] else "")
    if fused:
        print("\n".join(fused), file=sys.stderr)
        return 1
    if "--list" in sys.argv:
        return 0
    # In a comment a word with a dash is mostly English, so only names in camel case are respelled there.
    whole = re.compile(rf"(?P<comment>(?:--|//) .*|//[/!].*)|(?<![\w'-]){WORD}")
    camel = re.compile(r"(?<![\w'-])[a-z]\w*[A-Z][\w']*(?![\w'-])")

    def respelt(m):
        if m["comment"]:
            return camel.sub(lambda n: new.get(n.group(0), n.group(0)), m["comment"])
        return new.get(m.group(0), m.group(0))

    for path, text in {**antt, **texts("*/src/**/*.rt")}.items():
        after = whole.sub(respelt, text)
        if after != text:
            path.write_text(after, encoding="utf-8")
    return every()


sys.exit(main())
