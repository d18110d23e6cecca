#!/usr/bin/env python3
"""Adds to a must-fail edit the pairs that respell, in the proof files of the functions that it changes, the goals and
facts whose names follow the code's text, as `if-r-ge-READINGS` from `READINGS <= r`: so that a wrong test is refused
for its meaning, and not for a missing name.

usage: tools/edit_names.py CRATE EDIT BEFORE AFTER   (at the top of the repository; BEFORE and AFTER are the names.json
that `rattle check --generated DIR --old-names` writes of the crate as it stands and with the edit)

Prints what it adds; writes it with --write.
"""
import json
import os
import re
import sys

NAME = re.compile(r"[^\s(){}\[\];,.\"`]+")


def renamed(before, after):
    """The names of a function's goals and steps that the edit changes, by their place in the code."""
    out = {}
    if [n[0] for n in before["needs"]] != [n[0] for n in after["needs"]]:
        print("  other goals:", [n for n in before["needs"] if n[0] not in [m[0] for m in after["needs"]]],
              [n for n in after["needs"] if n[0] not in [m[0] for m in before["needs"]]])
    new = dict(map(tuple, after["needs"]))
    for old, name in before["needs"]:
        if old in new:
            out[name] = new[old]
    steps = {p[0]: p[2] for p in after["places"]}
    for place, _, (old, name), *_ in before["places"]:
        if place in steps and steps[place][0] == old:
            out[name] = steps[place][1]
    for a, b in zip(before["places_by_name"], after["places_by_name"]):
        out[a] = b
    for a, b in zip(before["loops"], after["loops"]):
        for x, y in zip(a, b):
            if isinstance(x, list) and len(x) == 2 and isinstance(x[1], str):
                out[x[1]] = y[1]
    return {a: b for a, b in out.items() if a != b and a}


def line_at(text, at):
    a = text.rfind("\n", 0, at) + 1
    b = text.find("\n", at)
    return a, len(text) if b < 0 else b


def in_turn(names):
    """The renamings in an order in which none makes a name that is still to be renamed: a ring goes by a third name."""
    names = dict(names)
    while names:
        ready = [a for a in names if names[a] not in names]
        if ready:
            yield {a: names.pop(a) for a in ready}
        else:
            a = next(iter(names))
            names[a + "-away"] = names[a]
            yield {a: a + "-away"}
            del names[a]


def pairs(text, names):
    """Pairs that rename each of these names in the text; each old text stands once in what the pairs before it made."""
    out = []
    for part in in_turn(names):
        found, text = renamings(text, part)
        out += found
    return out, text


def renamings(text, names):
    out = []
    at = 0
    while True:
        m = next((m for m in NAME.finditer(text, at) if m.group(0) in names), None)
        if not m:
            return out, text
        a, b = line_at(text, m.start())
        # the whole rest of the line's names at once
        line = text[a:b]
        new = NAME.sub(lambda k: names.get(k.group(0), k.group(0)), line)
        lo, hi = 0, len(line)
        first = next(k for k in range(min(len(line), len(new))) if line[k] != new[k])
        last = next(k for k in range(1, min(len(line), len(new)) + 1) if line[-k] != new[-k])
        # the shortest run of words about the change that stands once
        words = [k.span() for k in re.finditer(r"\S+", line)]
        i = max((k for k, (s, e) in enumerate(words) if s <= first), default=0)
        j = min((k for k, (s, e) in enumerate(words) if e >= len(line) - last + 1), default=len(words) - 1)
        old = None
        for width in range(len(words)):
            for left in range(width + 1):
                p, q = i - left, j + width - left
                if p < 0 or q >= len(words):
                    continue
                cand = line[words[p][0] : words[q][1]]
                if text.count(cand) == 1:
                    old = cand, words[p][0], words[q][1]
                    break
            if old:
                break
        if not old and text.count(line) == 1:
            old = line, 0, len(line)
        if not old:
            print("  not once:", line)
            at = b
            continue
        fresh = NAME.sub(lambda k: names.get(k.group(0), k.group(0)), old[0])
        out.append((old[0], fresh))
        text = text[: a + old[1]] + fresh + text[a + old[2] :]
        at = 0


def applied(crate, text):
    made, file, old = {}, None, None
    for line in text.split("\n"):
        if line.startswith("file: "):
            file = f"crates/{crate}/{line[6:].strip()}"
        elif line.startswith("old: "):
            old = line[5:]
        elif line.startswith("new:"):
            if file not in made:
                with open(file, encoding="utf-8") as f:
                    made[file] = f.read()
            assert made[file].count(old) == 1, (file, old)
            made[file] = made[file].replace(old, line[5:])
    return made


def main():
    crate, edit, before, after = [w for w in sys.argv[1:] if w != "--write"]
    path = f"crates/{crate}/must-fail/{edit}.edit"
    with open(path, encoding="utf-8") as f:
        text = f.read()
    with open(before) as f:
        A = json.load(f)
    with open(after) as f:
        B = json.load(f)
    made = applied(crate, text)
    add = []
    for key in sorted(A):
        m = re.match(rf"Rattle-{crate}-proofs\.(.*)\.Lts$", key)
        if not m or key not in B or A[key] == B[key]:
            continue
        names = renamed(A[key], B[key])
        print(f"{crate}/{edit} {m.group(1)}: {names}")
        for kind in ("Invariants", "Answers"):
            p = f"proofs/{m.group(1).replace('.', '/')}/{kind}.antt"
            full = f"crates/{crate}/{p}"
            if not os.path.exists(full):
                continue
            if full in made:
                body = made[full]
            else:
                with open(full, encoding="utf-8") as f:
                    body = f.read()
            found, _ = pairs(body, names)
            if found:
                add.append(f"file: {p}")
                for a, b in found:
                    add += [f"old: {a}", f"new: {b}"]
    print("\n".join(add))
    if add and "--write" in sys.argv:
        with open(path, "w", encoding="utf-8") as f:
            f.write(text.rstrip("\n") + "\n# Goals and facts are named by the test's text.\n" + "\n".join(add) + "\n")


main()
