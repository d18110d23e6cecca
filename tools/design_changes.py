#!/usr/bin/env python3
"""Prints the tables at the end of docs/DESIGN-PASS.md: public signatures, clauses, definitions, constants, and theorems
that the documents name, where they differ from those of an older checkout, old and new side by side. Rests on the kit's
contracts.py; theorems it compares itself.

usage: python3 tools/design_changes.py OLD      in the repository; OLD is a checkout of the commit to compare with
       python3 tools/design_changes.py OLD --write   puts them into the page, in place of those that stand there"""
import glob
import itertools
import json
import re
import subprocess
import sys

PAGE = "docs/DESIGN-PASS.md"
MARK = "## Old and new side by side"


def cell(text):
    """A piece of source as the cell of a table."""
    text = re.sub(r"\s+", " ", text).strip().replace("|", "\\|")
    return f"`{text}`" if text else ""


def table(heads, rows):
    out = ["| " + " | ".join(heads) + " |", "|" + "---|" * len(heads)]
    out += ["| " + " | ".join(row) + " |" for row in rows]
    return out


def is_public(old, place):
    """Whether a function, named as `crate file name`, is public in the older checkout."""
    crate, file, name = place.split(" ")[:3]
    text = open(f"{old}/crates/{crate}/{file}", encoding="utf-8").read()
    return re.search(rf'pub (extern "C" )?fn {re.escape(name.split("::")[-1])}\b', text) is not None


def named(place):
    crate, file, name = place.split(" ")[:3]
    return cell(f"{crate}::{name}")


def clauses(found):
    """Clauses as they stand: [[label, text], ..]."""
    return "; ".join((label + " " if label else "") + text for label, text in found)


def statements(root):
    """What the public lemmas of proofs/ state, but for the answers of functions."""
    found = {}
    for path in glob.glob(f"{root}/crates/*/proofs/**/*.antt", recursive=True):
        if path.endswith(("Answers.antt", "Invariants.antt")):
            continue
        crate = path.split("/crates/")[1].split("/")[0]
        lines = open(path, encoding="utf-8").read().split("\n")
        for i, line in enumerate(lines):
            m = re.match(r"pub ([^\s:]+) : (.*)", line)
            if m:
                more = itertools.takewhile(lambda t: t.startswith("  "), lines[i + 1:])
                found[crate, m[1]] = " ".join(" ".join([m[2], *more]).split())
    return found


def theorems(old):
    """Those whose names stand in README or docs/ of the older checkout, and that state something else now. A lemma of
    another crate that has the name of something that the documents speak of is among them if its statement changed; one
    that went stands on the page."""
    words = set()
    for path in [f"{old}/README.md", *glob.glob(f"{old}/docs/*.md")]:
        for text in re.findall(r"`([^`\n]+)`", open(path, encoding="utf-8").read()):
            words.update(re.split(r"[^\w·-]+", text))
    then, now = statements(old), statements(".")
    return [
        [cell(".".join(key)), cell(text), cell(now[key])]
        for key, text in then.items() if key[1] in words and key in now and now[key] != text
    ]


def main():
    old = sys.argv[1]
    found = subprocess.run(
        ["python3", "/opt/rattle/port/contracts.py", old, ".", "--json"], capture_output=True, text=True, check=True
    )
    d = json.loads(found.stdout)
    said = "By `python3 tools/design_changes.py` and a checkout of the commit above, where no type had an invariant."
    out = [MARK, "", said, ""]
    rows = [
        [named(place), cell(a), cell(b)] for place, a, b in d["signatures changed"] if is_public(old, place)
    ]
    out += [f"### Public signatures: {len(rows)}", ""] + table(["Function", "Old", "New"], rows) + [""]
    rows = []
    for row in d["contracts changed"]:
        place, parts = row[0], row[1:]
        if not is_public(old, place):
            continue
        halves = [clauses(p) if isinstance(p, list) else str(p) for p in parts]
        n = len(halves) // 2
        rows.append([named(place), cell("; ".join(halves[:n])), cell("; ".join(halves[n:]))])
    out += [f"### Clauses of public functions: {len(rows)}", ""] + table(["Function", "Old", "New"], rows) + [""]
    rows = [[cell(f"{c}.{n}"), cell(" ".join(a)), cell(" ".join(b))] for c, n, a, b in d["definitions"]["changed"]]
    out += [f"### Definitions: {len(rows)}", ""] + table(["Definition", "Old", "New"], rows) + [""]
    # the older checkout has no ghost item but for iterators, so these are constants
    items = d["ghost items and constants"]["changed"]
    rows = [[cell(f"{c}::{n}"), cell(a[0]), cell(b[0])] for c, kind, n, a, b in items]
    out += [f"### Constants: {len(rows)}", ""] + table(["Constant", "Old", "New"], rows) + [""]
    rows = theorems(old)
    out += [f"### Theorems that the documents name: {len(rows)}", ""] + table(["Theorem", "Old", "New"], rows)
    text = "\n".join(out) + "\n"
    if "--write" not in sys.argv:
        print(text, end="")
        return
    page = open(PAGE, encoding="utf-8").read()
    page = page[: page.index(MARK)] if MARK in page else page.rstrip("\n") + "\n\n"
    open(PAGE, "w", encoding="utf-8").write(page + text)


if __name__ == "__main__":
    main()
