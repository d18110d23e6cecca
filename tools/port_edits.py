#!/usr/bin/env python3
"""Brings the must-fail edits to today's spelling, as far as their text alone says it. Run at the top of the repository:
port_edits.py NAMES, where NAMES is what `port_names.py --list --dry` prints in a checkout of what port.py wrote. Only
the lines `old:` and `new:` of an edit of an .antt file are respelled, and those of a .rt file whose old text, as it is,
does not stand exactly once. Lists the edits whose old text still does not: those are brought over by hand.
"""
import glob
import os
import re
import sys

STOP = r"\s(){}\[\];,.\"⌜⌝`"
TOKEN = re.compile(rf"[^{STOP}]+")


def tight(text):
    """`(act c s .reply)` becomes `(act c s).reply`, `(l .low)` and `l .low` become `l.low`."""
    while True:
        new = re.sub(r"\(([A-Za-z_][\w'₀-₉]*) \.([\w']+)\)", r"\1.\2", text)
        new = re.sub(r"\(((?:[\w'₀-₉.]+ )+[\w'₀-₉.]+) \.([\w']+)(?=[ )])", r"((\1).\2", new)
        new = re.sub(r"\((\([^()]*\)\.[\w']+)\)", r"\1", new)
        new = re.sub(r"(?<![\w)] )(?<![\w.)])([A-Za-z_][\w'₀-₉]*) \.([\w']+)", r"\1.\2", new)
        if new == text:
            return text
        text = new


def respell(text, names):
    text = re.sub(r"Rattle·(\w+)·specs\.specs\.", r"Rattle.\1.specs.", text)
    text = re.sub(r"Rattle·(\w+)\.specs\.", r"Rattle.\1.specs.", text)
    text = TOKEN.sub(lambda m: names.get(m.group(0), m.group(0)), text)
    text = text.replace("′", "'").replace("_∙_", "◌∙◌")
    text = re.sub(r"\(now \((\w+) \.exit\)\)", r"\1.new", text)
    text = re.sub(r"\(now \((\w+) \.entry\)\)", r"\1.old", text)
    return tight(text)


def pairs(text):
    return re.findall(r"(?m)^file: (.*)$|^old: (.*)\n(?:#.*\n)*new:(?: (.*))?$", text)


def stands(crate, text):
    """Whether each old text stands exactly once in what the pairs before it made."""
    made = {}
    file = None
    for f, old, new in pairs(text):
        if f:
            file = os.path.join("crates", crate, f)
            continue
        if file not in made:
            if not os.path.exists(file):
                return False
            with open(file, encoding="utf-8") as h:
                made[file] = h.read()
        if made[file].count(old) != 1:
            return False
        made[file] = made[file].replace(old, new)
    return True


def main():
    names = {}
    with open(sys.argv[1], encoding="utf-8") as h:
        for line in h:
            w = line.split()
            # a lemma that had its function's name: edits speak of the function
            if len(w) == 2 and not w[1].endswith("_lem"):
                names[w[0]] = w[1]
    left = []
    for p in sorted(glob.glob("crates/*/must-fail/*.edit")):
        crate = p.split("/")[1]
        with open(p, encoding="utf-8") as h:
            text = h.read()
        lines = text.split("\n")
        file = ""
        for k, line in enumerate(lines):
            if line.startswith("file: "):
                file = line[6:]
            elif line.startswith(("old: ", "new: ")) and (file.endswith(".antt") or not stands(crate, text)):
                lines[k] = line[:5] + respell(line[5:], names)
        new = "\n".join(lines)
        if stands(crate, new):
            if new != text:
                with open(p, "w", encoding="utf-8") as h:
                    h.write(new)
        else:
            left.append(p)
            if "--show" in sys.argv:
                print(new)
    print("\n".join(left))
    print(len(left), "left to do by hand")


main()
