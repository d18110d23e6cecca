#!/usr/bin/env python3
"""Breaks the lines of the crates' .antt and .rt files that have more than 120 characters, as `.ci/width` wants it.

usage: tools/port_width.py CRATE..   (at the top of the repository; a crate with no Proof.antt left)

Names in snake case are longer, so lines that fitted no longer do. A `use` of many names becomes two, a comment flows
into its next line, and any other line breaks at a space outside as many brackets as may be; `rt fmt` then indents.
"""
import glob
import re
import subprocess
import sys

WIDTH = 120
FIRST = ("→", "≡", "∙", "∷", "×", "⊎", "++", "⊛", "$", "≤", "<", "+", "&&", "|")
NOT_LAST = ("λ", ":", "let", "open", "use", "rw")


def uses(line):
    m = re.match(r"^(\s*(?:ghost |pub )*use \S+\.\{)(.*)(\};?)\s*$", line)
    if not m:
        return None
    names, out, row = [n.strip() for n in m.group(2).split(",")], [], []
    for n in names:
        if row and len(m.group(1) + ", ".join(row + [n]) + m.group(3)) > WIDTH:
            out.append(row)
            row = []
        row.append(n)
    out.append(row)
    return [m.group(1) + ", ".join(r) + m.group(3) for r in out]


def broken(line):
    """The line in two, at the space that costs least."""
    indent = len(line) - len(line.lstrip())
    depth, best = 0, None
    for i, ch in enumerate(line):
        if ch in "([{":
            depth += 1
        elif ch in ")]}":
            depth -= 1
        elif ch == " " and i > indent + 30 and i <= WIDTH:
            before, after = line[:i].rstrip(), line[i:].lstrip()
            word, last = after.split(" ")[0], before.split(" ")[-1]
            if not after or word in ("=", ":", "↦", "where", "in") or last in FIRST + NOT_LAST:
                continue
            if re.search(r"λ [^.()]*$", before) or last == "=" and depth:
                continue
            cost = 40 * depth + (WIDTH - i) / 3
            if word == "→" or last == "=":
                cost += 0
            elif word in ("≡", "≤", "<", "+"):
                cost += 18
            else:
                cost += 3 if word in FIRST else 8 if word[0] in "([{" else 14
            # few words alone on a line read badly
            cost += max(0, 24 - len(after))
            if best is None or cost <= best[0]:
                best = (cost, i)
    if best is None:
        return [line]
    i = best[1]
    return [line[:i].rstrip(), " " * (indent + 4) + line[i:].strip()]


def turned(lines, marks):
    out, i = [], 0
    lines = list(lines)
    while i < len(lines):
        line = lines[i]
        if len(line) <= WIDTH:
            out.append(line)
        elif line.lstrip().startswith(marks + " "):
            head = line[: len(line) - len(line.lstrip())] + marks + " "
            cut = line.rfind(" ", len(head) + 1, WIDTH + 1)
            rest = line[cut + 1 :]
            out.append(line[:cut])
            if i + 1 < len(lines) and lines[i + 1].startswith(head) and not lines[i + 1].startswith(head + " "):
                lines[i + 1] = head + rest + " " + lines[i + 1][len(head) :]
            else:
                lines.insert(i + 1, head + rest)
        else:
            found = uses(line)
            out += found if found else broken(line)
        i += 1
    return out


def main():
    for crate in sys.argv[1:]:
        for turn in range(6):
            long = 0
            for path in glob.glob(f"crates/{crate}/**/*.*", recursive=True):
                if "/out/" in path or not path.endswith((".antt", ".rt")) or path.endswith("/Proof.antt"):
                    continue
                with open(path, encoding="utf-8") as f:
                    text = f.read()
                lines = text.split("\n")
                if all(len(it) <= WIDTH for it in lines):
                    continue
                long += 1
                after = "\n".join(turned(lines, "--" if path.endswith(".antt") else "//"))
                with open(path, "w", encoding="utf-8") as f:
                    f.write(after)
            if not long:
                break
            subprocess.run(["rt", "fmt"], cwd=f"crates/{crate}", stdout=subprocess.DEVNULL)
        else:
            print(f"{crate}: some lines are still long")


main()
