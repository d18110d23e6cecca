#!/usr/bin/env python3
"""Brings the repository's own definitions and lemmas to snake case: `headCell` and `covers-high` become `head_cell` and
`covers_high`. Run once, at the top of a tree that port.py has turned. Rewrites .antt files, the ghost lines, clauses
and back-quoted words of comments in .rt files, and back-quoted words in README.md and docs/. Names of Rust and of the
library stay: a name is renamed only if a file of specs/ or proofs/ declares it, and not in a file that imports it from
elsewhere. Prints names that fall together; writes nothing if there are any that are not allowed below.
"""
import os
import re
import sys

STOP = r"\s(){}\[\];,.\"⌜⌝`"
TOKEN = re.compile(rf"[^{STOP}]+")
OWN_PATH = re.compile(r"^Rattle\.(\w+)\.(specs|proofs)\b")


def files(ends):
    for folder, dirs, names in os.walk("crates"):
        dirs[:] = sorted(d for d in dirs if d != "out")
        for n in sorted(names):
            if n.endswith(ends):
                yield os.path.join(folder, n)


def read(p):
    with open(p, encoding="utf-8") as f:
        return f.read()


def snake(name):
    if "◌" in name:
        return name
    parts = re.split(r"[-_]", name)
    out = []
    for k, p in enumerate(parts):
        if p and (p[0].islower() or k > 0 and not p[0].isupper()):
            p = re.sub(r"(?<=[a-z0-9'])([A-Z])(?=[a-z'0-9]|$)", lambda m: "_" + m.group(1).lower(), p)
            p = re.sub(r"(?<=[a-z0-9'])([A-Z]+)", lambda m: "_" + m.group(1).lower(), p)
        out.append(p)
    return "_".join(out)


def generated(p):
    return os.path.basename(p) in ("Proof.antt", "Invariants.antt", "Answers.antt")


def declared():
    """Names that specs/ and proofs/ declare: signatures at any depth, record fields and constructors."""
    found = set()
    sig = re.compile(
        r"^\s*(?:(?:pub|abbrev|unfoldable|mutual)\s+)*"
        r"([^\s(){}\[\];,.\"`:]+(?:\s+[^\s(){}\[\];,.\"`:→=λ]+)*)(?: \{ℓ\})? :(?: |$)",
        re.M,
    )
    # a parameter of a module; a local name in camel case alone, so that words of binders stay
    parameter = re.compile(r"\(([a-z][a-z]*[A-Z]\w*) :")
    typ = re.compile(r"^\s*(?:pub )?(?:data|record|module|ruleset)(?: pub)? ([^\s(){}:;]+)", re.M)
    for p in files(".antt"):
        t = re.sub(r"--[^\n]*", "", read(p))
        for m in sig.finditer(t):
            for n in m.group(1).split():
                found.add(n)
        for m in typ.finditer(t):
            found.add(m.group(1))
        found.update(parameter.findall(t))
    return {n for n in found if re.match(r"^[A-Za-z]", n) and "◌" not in n}


def imports(t):
    """The names of a text that come from the library: {name}, and those of this repository that have an `as`."""
    out = set()
    for m in re.finditer(r"(?m)^\s*(?:pub )?(?:ghost )?(?:pub )?use ([\w·'.\-]+?)\.\{([^}]*)\}", t):
        own = OWN_PATH.match(m.group(1)) and not re.search(r"specs\.(declared|contracts)", m.group(1))
        # what rattle makes of a function's folder below proofs/ is not ours
        if own and re.search(r"\.(Statement|Tie|Goals|Given|Lts)\b", m.group(1)):
            own = None
        if not own or m.group(1).split(".")[1] not in CRATES:
            for n in m.group(2).split(","):
                out.add(n.strip().split(" as ")[0].strip())
    return out


# fields of records whose snake case is the name of a definition: elsewhere behind a dot stands a name of a function
FIELDS_LEM = {"accesses-parted", "free-first", "in_use", "locks-parted", "versions-parted"}
CRATES = set(os.listdir("crates")) if os.path.isdir("crates") else set()


def prose(names, comment):
    """A comment: back-quoted names, and words in camel case, which are no prose."""
    comment = re.sub(r"`[^`]*`", lambda m: TOKEN.sub(lambda k: names.get(k.group(0), k.group(0)), m.group(0)), comment)
    return re.sub(r"(?<![\w'`\-])[a-z]+[A-Z]\w*(?![\w'\-])", lambda m: names.get(m.group(0), m.group(0)), comment)


def main():
    known = declared()
    camel = {snake(n) for n in known if "-" not in n and snake(n) != n}
    plain = {n for n in known if snake(n) == n}
    names = {}
    for n in known:
        to = snake(n)
        # a lemma that would have its function's name gets `_lem`
        if "-" in n and (to in camel or to in plain or to in ("at_exit",)) or n in plain and n in camel:
            to += "_lem"
        names[n] = to
    names = {n: s for n, s in names.items() if n != s}
    twice = {}
    for n, s in names.items():
        if twice.setdefault(s, n) != n:
            print(f"one name for two: {n} and {twice[s]} -> {s}")
    print(f"{len(names)} names to respell")
    bad = 0
    writes = {}

    def turn(text, p, skip):
        seen = {}
        for m in TOKEN.finditer(text):
            w = m.group(0)
            to = names[w] if w in names and w not in skip else w
            if (
                text[: m.start()].rsplit("\n", 1)[-1].lstrip().startswith("use ")
                and "{" not in text[: m.start()].rsplit("\n", 1)[-1]
            ):
                continue
            if seen.setdefault(to, w) != w:
                other = seen[to]
                if (p, to) not in told:
                    told.add((p, to))
                    print(f"together: {p}: {other} and {w} -> {to}")
        return respell(text, skip)

    def respell(text, skip):
        """Paths keep their words: only the names in the braces of a `use` are respelled."""
        paths = [(m.start(1), m.end(1)) for m in re.finditer(r"\buse ([\w·'.\-]+)", text)]
        paths += [(m.start(), m.end()) for m in re.finditer(r"\bRattle(\.[\w'\-]+)+", text)]

        def one(m):
            w = m.group(0)
            if w not in names or w in skip or any(a <= m.start() < b for a, b in paths):
                return w
            if m.start() and text[m.start() - 1] == "." and w not in FIELDS_LEM:
                return names[w].removesuffix("_lem") if names[w].endswith("_lem") else names[w]
            return names[w]

        return TOKEN.sub(one, text)

    told = set()
    for p in files(".antt"):
        t = read(p)
        skip = imports(t)
        # comments: only back-quoted words
        lines = []
        for line in t.split("\n"):
            at = line.find("--")
            while at > 0 and not line[at - 1].isspace():
                at = line.find("--", at + 2)
            if at >= 0 and (at + 2 == len(line) or line[at + 2].isspace()):
                code, com = line[:at], line[at:]
                com = prose(names, com)
            else:
                code, com = line, ""
            lines.append((code, com))
        codes = turn("\n".join(c for c, _ in lines), p, skip).split("\n")
        writes[p] = "\n".join(c + m for c, (_, m) in zip(codes, lines))
    for p in files(".rt"):
        t = read(p)
        skip = imports(t)
        out = []
        inside = 0
        for line in t.split("\n"):
            s = line.lstrip()
            if inside == 0 and s.startswith("//"):
                out.append(prose(names, line))
                continue
            starts = re.match(r"(ghost |pub ghost |requires|ensures)", s)
            if inside or starts:
                new = respell(line, skip)
                out.append(new)
                inside += line.count("{") - line.count("}")
                if inside < 0:
                    inside = 0
            else:
                out.append(line)
        writes[p] = "\n".join(out)
    docs = ["README.md"] + [
        os.path.join("docs", f)
        for f in sorted(os.listdir("docs"))
        if f.endswith(".md") and f not in ("PORT.md", "PORT-OTHER.md")
    ]
    for p in docs:
        t = read(p)
        writes[p] = re.sub(
            r"`[^`\n]*`", lambda m: TOKEN.sub(lambda k: names.get(k.group(0), k.group(0)), m.group(0)), t
        )
    if "--list" in sys.argv:
        for n in sorted(names):
            print(n, names[n])
        return
    if "--dry" not in sys.argv:
        for p, t in writes.items():
            if t != read(p):
                with open(p, "w", encoding="utf-8") as f:
                    f.write(t)


main()
