#!/usr/bin/env python3
"""Turns the crate's proofs/F/Proof.antt, which walk the code by hand, into Invariants.antt and Answers.antt.

usage: tools/port_proofs.py CRATE..   (at the top of the repository, after port.py and port_names.py)

Takes old and new names of goals and steps from `rt check --generated DIR --old-names`. An answer that only says
`search rules` or `tt` is left out, since the check finds it. Files that it cannot turn stay, and are named.
"""
import json
import os
import re
import subprocess
import sys
import tempfile

TRIVIAL = re.compile(r"^\(?\s*(search rules|search needs|tt|refl)\s*\)?$")


def norm(s):
    s = s.replace("_", "-").lower()
    s = {"type-size": "size-of"}.get(s, s)
    s = re.sub(r"^overflow-", "", s)
    return s


def names_of(crate):
    d = tempfile.mkdtemp()
    subprocess.run(
        ["rt", "check", "--generated", d, "--old-names"],
        cwd=f"crates/{crate}",
        stdout=subprocess.DEVNULL,
        stderr=subprocess.DEVNULL,
    )
    p = os.path.join(d, "names.json")
    if not os.path.exists(p):
        sys.exit(f"{crate}: no names; does a crate below it fail?")
    with open(p) as f:
        t = json.load(f)
    out = {}
    for k, v in t.items():
        m = re.match(rf"Rattle-{crate}-proofs\.(.*)\.Lts$", k)
        if m:
            out[m.group(1)] = v
    return out


def decls(text):
    """Top-level declarations: (name, lines)."""
    head, out = [], []
    lines = text.split("\n")
    i = 0
    while i < len(lines) and (
        lines[i].startswith("--")
        or lines[i].startswith("use ")
        or lines[i].startswith("open ")
        or not lines[i].strip()
    ):
        head.append(lines[i])
        i += 1
    cur = None
    pending = []
    for l in lines[i:]:
        if l.startswith("--"):
            pending.append(l)
            continue
        m = re.match(r"^(?:(?:pub|abbrev|unfoldable) )*([^\s:]+) :(?: |$)", l)
        if m and not l[0].isspace():
            cur = (m.group(1), pending + [l])
            pending = []
            out.append(cur)
        elif cur is None:
            head.append(l)
        else:
            cur[1].extend(pending)
            pending = []
            cur[1].append(l)
    return head, out


def convert(crate, path, table):
    folder = os.path.dirname(path)
    fn = os.path.relpath(folder, f"crates/{crate}/proofs").replace("/", ".")
    if fn not in table:
        return f"no names for {fn}"
    T = table[fn]
    with open(path, encoding="utf-8") as f:
        text = f.read()
    if "as tie" not in text:
        return "no tie"
    # port.py leaves the older words of a few files
    if re.search(r"\.(pre|taken)\b", text):
        text = re.sub(r"\.pre\b", ".requires", text)
        text = re.sub(r"\.taken\b", ".true", text)
        text = re.sub(r"(\.if\d*)\.left\b", r"\1.false", text)
        text = re.sub(r"(\.loop\d*)\.inv\b", r"\1.invariant", text)
    need_new = {}
    for (old, new), (op, np) in zip(T["needs"], T["asked_at"]):
        need_new.setdefault(norm(old), (new, op))
    places = {p[0]: p for p in T["places"]}
    # what an arm of a match knows: (older step, older path) -> today's field
    arms = {p[0]: a for p, a in zip(T["places"], T["arms"]) if a}
    loops = {l[0][0]: (l[0][1], l[1], ch) for l, ch in zip(T["loops"], T["changed"])}
    head, ds = decls(text)
    prefix = f"Rattle.{crate}.proofs.{fn}"
    uses = []
    comments = []
    for l in head:
        if l.startswith("--"):
            comments.append(l)
        elif l.startswith("use "):
            if f"{prefix}.Statement" in l or f"{prefix}.Tie" in l:
                continue
            uses.append(l)
    inv, ans, notes = [], [], []

    def steps(place):
        out = []
        p = place
        while p is not None and p in places:
            out.append(places[p])
            p = places[p][1]
        return out

    def turn(body, place):
        chain = steps(place)
        depth = {"c": 0}

        # `let x = c.before.before in` only shortens paths: today every step is a field of c
        def alias(m):
            base = m.group(2)
            if base not in depth:
                return m.group(0)
            depth[m.group(1)] = depth[base] + m.group(3).count(".before")
            return ""

        body = re.sub(r"let ([\w'₀-₉]+) =\s+([\w'₀-₉]+)((?:\.before)*) in\s", alias, body)

        def one(m):
            v, befores, field = m.group(1), m.group(2) or "", m.group(3)
            if v not in depth:
                return m.group(0)
            k = depth[v] + befores.count(".before")
            if field in ("args", "requires", "ranges", "well_formed", "lifetimes", "type_inv"):
                return f"c.{field}{m.group(4)}"
            hits = [(i, s) for i, s in enumerate(chain) if norm(s[2][0]) == norm(field)]
            hits = hits or [(i, s) for i, s in enumerate(chain) if norm(s[2][0]) == norm(field.removesuffix("_lem"))]
            if not hits:
                notes.append(f"no step {field} at {place}")
                return m.group(0)
            i, s = min(hits, key=lambda h: abs(h[0] - k))
            rest = m.group(4)
            for place in chain:
                arm = arms.get(place[0])
                for new, old, path in arm[2] if arm else []:
                    want = "." + ".".join(path)
                    if path and norm(old) == norm(s[2][0]) and (rest + ".").startswith(want + "."):
                        return f"c.{arm[0]}.{new}{rest[len(want):]}"
            return f"c.{s[2][1]}{rest}"

        body = re.sub(r"(?<![\w'.\-])([\w'₀-₉]+)((?:\.before)*)\.(?!before\b)([\w'\-]+)((?:\.[\w'\-]+)*)", one, body)

        # what a call keeps was numbered by its parameters, and is named after them today
        def kept(m):
            step = next((s for s in chain if s[2][1] == m.group(1)), None)
            ps = T["params"].get(step[3]) if step else None
            if not ps or int(m.group(3)) >= len(ps):
                notes.append(f"c.{m.group(1)}.{m.group(2)}.{m.group(3)}: parameters not known")
                return m.group(0)
            return f"c.{m.group(1)}.{m.group(2)}.{ps[int(m.group(3))]}"

        body = re.sub(r"(?<![\w'.\-])c\.([\w'\-]+)\.(auto|new)\.(\d+)", kept, body)
        # today a test of `not x` says of x itself that it is false or true
        body = re.sub(r"\bnot-(?:true|false) (?:_|[\w'.\-]+) (c\.[\w'\-]+\.(?:true|false))", r"\1", body)
        for v in depth:
            if re.search(rf"(?<![\w'.\-]){re.escape(v)}(?:\.before)*(?![\w'.\-])", re.sub(r"λ[^.]*\.", "", body)):
                notes.append(f"{v} stands alone at {place}")
        return body

    order = {new: i for i, (old, new) in enumerate(T["needs"])}
    for name, lines in ds:
        sig = " ".join(lines)
        lead = [l for l in lines if l.startswith("--")]
        code = [l for l in lines if not l.startswith("--")]
        m = re.match(r"^(?:pub )?(?:abbrev )?(?:pub )?(\S+) : tie\.(invariant|decreases)[_-](\S+)", code[0])
        if m:
            kind, loop = m.group(2), m.group(3)
            key = next((k for k in loops if norm(k) == norm(loop)), None)
            if key is None:
                notes.append(f"no loop {loop}")
                continue
            new, vars_, changed = loops[key]
            joined = "\n".join(code)
            eq = re.search(
                rf"(?m)^{re.escape(name)}\b([^=]*?) =(?=\s)", joined[joined.index("\n") + 1:] if "\n" in joined else ""
            )
            rest = joined[joined.index("\n") + 1:]
            unf = [l for l in rest.split("\n") if l.startswith("unfolding")]
            params = eq.group(1).split()
            body = rest[eq.end():].rstrip()
            full = list(vars_) + [v for v, ch in zip(vars_, changed) if ch]
            if len(params) != len(full):
                notes.append(f"{kind} of {loop}: {len(params)} parameters for {full}")
                continue
            rec = "l"
            while re.search(rf"(?<![\w'.-]){rec}(?![\w'-])", body):
                rec = {"l": "s", "s": "v", "v": "at"}[rec]
            sub = {}
            for j, (p, v) in enumerate(zip(params, full)):
                if p == "_":
                    continue
                if j < len(vars_) and changed[j]:
                    sub[p] = f"{rec}.initial.{v}"
                else:
                    sub[p] = f"{rec}.{v}"
            body = re.sub(
                r"(?<![^\s(){}\[\],;])([^\s(){}\[\],;.=]+)(?=[\s(){}\[\],;.]|$)",
                lambda k: sub.get(k.group(1), k.group(1))
                if not re.match(r"\s*=\s", body[k.end():k.end() + 4])
                else k.group(1),
                body,
            )
            inv.append(
                "\n".join(
                    lead
                    + [f"abbrev pub {kind}-{new} : goal.{kind}-{new}"]
                    + unf
                    + [f"{kind}-{new} {rec} ={body}"]
                )
            )
            continue
        m = re.match(r"^(?:pub )?(\S+) : tie\.Need-(\S+)", code[0])
        if m:
            key = norm(m.group(2))
            key = {"loop-holds": "loop-init", "loop-less": "loop-smaller", "loop-again": "loop-preserved"}.get(key, key)
            joined = "\n".join(code)
            # the definition begins after the signature, which may take several lines
            d = re.search(rf"(?m)^{re.escape(name)}((?: [^=\n]*)?) =(?=\s)", joined)
            if not d:
                notes.append(f"no body of {name}")
                continue
            body = joined[d.end():].rstrip()
            unf = [l for l in joined[:d.start()].split("\n") if l.startswith("unfolding")]
            params = d.group(1).split()
            if TRIVIAL.match(body.strip()) and not unf:
                continue
            if key not in need_new:
                notes.append(f"no goal {m.group(2)}: {body.strip()[:60]}")
                continue
            new, place = need_new[key]
            ks = [k for k in params[1:] if k == "κs"]
            more = "".join(" " + k for k in params[1:] if k != "κs")
            b = turn(body, place)
            if params[:1] != ["c"]:
                notes.append(f"{new}: parameters {params}")
            for k in ks:
                if re.search(rf"(?<![\w'.-]){re.escape(k)}(?![\w'-])", b):
                    notes.append(f"{new} uses {k}")
            ans.append(
                (
                    order.get(new, 999),
                    "\n".join(
                        lead
                        + [f"pub {new} : goal.{new}"]
                        + unf
                        + [f"{new} {params[0] if params else ''}{more} ={b}"]
                    ),
                )
            )
            continue
        if re.search(r"\bstatement M\b", sig) or "tie.close" in sig:
            continue
        if "tie." in sig:
            notes.append(f"helper {name} names tie")
        ans.append((-1, "\n".join(lines).rstrip()))
    if notes:
        return "; ".join(notes)
    title = "\n".join(comments)
    # later goals come first where an answer is named by another: keep the order of the goals, helpers in front
    if inv:
        body = "\n\n".join(inv)
        with open(os.path.join(folder, "Invariants.antt"), "w", encoding="utf-8") as f:
            f.write(title + "\n" + "\n".join(uses) + f"\nuse {prefix}.Given as goal\n\n" + body + "\n")
    if ans:
        body = "\n\n".join(a for _, a in sorted(ans, key=lambda a: a[0]))
        with open(os.path.join(folder, "Answers.antt"), "w", encoding="utf-8") as f:
            f.write(
                (title + "\n" if not inv else "")
                + "\n".join(uses)
                + f"\nuse {prefix}.Goals as goal\n\n"
                + body
                + "\n"
            )
    os.remove(path)
    # only what is named is imported
    for n in ("Invariants.antt", "Answers.antt"):
        p = os.path.join(folder, n)
        if os.path.exists(p):
            prune(p)
    return None


def prune(p):
    with open(p, encoding="utf-8") as f:
        t = f.read()
    lines = t.split("\n")
    code = "\n".join(l for l in lines if not l.startswith("use ") and not l.startswith("--"))
    words = set(re.findall(r"[^\s(){}\[\];,.\"]+", code))
    out = []
    for l in lines:
        m = re.match(r"^use (\S+)\.\{(.*)\}$", l)
        if m:
            keep = []
            for n in m.group(2).split(","):
                n = n.strip()
                w = n.split(" as ")[-1].strip()
                if "◌" in w:
                    part = [x for x in w.split("◌") if x]
                    if all(x in code for x in part):
                        keep.append(n)
                elif w in words or not re.match(r"\w", w) and w in code:
                    keep.append(n)
            if not keep:
                continue
            l = f"use {m.group(1)}.{{{', '.join(keep)}}}"
        out.append(l)
    with open(p, "w", encoding="utf-8") as f:
        f.write("\n".join(out))


def main():
    for crate in sys.argv[1:]:
        table = names_of(crate)
        done = left = 0
        for folder, dirs, files in os.walk(f"crates/{crate}/proofs"):
            dirs.sort()
            if "Proof.antt" in files:
                p = os.path.join(folder, "Proof.antt")
                why = convert(crate, p, table)
                if why:
                    left += 1
                    print(f"left: {p}: {why}")
                else:
                    done += 1
        print(f"{crate}: {done} turned, {left} left")


main()
