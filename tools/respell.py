#!/usr/bin/env python3
"""Respells the definitions and lemmas of this repository: words in snake case, types in camel case.

usage: tools/respell.py [FOLDER]     the top of a checkout that port.py has turned; without it, this one

A name is turned where it is this repository's own. Names of the library, and those that the check makes of
source names (goals, steps, arms), keep their spelling. It stops, with nothing written, where two names
would fall together.
"""

import os
import re
import sys

TOKEN = re.compile(r"[^\W\d][\w'\u2115\u228e\u2225\u2081-]*", re.UNICODE)
MADE = ("Answers.antt", "Invariants.antt", "Proof.antt")
BINDER = re.compile(r"^(\s*)((?:(?:abbrev|unfoldable|pub|data|record) )*)([^\s:({]+)\s*(?=[:({])")
USE = re.compile(r"^\s*(?:ghost )?(?:pub )?use ([\w.\u00b7'+-]+?)(?:\.\{([^}]*)\}|(?: as (\S+?)))?;?\s*$")


def respelled(name):
    name = name.replace("getD", "get_or")
    words = name.split("-")
    if name[0].isupper():
        return "".join(w[0].upper() + w[1:] for w in words if w)
    return re.sub(r"(?<=[a-z])([A-Z])", lambda m: "_" + m.group(1), "_".join(words)).lower()


def files(top):
    for folder, dirs, names in os.walk(os.path.join(top, "crates")):
        dirs[:] = sorted(d for d in dirs if d != "out")
        for f in sorted(names):
            if f.endswith((".antt", ".rt")):
                yield os.path.join(folder, f)


def own(path, crates):
    """Whether a used path is of a file of this repository that a person wrote."""
    parts = path.split(".")
    return parts[0] == "Rattle" and len(parts) > 3 and parts[1] in crates and parts[-1] not in ("Goals", "Given") and "declared" not in parts


def comment(line, path):
    return line.lstrip().startswith("--" if path.endswith(".antt") else "//")


def main(top):
    crates = set(os.listdir(os.path.join(top, "crates")))
    texts = {p: open(p, encoding="utf-8").read() for p in files(top)}
    lemmas = {p for p in texts if p.endswith(".antt") and os.path.basename(p) not in MADE}
    turned, seen = {}, set()

    def imported(text):
        theirs, ours, aliases = set(), set(), set()
        for line in text.split("\n"):
            m = USE.match(line)
            if not m:
                continue
            names = [n.strip().split(" as ")[-1] for n in (m.group(2) or "").split(",")]
            if own(m.group(1), crates):
                ours.update(names)
                if m.group(3):
                    aliases.add(m.group(3))
            else:
                theirs.update(names)
        return theirs, ours, aliases

    for p in lemmas:
        theirs, _, _ = imported(texts[p])
        for line in texts[p].split("\n"):
            if comment(line, p):
                continue
            for name in TOKEN.findall(line):
                seen.add(name)
                name = name.rstrip("-")
                if "-" in name and name not in theirs and respelled(name) != name:
                    turned[name] = respelled(name)
        for line in texts[p].split("\n"):
            m = BINDER.match(line)
            if m and not comment(line, p) and TOKEN.fullmatch(m.group(3)) and respelled(m.group(3)) != m.group(3) and m.group(3) not in theirs:
                turned[m.group(3)] = respelled(m.group(3))
    back = {}
    for name, new in sorted(turned.items()):
        if new in seen or new in back:
            print(f"respell: {name} and {back.get(new, new)} would fall together as {new}", file=sys.stderr)
            return 1
        back[new] = name

    fields = set()
    for p in lemmas:
        inside = False
        for line in texts[p].split("\n"):
            if re.match(r"^(pub )?record ", line):
                inside = True
            elif line and not line.startswith((" ", "--")):
                inside = False
            m = BINDER.match(line)
            if inside and m and line.startswith(" "):
                fields.add(m.group(3))

    changed = 0
    for p, text in texts.items():
        theirs, ours, aliases = imported(text)
        out = []
        for line in text.split("\n"):
            if comment(line, p):
                out.append(line)
                continue
            uses = USE.match(line)

            def put(m):
                name = m.group(0)
                before = line[: m.start()]
                if name not in turned or name in theirs:
                    return name
                if uses and not own(uses.group(1), crates):
                    return name
                if p in lemmas or name in ours:
                    if p not in lemmas and before.endswith(".") and name not in fields:
                        owner = re.search(r"([\w'-]+)\.$", before)
                        if not uses and not (owner and owner.group(1) in aliases):
                            return name
                    return turned[name]
                owner = re.search(r"([\w'-]+)\.$", before)
                if name in fields or (owner and owner.group(1) in aliases):
                    return turned[name]
                return name

            out.append(TOKEN.sub(put, line))
        new = "\n".join(out)
        if new != text:
            with open(p, "w", encoding="utf-8") as f:
                f.write(new)
            changed += 1
    print(f"respell: {len(turned)} names turned in {changed} files")
    for name in sorted(turned):
        print(f"  {name} -> {turned[name]}")
    return 0


if __name__ == "__main__":
    raise SystemExit(main(sys.argv[1] if len(sys.argv) > 1 else os.path.join(os.path.dirname(os.path.abspath(__file__)), "..")))
