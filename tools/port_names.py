#!/usr/bin/env python3
"""Brings the repository's own names to today's spelling, once, after /opt/rattle/port/port.py.

usage: python3 tools/port_names.py [ROOT]

Definitions, lemmas and variables in lower camel case become snake case, also as a part of a name that dashes join; a
constructor or a field whose words are joined by dashes has them joined by underscores; `f-spec`, the proof of a function,
becomes `f_spec`. A type keeps its upper camel case. Works on the .antt and .rt files below crates/, and on the words
between backticks in README.md and docs/*.md. It stops, and writes nothing, where two names would fall together.
"""
import os
import re
import sys

CAMEL = re.compile(r"(?<![A-Za-z0-9_'])[a-z][A-Za-z0-9_']*[A-Z][A-Za-z0-9_']*")
TOKEN = re.compile(r"[^\s(){}\[\],;.`\"]+")
# Types in lower case, which upper camel case is for.
TYPES = {"meet": "Meet"}
# What a file imports.
USE = re.compile(r"(?m)^(?:ghost )?use ([^\s{;]+?)(?:\.\{([^}]*)\})?;?\s*(?: as .*)?$")


def snake(word):
    return re.sub(r"([a-z0-9'])([A-Z])", r"\1_\2", word).lower()


def files(root, ends):
    for folder, dirs, names in os.walk(os.path.join(root, "crates")):
        dirs[:] = sorted(d for d in dirs if d not in ("out", "target"))
        for n in sorted(names):
            if n.endswith(ends):
                yield os.path.join(folder, n)


def members(text):
    """The constructors of the data and the fields of the records of a file."""
    inside = False
    for line in text.split("\n"):
        if re.match(r"(pub )?(data|record) .* where\s*$", line):
            inside = True
        elif inside and re.match(r"  (pub )?[^\s:]+ :", line):
            yield re.match(r"  (?:pub )?([^\s:]+) :", line).group(1)
        elif line[:1] not in (" ", "-", "") or not line.strip():
            inside = False


def main(root):
    text = {}
    for p in files(root, (".antt", ".rt")):
        with open(p, encoding="utf-8") as f:
            text[p] = f.read()
    own = set(os.listdir(os.path.join(root, "crates")))
    others = set()
    for t in text.values():
        for m in USE.finditer(t):
            path = m.group(1).split(".")
            if not (path[0] == "Rattle" and len(path) > 1 and path[1] in own):
                others.update(w for w in re.findall(r"[A-Za-z_][A-Za-z0-9_']*", m.group(0)))
    camel = {w for t in text.values() for w in CAMEL.findall(t)} - others
    joined = {m for p, t in text.items() if p.endswith(".antt") for m in members(t) if "-" in m and re.match(r"[a-z]", m)}
    tokens = {w for p, t in text.items() if p.endswith(".antt") for w in TOKEN.findall(re.sub(r"--.*", "", t))}
    bad = []
    for j in joined:
        if j.replace("-", "_") in tokens:
            bad.append((j, j.replace("-", "_")))
    defined = {}
    for p, t in text.items():
        if p.endswith(".antt"):
            for m in re.finditer(r"(?m)^(?:(?:unfoldable|abbrev|pub|pattern) )*([^\s:]+) :", t):
                defined.setdefault((os.path.dirname(p).split("/crates/")[1].split("/")[0], os.path.basename(p), m.group(1)), 0)
    for crate, base, name in list(defined):
        if CAMEL.fullmatch(name) and (crate, base, snake(name)) in defined:
            bad.append((name, snake(name), base))
    if bad:
        print("fall together: " + ", ".join(map(str, sorted(bad))))
        return 1

    def word(m):
        return snake(m.group(0)) if m.group(0) in camel else m.group(0)

    def token(m):
        w = m.group(0)
        if w in joined:
            w = w.replace("-", "_")
        return TYPES.get(w, w)

    changed = 0
    for p, t in text.items():
        u = t
        if p.endswith(".antt"):
            u = TOKEN.sub(token, u)
            m = re.search(r"/proofs/(?:.*/)?([^/]+)/Proof\.antt$", p)
            if m:
                for f in {m.group(1), *re.findall(r"proofs\.([a-z_0-9]+)\.Statement", u)}:
                    u = re.sub(r"(?<![\w'-])" + re.escape(f.replace("_", "-")) + r"-spec(?![\w'-])", f + "_spec", u)
        u = CAMEL.sub(word, u)
        if u != t:
            changed += 1
            with open(p, "w", encoding="utf-8") as f:
                f.write(u)
    for p in [os.path.join(root, "README.md")] + [os.path.join(root, "docs", n) for n in sorted(os.listdir(os.path.join(root, "docs"))) if n.endswith(".md")]:
        with open(p, encoding="utf-8") as f:
            t = f.read()
        u = re.sub(r"`[^`\n]+`", lambda m: CAMEL.sub(word, TOKEN.sub(token, m.group(0))), t)
        if u != t:
            changed += 1
            with open(p, "w", encoding="utf-8") as f:
                f.write(u)
    print("of others: " + " ".join(sorted(w for w in others if CAMEL.fullmatch(w))))
    print(f"{len(camel)} words in camel case, {len(joined)} members with dashes, {changed} files changed")
    return 0


if __name__ == "__main__":
    raise SystemExit(main(sys.argv[1] if len(sys.argv) > 1 else "."))
