#!/usr/bin/env python3
"""Brings the repository's own definitions and lemmas to today's spelling, after /opt/rattle/port/port.py.

usage: tools/respell.py [--list]      at the top of the repository; --list prints the names and changes nothing

Words are in snake case: `byteIn` becomes `byte_in`. A dash stays where it joins two names, of definitions, constructors, types or of the
library, as in `letter_of-byte`; a plain word is added with `_`, as in `end_some`. Types, modules, functions of src/, and names that a file
takes from the library stay. Texts of must-fail edits are not turned here. It names what would fall together on standard error.
"""

import glob
import os
import re
import sys

# Names that would fall together, told apart by hand.
TOGETHER = {
    "first-in": "first_within",
    "second-in": "second_within",
    "noPremise": "is_dash_premise",
    "no-premise": "no_premise",
    "wellFormed": "is_well_formed",
    "well-formed": "well_formed",
    "to-z": "up_to_z",
    "found_as": "found_as_lem",
    "text_at": "text_at_lem",
    "by_names": "by_names_lem",
}

NAME = r"[A-Za-z_Α-ωµℕ⊎¬∀'′₀-₉₊⁺⁻·⋆*ℤ∙][A-Za-z0-9_Α-ωµℕ⊎¬∀'′₀-₉₊⁺⁻·⋆*ℤ∙-]*"
TOKEN = re.compile(r"(?<![\w'₀-₉◌-])([A-Za-z][\w'₀-₉]*(?:-[\w'₀-₉]+)*)(?![\w'₀-₉◌-])")
HEAD = re.compile(r"(?:(?:abbrev|unfoldable|pub|ruleset|instance) )*([^\s:(){}]+)(?=\s|$)")


def read(p):
    with open(p, encoding="utf-8") as f:
        return f.read()


def declared(path):
    """The names that a file of specs/ or proofs/ declares: pairs of name and kind."""
    kind = None
    for line in read(path).split("\n"):
        code = line.split("--")[0] if line.startswith("--") else line
        if not code.strip():
            continue
        if not code[0].isspace():
            m = re.match(r"(?:pub )?(data|record) (\S+)", code)
            if m:
                kind = m.group(1)
                yield m.group(2), "type"
                continue
            kind = None
            if re.match(r"(use|open|mod|pub mod|pub use|unfolding|syntax|infix)\b", code):
                continue
            m = HEAD.match(code)
            if m and re.match(r"\s*:(\s|$)", code[m.end():]):
                yield m.group(1), "word" if re.match(r"(abbrev|unfoldable)\b", code) else "lemma"
        elif kind and re.match(r"  \S", code):
            m = re.match(r"  (?:pub )?([^:(){}]+?) :(\s|$)", code)
            if m:
                for n in m.group(1).split():
                    yield n, "label"


def imported(text):
    """Names that a file takes from elsewhere than this repository's crates."""
    own = {os.path.basename(c) for c in glob.glob("crates/*")}
    for m in re.finditer(r"(?m)^(?:pub )?(?:ghost )?use ([^\s{;]+)(?:\{([^}]*)\})?", text):
        if "::" in m.group(1):
            continue
        path = m.group(1).split(".")
        if path[0] == "Rattle" and len(path) > 1 and path[1] in own:
            continue
        for n in (m.group(2) or path[-1]).split(","):
            yield n.strip().split(" as ")[0]
            yield n.strip().split(" as ")[-1]


def snake(part):
    return re.sub(r"(?<=[a-z0-9])([A-Z])(?=[a-z]|$|')|(?<=[a-z0-9])([A-Z])(?=[A-Z₀-₉])", lambda m: "_" + (m.group(1) or m.group(2)), part)


def lowered(part):
    """`byteIn` as `byte_in`; a letter that stands alone at the end, as in `asksJ`, is the calculus' and keeps its case."""
    if not re.match(r"[a-z]", part) or not re.search(r"[A-Z]", part):
        return part
    words = re.findall(r"[a-z0-9_]+|[A-Z](?![a-z])|[A-Z][a-z0-9_]*|['′₀-₉]+", part)
    out = ""
    for w in words:
        if out and not re.match(r"['′₀-₉]", w):
            out += "_"
        out += w if len(w) == 1 and w.isupper() else w[0].lower() + w[1:]
    return out.replace("__", "_")


def main():
    files = [f for f in glob.glob("crates/*/**/*", recursive=True) if f.endswith((".rt", ".antt")) and "/out/" not in f]
    lib, own = set(), {}
    for f in files:
        lib |= set(imported(read(f)))
        if re.search(r"/(specs|proofs)/[^/]*\.antt$", f):
            for n, kind in declared(f):
                own.setdefault(n, set()).add(kind)
    functions = {n for f in files if f.endswith(".rt") for n in re.findall(r"\bfn (\w+)", read(f))}
    words = {lowered(n) for n in own if own[n] & {"word", "label", "type"} and "-" not in n} | {n for n in lib if "-" not in n} | functions
    words |= {"J", "R", "H", "A", "I", "B", "K", "S"}
    turned = {}
    for n in own:
        if n in lib or "type" in own[n] or not TOKEN.fullmatch(n):
            continue
        parts = [lowered(p) for p in n.split("-")]
        out = parts[0]
        for a, b in zip(parts, parts[1:]):
            out += ("-" if a in words and b in words else "_") + b
        if out != n:
            turned[n] = out
    # A lemma that would have a definition's name gets `_lem`; names that fall together otherwise are for a person to tell apart.
    outs = {out for n, out in turned.items() if own[n] != {"lemma"}} | {n for n in own if own[n] != {"lemma"}}
    lemmas = set()
    for n in own:
        if own[n] == {"lemma"} and turned.get(n, n) in outs and n not in lib and n not in TOGETHER:
            turned[n] = turned.get(n, n) + "_lem"
            lemmas.add(n)
    turned.update(TOGETHER)
    lemmas |= {n for n, out in TOGETHER.items() if out.endswith("_lem")}
    for n, out in sorted(turned.items()):
        others = [m for m in own if m != n and turned.get(m, m) == out]
        if others or out in lib:
            print("respell: names fall together:", n, *others, "->", out, file=sys.stderr)
    if "--list" in sys.argv:
        for n, out in sorted(turned.items()):
            print(n, out, "(a lemma)" if n in lemmas else "")
        return

    def other(m, line, f):
        n = m.group(1)
        if n in lemmas and (f.endswith(".rt") or line[: m.start()].endswith(".")):
            return n
        return turned.get(n, n)

    for f in files:
        text = read(f)
        lines = []
        for line in text.split("\n"):
            lines.append(TOKEN.sub(lambda m: other(m, line, f), line))
        new = "\n".join(lines)
        if new != text:
            with open(f, "w", encoding="utf-8") as out:
                out.write(new)


main()
