#!/usr/bin/env python3
"""Spells the definitions and lemmas of specs/ and proofs/ in snake case, as today's Rattle does.

usage: tools/snake_names.py [--check]      at the top of the repository, once, right after port.py

A dash in a name that a file of specs/ or a lemma file of proofs/ declares (a definition, a lemma, a constructor, a field) becomes
an underscore, wherever the name stands: in specs/, proofs/, the clauses of src/, the must-fail edits, and between backquotes in
the pages. Names that Rattle makes, names of the library, functions, strings, inputs and outputs keep theirs. A name that would
fall together with another one in a file that has both is given an ending (TAKEN). --check writes nothing and says which do.
"""
import glob, os, re, sys

CRATES = "terms words search text checking catalogue puvainy find checker replay".split()
WORD = re.compile(r"[^\s(){}\[\],;.@\"«»`]+")
DECLARED = re.compile(r"^[ \t]*(?:(?:abbrev|unfoldable|pub|opaque|private|irreducible|record|data) )*([^\s(){}\[\],;.@\"«»]+)(?: [^\n:→]*)? :(?=\s)", re.M)
# Fields and constructors that share a line and a type.
SEVERAL = re.compile(r"^[ \t]*(?:pub )?((?:[^\s(){}\[\],;.@\"«»→:]+ )+):(?=\s)", re.M)
USE = re.compile(r"^[ \t]*(?:pub |unfoldable |ghost )*use ([^\s{};]+?)(?:\.\{([^{}]*)\}| as ([^\s;]+))?;?[ \t]*$", re.M)
STRING = re.compile(r'("(?:[^"\\\n]|\\.)*")')
COMMENT = re.compile(r"(?<![^\s(){}\[\],;])--[^\n]*")
# What falls together: the name as declared, and what it is called instead.
TAKEN = {}


def read(path):
    with open(path, encoding="utf-8") as it:
        return it.read()


def bare(text):
    return COMMENT.sub("", text)


def is_walk(path):
    return "/proofs/" in path and path.endswith("/Proof.antt")


def declared(paths):
    names = set()
    for path in paths:
        if not is_walk(path):
            text = bare(read(path))
            found = DECLARED.findall(text) + [n for it in SEVERAL.findall(text) for n in it.split()]
            names |= {n for n in found if re.search(r"[^\W\d_]\S*-\S", n) and not n.startswith("-")}
    return names


def strangers(text):
    """The names that the file brings from elsewhere than the repository's crates."""
    found = set()
    for path, names, _ in USE.findall(text):
        if not re.match(r"Rattle\.(%s)\." % "|".join(CRATES), path):
            found |= set(re.split(r"[\s,]+", names))
    return found


def turned(text, names, skip):
    """The text with the names turned, its strings left alone."""
    parts = STRING.split(text)
    parts[::2] = [WORD.sub(lambda m: names[m[0]] if m[0] in names and m[0] not in skip else m[0], it) for it in parts[::2]]
    return "".join(parts)


def main(check):
    antt = sorted(glob.glob("crates/*/**/*.antt", recursive=True))
    rust = sorted(glob.glob("crates/*/src/**/*.rt", recursive=True))
    edits = sorted(glob.glob("crates/*/must-fail*/*.edit"))
    own = declared(antt)
    names = {n: TAKEN.get(n, n.replace("-", "_")) for n in own}
    by_new = {}
    for n, new in names.items():
        by_new.setdefault(new, []).append(n)
    for new, olds in sorted(by_new.items()):
        if len(olds) > 1:
            print("together:", new, olds)
    for path in antt + rust:
        text = read(path)
        words = set(WORD.findall(USE.sub(lambda m: f"{m[2] or ''} {m[3] or ''}", bare(text))))
        skip = strangers(text)
        for n in sorted(words & own - skip):
            if names[n] in words and names[n] not in own:
                print(f"taken: {path}: {n} -> {names[n]}")
        if not check:
            new = turned(text, names, skip) if path.endswith(".antt") else in_clauses(text, names)
            if new != text:
                with open(path, "w", encoding="utf-8") as it:
                    it.write(new)
    for path in edits:
        text = read(path)
        new = turned(text, names, set()) if re.search(r"^file: (specs|proofs)/", text, re.M) else in_clauses(text, names)
        if new != text and not check:
            with open(path, "w", encoding="utf-8") as it:
                it.write(new)
    pages = ["README.md"] + sorted(glob.glob("docs/*.md")) + sorted(glob.glob("docs/changes/*.md"))
    for path in pages:
        text = read(path)
        new = re.sub(r"`[^`\n]+`", lambda m: turned(m[0], names, set()), text)
        if new != text and not check:
            with open(path, "w", encoding="utf-8") as it:
                it.write(new)
    print(len(own), "names")


def in_clauses(text, names):
    """Of a .rt file the lines of clauses and imports: code has no dash without a space or a number beside it."""
    out = []
    for line in text.split("\n"):
        code = line.split("//")[0]
        out.append(turned(code, names, set()) + line[len(code):])
    return "\n".join(out)


if __name__ == "__main__":
    main("--check" in sys.argv[1:])
