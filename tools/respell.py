#!/usr/bin/env python3
"""Spells this repository's own definitions and lemmas as today's Rattle does.

usage: python3 tools/respell.py [--list]      at the top of the repository, once, right after port.py

A name that specs/ or proofs/ declare with a dash gets underscores, and upper camel case where it begins with a capital (a type or a fact):
`closing-steps` becomes `closing_steps`, `Code-laws` becomes `CodeLaws`. Whole words alone turn: in .antt files and in .rt files (where a name
with a dash stands in ghost text alone), but for comments and strings; in must-fail edits; and in the code spans of comments, README.md and
docs/*.md. OTHER has what turns otherwise, and OUTPUT what stays on pages. --list prints the names and writes nothing.
An import's own name behind `as` turns in its file, and `AllByRecursion as All` is `AllByRecursion`, since All is another word of the library.
The names that Rattle makes for goals and steps stay, but where the repository has the same name, and so does a name in a file that imports
it from a library.
A name that would meet another is listed on a line that begins `meets:`, and then nothing is written.
"""

import collections
import glob
import os
import re
import sys

WORD = r'[^\s(){}.;,@"«»`]+'
TOKEN = re.compile(r'--[^\n]*|"(?:[^"\\\n]|\\.)*"|(?:(?<=\.))?' + WORD)
RUST = re.compile(r'//[^\n]*|b?"(?:\\[\s\S]|[^"\\])*"|' + WORD)
SPAN = re.compile(r"`[^`\n]+`")
DECLARED = re.compile(
    r"(?m)^ *(?:(?:abbrev|pub|unfoldable|record|data|private) )*([^\s(){}.;,@\"«»:]+)(?: [({][^\n]*?[)}])* :(?= |$)([^\n]*)"
)
USE = re.compile(r"\b(?:ghost )?use ([\w.·]+)\.\{([^}]*)\}")
# A name whose words said an older name of the library.
OTHER = {"getD-by-place": "slice_index_or_by_place"}
# Words of programs' inputs and outputs, which pages cite.
OUTPUT = {"two-step"}


def texts(*ends):
    for folder, dirs, files in os.walk("crates"):
        dirs[:] = sorted(d for d in dirs if d != "out")
        for f in sorted(files):
            if f.endswith(ends):
                yield os.path.join(folder, f)


def read(path):
    with open(path, encoding="utf-8") as f:
        return f.read()


def without_comments(text):
    return re.sub(r"--[^\n]*", "", text)


def declared():
    """The names that specs/ and proofs/ declare, and those of goals, which Rattle made."""
    own, made = collections.defaultdict(set), set()
    for path in texts(".antt"):
        for m in DECLARED.finditer(without_comments(read(path))):
            if m[2].strip().startswith("goal.") or "goal." + m[1] in m[2] or "·" in m[1]:
                made.add(m[1])
            else:
                own[m[1]].add(path)
    return own, made


def respelled(name):
    if name in OTHER:
        return OTHER[name]
    parts = name.split("-")
    if name[0].isupper():
        return "".join(p[:1].upper() + p[1:] for p in parts)
    return "_".join(parts)


def table():
    own, made = declared()
    rows = {n: respelled(n) for n in own if "-" in n and re.search("[A-Za-z]", n) and n not in made}
    meets = [f"meets: {n} -> {r}, declared in {sorted(own[r])} too" for n, r in rows.items() if r in own]
    counts = collections.Counter(rows.values())
    meets += [f"meets: {n} -> {r}, as another does" for n, r in rows.items() if counts[r] > 1]
    return rows, meets


def of_library(text, crates):
    """The names that a file imports from elsewhere than this repository's crates."""
    found = set()
    for m in USE.finditer(text):
        steps = m[1].split(".")
        if steps[0] == "Rattle" and len(steps) > 1 and steps[1] not in crates:
            found |= {n.strip().split(" as ")[0] for n in m[2].split(",")}
    return found


def aliases(text):
    """What a file calls its imports, where that has a dash."""
    names = [n for m in USE.finditer(text) for n in re.findall(r" as ([^\s,}]+)", m[2])]
    return {n: respelled(n) for n in names if "-" in n}


def without_all(text):
    if not re.search(r"AllByRecursion as All(?=[,}])", text):
        return text
    text = re.sub(r"AllByRecursion as All(?=[,}])", "AllByRecursion", text)
    return re.sub(r"(?<![\w'.·-])All(?![\w'-])", "AllByRecursion", text)


def turn(text, pattern, rows, keep, comment):
    def one(m):
        word = m[0]
        if word.startswith(comment):
            return SPAN.sub(lambda s: turn(s[0], pattern, rows, keep, comment) if len(s[0]) > 2 else s[0], word)
        if word[0] in '"' or word.startswith('b"'):
            return word
        before = text[: m.start()]
        if before.endswith("goal."):
            return word
        return rows.get(word, word) if word not in keep else word

    return pattern.sub(one, text)


def main():
    rows, meets = table()
    if "--list" in sys.argv:
        print("\n".join(f"{a}\t{b}" for a, b in sorted(rows.items())))
    if meets:
        print("\n".join(meets))
        return 1
    if "--list" in sys.argv:
        return 0
    crates = set(os.listdir("crates"))
    jobs = [(p, TOKEN, "--") for p in texts(".antt")]
    jobs += [(p, RUST, "//") for p in texts(".rt", ".edit")]
    changed = 0
    for path, pattern, comment in jobs:
        old = read(path)
        new = without_all(turn(old, pattern, rows | aliases(old), of_library(old, crates), comment))
        if new != old:
            changed += 1
            with open(path, "w", encoding="utf-8") as f:
                f.write(new)
    # Pages also cite names that port.py has turned already.
    names = set(declared()[0])
    for path in ["README.md", *sorted(glob.glob("docs/*.md"))]:
        old = read(path)
        words = {w for s in SPAN.findall(old) for w in re.findall(WORD, s) if "-" in w and re.search("[A-Za-z]", w)}
        cited = rows | {w: respelled(w) for w in words if respelled(w) in names}
        new = SPAN.sub(lambda s: turn(s[0], RUST, cited, OUTPUT, "//"), old)
        if new != old:
            changed += 1
            with open(path, "w", encoding="utf-8") as f:
                f.write(new)
    print(f"respell: {len(rows)} names, {changed} files")
    return 0


if __name__ == "__main__":
    raise SystemExit(main())
