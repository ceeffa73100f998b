#!/usr/bin/env python3
"""Brings the repository's own definitions, fields and lemmas to the spelling of the library: snake case, with _ between words.

usage: tools/respell.py [ROOT]

It ran once, right after the kit's own script, at the top of the repository. It reads the names that specs/ and the lemma files of proofs/ declare, and
respells each in every .antt file, in the clauses of every .rt file and in backticks in the pages. Types and modules keep their capitals, text in quotes stays,
and a name of a Rust function, a generated goal or a local variable is no name of its own here. Where two names would fall together, a definition keeps the plain
form and the lemma gets _lem; where the plain form was there already, the other gets _lem or, if it is a definition, _of.
The kit has a library named csv, so the program of that name is now report_csv.
"""

import collections
import glob
import os
import re
import sys

os.chdir(sys.argv[1] if len(sys.argv) > 1 else os.path.join(os.path.dirname(os.path.abspath(__file__)), ".."))

DECLARED = re.compile(r"^(\s*)(?:unfoldable |abbrev )?(?:pub )?(?:unfoldable |abbrev )?([^\s:(){}]+)((?: [^\s:(){}]+)*)\s*:\s")
TOKEN = re.compile(r"[^\s(){};,.:λ⌜⌝@\"`«»\[\]\\]+")
QUOTED = re.compile(r"b?\"(?:[^\"\\\n]|\\.)*\"|b?'(?:[^'\\\s]|\\.)'(?![\w'])")
WORDS = {"first_of", "by_std", "any_of", "tt"}


def snake(name):
    return re.sub(r"(?<=[a-z0-9])([A-Z])", lambda it: "_" + it[1].lower(), name).replace("-", "_")


def files(*ends):
    out = []
    for folder, dirs, names in os.walk("crates"):
        dirs[:] = sorted(it for it in dirs if it != "out")
        out += [os.path.join(folder, it) for it in sorted(names) if it.endswith(ends)]
    return out


def read(path):
    with open(path, encoding="utf-8", newline="") as it:
        return it.read()


def write(path, text):
    with open(path, "w", encoding="utf-8", newline="") as it:
        it.write(text)


def declared():
    """Returns the names of definitions and lemmas, and of fields and constructors."""
    top, inner = set(), set()
    for path in glob.glob("crates/*/specs/**/*.antt", recursive=True) + glob.glob("crates/*/proofs/*.antt"):
        inside = False
        for line in read(path).split("\n"):
            if line.lstrip().startswith(("--", "use ", "pub use ")):
                continue
            if re.match(r"\s*(pub )?(record|data)\b", line):
                inside = True
                continue
            found = DECLARED.match(line)
            if found and found[2] not in ("use", "pub", "record", "data", "module"):
                (inner if inside and found[1] else top).add(found[2])
                inside = inside and bool(found[1])
            elif not line.strip():
                inside = False
    return top, inner


def taken():
    """Returns the names that the files bring in from the kit's libraries."""
    own, out = os.listdir("crates"), set()
    for path in files(".antt", ".rt"):
        for found in re.finditer(r"use ([\w.·]+)\.\{([^}]*)\}", read(path)):
            parts = re.split(r"[.·]", found[1])
            if not (parts[0] == "Rattle" and parts[1] in own):
                out |= {re.split(r"\s+as\s+", it.strip())[-1] for it in found[2].split(",")}
    return out


def renamed():
    top, inner = declared()
    from_kit = taken()
    plain = lambda it: it[0].islower() and it.isascii() and re.fullmatch(r"[A-Za-z0-9_'-]+", it)
    turned = sorted(it for it in top | inner if plain(it) and snake(it) != it)
    by_new = collections.defaultdict(list)
    for it in turned:
        by_new[snake(it)].append(it)
    out = {}
    for new, olds in by_new.items():
        is_there = new in (top | inner) or new in from_kit or new in WORDS
        for old in olds:
            is_lemma = "-" in old
            if old in inner and old not in top and new not in top:
                out[old] = new
            elif is_there:
                out[old] = new + ("_lem" if is_lemma else "_of")
            else:
                out[old] = new + ("_lem" if is_lemma and len(olds) > 1 else "")
    # a field may have the name of a definition; two definitions or lemmas may not
    seen = set()
    for old in sorted(out):
        if old in top:
            while out[old] in seen:
                out[old] += "_2"
            seen.add(out[old])
    return out


def respelled(text, names):
    """The text with the names of its tokens turned, but for what stands in quotes."""
    parts, at = [], 0
    turn = lambda it: TOKEN.sub(lambda word: names.get(word[0], word[0]), it)
    for found in QUOTED.finditer(text):
        parts += [turn(text[at : found.start()]), found[0]]
        at = found.end()
    return "".join(parts) + turn(text[at:])


def main():
    if os.path.isdir("crates/csv"):
        os.rename("crates/csv", "crates/report_csv")
        write("crates.txt", re.sub(r"(?m)^csv:", "report_csv:", read("crates.txt")))
    names = renamed()
    for path in files(".antt", ".rt"):
        text = read(path)
        # a proof of one function has labels that the kit makes: what follows a dot there may be one
        is_of_function = "/proofs/" in path and path.count("/") > 3
        if is_of_function:
            fields = set(names) & set(declared_fields)
            parts = re.split(r"(\.(?=[^\s(){};,.{]+))", text)
            new = "".join(
                it if it == "." else head(it, names, fields, after=(i > 0 and parts[i - 1] == ".")) for i, it in enumerate(parts)
            )
        else:
            new = respelled(text, names)
        if new != text:
            write(path, new)
    # what the kit's script turned already, by the pages
    for path in ["README.md", *sorted(glob.glob("docs/*.md"))]:
        text = read(path)
        new = re.sub(r"`[^`\n]+`", lambda it: TOKEN.sub(lambda word: names.get(word[0], word[0]) if re.search(r"[a-z][A-Z]|-", word[0]) else word[0], it[0]), text)
        if new != text:
            write(path, new)
    print(f"{len(names)} names")


def head(part, names, fields, after):
    """Turns a part between two dots: its first token only if it is a field of a record of the repository, or follows no dot."""
    if not after:
        return respelled(part, names)
    found = TOKEN.match(part)
    if not found:
        return respelled(part, names)
    first = names[found[0]] if found[0] in fields else found[0]
    return first + respelled(part[found.end() :], names)


if __name__ == "__main__":
    declared_fields = declared()[1]
    main()
