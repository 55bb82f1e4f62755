#!/usr/bin/env python3
"""Spells this repository's own definitions, lemmas, fields and constructors in snake case: recordBytes -> record_bytes, take-part -> take_part.

usage: tools/respell.py [--check]        at the top of the repository, once, right after the toolchain's port.py

Types, modules, source names and names that the toolchain makes keep their spelling. A name is ours if a file of specs/ or a lemma file of
proofs/ declares it; it is turned in specs/, proofs/, the clauses and ghost items of src/, and the code spans of comments and pages. A name stays
in a file that imports it from a library. A part of a lemma's name that is a type keeps its capital and its dash: OnCard-majority. A lemma or a field that
would have the name of a definition ends in _lem: is-size beside isSize. Lines that begin 'stays:' say what was not turned, and why.
"""

import glob
import re
import sys

WORD = re.compile(r'[^\s(){}.;,@"«»]+')
DECLARED = re.compile(r"(?m)^ *(?:(?:pattern|unfoldable|abbrev|pub|record|data) )*([^\s(){}.;,@\"«»:=]+)(?: \{[^{}\n]*\})*(?: \([^()\n]*\))* :(?= |$)")
TYPES = re.compile(r"(?m)^ *(?:(?:pub|record|data) )+([A-Z]\w*)")
USE = re.compile(r"(?m)^\s*(?:ghost )?(?:pub )?use ([^\s;{]+?)\.?(?:\{([^}]*)\})?;?$")
CLAUSE = re.compile(r"\b(?:requires|ensures|ghost)\b[^{;\n]*\{")
# Lemmas that port.py has turned already and that meet a definition now, each with where it stands.
LEMMAS = {"entry_in": "crates/demand3/", "no_copy": "crates/demand3/", "whole_run": "crates/demand3/"}
# A field of a struct of src/ and the definition of what it holds: one is only ever a label.
ALIKE = {"last_epoch"}


def read(path):
    with open(path, encoding="utf-8") as file:
        return file.read()


def own_files():
    return sorted(glob.glob("crates/*/specs/*.antt") + glob.glob("crates/*/proofs/*.antt"))


def snake(name, types):
    """The name in snake case; a part that is a type keeps its capital and the dashes beside it."""
    parts = name.split("-")
    out = ""
    for at, part in enumerate(parts):
        is_type = part in types
        if not is_type:
            part = re.sub(r"(?<=[a-z0-9])(?=[A-Z])", "_", part)
            part = re.sub(r"(?<=[A-Z])(?=[A-Z][a-z])", "_", part).lower()
        if at:
            out += "-" if is_type or parts[at - 1] in types else "_"
        out += part
    return out


def names():
    """Each declared name that is not in snake case yet, with its new spelling."""
    declared, types = set(), set()
    for path in own_files():
        text = read(path)
        declared |= set(DECLARED.findall(text))
        types |= set(TYPES.findall(text))
        for line in text.split("\n"):
            several = re.match(r"^ +((?:[A-Za-z][\w-]* )+): [A-Z]\w*( |$)", line)
            if several:
                declared |= set(several.group(1).split())
    table = {}
    for name in declared:
        if name[0].isupper() or "◌" in name or not re.search(r"[A-Z-]", name):
            continue
        if snake(name, types) != name:
            table[name] = snake(name, types)
    return table


def is_ours(module):
    return re.match(r"Rattle\.(?!std\b|core\b)", module) and ".declared." not in module


def from_library(text):
    out = set()
    for module, items in USE.findall(text):
        if not is_ours(module) and items:
            out |= {item.split(" as ")[0].strip() for item in items.split(",")}
    return out


def code_of(path, text):
    """The stretches of the file in which names are turned, as (begin, end)."""
    if path.endswith(".antt"):
        return [(0, len(text))]
    spans = [m.span() for m in re.finditer(r"(?m)^ghost use [^;]*;", text)]
    for m in CLAUSE.finditer(text):
        depth, at = 1, m.end()
        while depth and at < len(text):
            depth += {"{": 1, "}": -1}.get(text[at], 0)
            at += 1
        spans.append((m.end(), at))
    return spans


def source_names():
    """The words of src/, which the toolchain's names are made of."""
    return {word for path in glob.glob("crates/*/src/**/*.rt", recursive=True) for word in re.findall(r"\b[a-z]\w*_\w+", read(path))}


def turn(path, text, spans, table, made):
    """The text with its names turned. Below a function's folder a path's step is the toolchain's if it is spelled like a name of src/."""
    below = re.search(r"/proofs/.*/", path)
    out, last = "", 0
    for begin, end in sorted(spans):
        if begin < last:
            continue

        def word(m):
            name = m.group()
            if below and text[begin + m.start() - 1 : begin + m.start()] == "." and name.replace("-", "_") in made:
                return name.replace("-", "_")
            if name in LEMMAS and not path.startswith(LEMMAS[name]):
                return name
            return table.get(name, name)

        out += text[last:begin] + WORD.sub(word, text[begin:end])
        last = end
    return out + text[last:]


def turn_spans(text, table):
    """Code spans of comments and pages."""
    return re.sub(r"`[^`\n]+`", lambda m: WORD.sub(lambda w: table.get(w.group(), w.group()), m.group()), text)


def all_files():
    return sorted(glob.glob("crates/*/specs/**/*.antt", recursive=True) + glob.glob("crates/*/proofs/**/*.antt", recursive=True) + glob.glob("crates/*/src/**/*.rt", recursive=True))


def words_of(path, text):
    """The words of the file's code; below a function's folder without paths, whose names the toolchain makes."""
    words = set()
    for begin, end in code_of(path, text):
        code = re.sub(r"--[^\n]*", "", text[begin:end])
        if re.search(r"/proofs/.*/", path) or path.endswith(".rt"):
            code = re.sub(r"(?m)^use [^{\n]*", "", code)
            code = re.sub(r"\.[^\s(){}.;,@\"«»]+", "", code)
        words |= set(WORD.findall(code))
    return words


def meets(table):
    """Names whose new spelling stands for something else in some file that has the old one."""
    bad = {}
    for path in all_files():
        text = read(path)
        words = words_of(path, text)
        library = from_library(text)
        new = {}
        for word in words:
            if word in table and word not in library:
                new.setdefault(table[word], set()).add(word)
        for spelled, olds in new.items():
            both = olds | ({spelled} & words - set(table))
            if len(both) > 1 and (spelled not in ALIKE or len(olds) > 1):
                bad.setdefault(spelled, (set(), path))[0].update(both)
    return bad


def main():
    check = "--check" in sys.argv[1:]
    table = names()
    while True:
        bad = meets(table)
        for spelled, (olds, path) in sorted(bad.items()):
            for old in sorted(olds):
                if "-" in old or (old in LEMMAS and old == spelled):
                    table[old] = spelled + "_lem"
            print(f"meets: {sorted(olds)} in {path}: {[table.get(old, old) for old in sorted(olds)]}")
        if not bad:
            break
    made = source_names()
    for path in all_files():
        text = read(path)
        library = from_library(text)
        own = {old: new for old, new in table.items() if old not in library}
        for name in sorted(library & set(table)):
            print(f"stays: {name}: of a library in {path}")
        turned = turn_spans(turn(path, text, code_of(path, text), own, made), own)
        if turned != text and not check:
            with open(path, "w", encoding="utf-8") as file:
                file.write(turned)
    for path in ["README.md", *glob.glob("docs/*.md"), *glob.glob("docs/requests/*.md")]:
        if path == "docs/PORT.md":
            continue
        text = read(path)
        turned = turn_spans(text, table)
        if turned != text and not check:
            with open(path, "w", encoding="utf-8") as file:
                file.write(turned)
    print(f"{len(table)} names turned")


if __name__ == "__main__":
    main()
