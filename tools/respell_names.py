#!/usr/bin/env python3
"""Respells this repository's own definitions and lemmas as today's library spells its own: words in snake case.

usage: python3 tools/respell_names.py [--list]      once, at the top, after the port.py of the kit
       --list: prints the table OLD NEW, and writes nothing

A definition in camel case (chunkSize) becomes snake case (chunk_size). In a lemma a dash stays where it joins two
definitions (bit_at-set_range) and becomes an underscore where it joins a plain word (needed-twice, needed_twice). A name
that would fall together with another, or with a parameter beside it, gets '_lem'. It goes by text, over the .rt, .antt and
.edit files of crates/.
"""

import collections
import os
import re
import sys

WORD = re.compile(r"[A-Za-z_0-9'ℕℤμκ₀₁₂₃⁻¹≤≢⊎·-]+")
DEFINES = re.compile(r"(abbrev |unfoldable )?(?:pub )?(record |data )?([^\s:(){}]+)(?: [({].*[)}])?\s*:(?:\s|$)")
FIELD = re.compile(r"  (?:pub )?([^\s:(){}|]+)\s*:\s")
VARIANT = re.compile(r"  \| ([^\s:(){}]+)\s*:\s")
IMPORT = re.compile(r"(?ms)^(?:pub )?(?:ghost )?use ([^\s;{]+)\.\{(.*?)\}")
FUNCTION = re.compile(r"\bfn ([a-z_0-9]+)")
PARAMETER = re.compile(r"[(,]\s*(?:mut )?([a-z_0-9]+):")
# What the library has of the names that this repository's lemmas begin with.
LIBRARY = set("length take drop set map get_or append min max suc zero ones div mod mul add sub pow replicate reverse sum".split())
# Fields that would be named as a definition.
FIELDS = {"is-named": "node_named", "trusted-in": "trusted_within", "chunk_in": "chunk_within"}
# What the library calls its own names now.
RENAMED = {"getD": "get_or"}


def files(root, ends):
    for folder, dirs, names in os.walk(root):
        dirs[:] = sorted(d for d in dirs if d not in ("out", ".git", "target"))
        for name in sorted(names):
            if name.endswith(ends):
                yield os.path.join(folder, name)


def text_of(path):
    with open(path, encoding="utf-8") as f:
        return f.read()


def is_walk(path):
    return os.path.basename(path) == "Proof.antt"


def is_own(module):
    return re.match(r"Rattle\.(?!std\.)\w+\.(specs|proofs)\.", module) and not re.search(r"\.(Statement|Tie|declared.*)$", module)


def snake(word):
    word = re.sub(r"([a-z0-9])([A-Z])", r"\1_\2", word)
    return re.sub(r"([A-Z])([A-Z][a-z])", r"\1_\2", word).lower()


def part_of(part):
    """A dash's side: a fact (capital) keeps its spelling, anything else is in snake case."""
    part = RENAMED.get(part, part)
    return snake(part) if re.match(r"[a-z]", part) and re.search(r"[A-Z]", part) else part


def read(root):
    """The defined names: of definitions, of lemmas, and where each stands."""
    words, lemmas, at = set(), set(), collections.defaultdict(set)
    for path in files(os.path.join(root, "crates"), (".antt",)):
        if is_walk(path):
            continue
        opens = False
        for line in text_of(path).splitlines():
            if line.startswith(("--", "use ", "pub use ", "mod ", "pub mod ")):
                continue
            m = DEFINES.match(line) if not line.startswith(" ") else None
            if m:
                name, opens = m.group(3), bool(m.group(2))
                (words if m.group(1) or m.group(2) else lemmas).add(name)
                at[name].add(path)
                continue
            m = (FIELD.match(line) or VARIANT.match(line)) if opens else None
            if m:
                words.add(m.group(1))
                at[m.group(1)].add(path)
            elif line and not line.startswith(" "):
                opens = False
    return words, lemmas, at


def table(root):
    words, lemmas, at = read(root)
    functions = set()
    for path in files(os.path.join(root, "crates"), (".rt",)):
        functions |= set(FUNCTION.findall(text_of(path)))
    known = {part_of(w) for w in words} | functions | LIBRARY
    new = {}
    for name in sorted(words | lemmas):
        parts = [part_of(p) for p in name.split("-")]
        if not all(re.fullmatch(r"[A-Za-z0-9_'ℕ₀₁₂]+", p) for p in parts):
            continue
        said = parts[0]
        for left, right in zip(parts, parts[1:]):
            said += ("-" if left in known and right in known or left[:1].isupper() or right[:1].isupper() else "_") + right
        said = FIELDS.get(name, said)
        if said != name:
            new[name] = said
    return apart(root, new, words | lemmas, at, words), words, lemmas


def apart(root, new, names, at, words):
    """No two names fall together, and none is hidden by a parameter or a local name of a file that has it. A definition
    goes before a lemma."""
    by = collections.defaultdict(list)
    for n in sorted(names):
        by[new.get(n, n)].append(n)
    for said, olds in by.items():
        if len(olds) > 1:
            first = sorted(olds, key=lambda n: (n not in words, n in new, n))[0]
            for n in olds:
                if n != first:
                    print("together", said, first, n, n in words, file=sys.stderr)
                    new[n] = said + "_lem"
    wanted = {said: n for n, said in new.items()}
    clash = collections.defaultdict(set)
    for path in files(os.path.join(root, "crates"), (".rt", ".antt")):
        text = text_of(path)
        here = set(WORD.findall(text))
        foreign = set()
        for module, listed in IMPORT.findall(text):
            if not is_own(module):
                foreign |= {n.split(" as ")[-1].strip() for n in listed.split(",")}
        if path.endswith(".rt"):
            local = set(PARAMETER.findall(text)) | set(re.findall(r"\blet (?:mut )?([a-z_0-9]+)", text))
        else:
            local = set(WORD.findall(re.sub(r"(?m)^(pub )?(use|mod) .*$|--.*$", "", text)))
        for said in (local | foreign) & wanted.keys():
            if wanted[said] in here and said not in new:
                clash[wanted[said]].add(path)
    for n, paths in clash.items():
        print("clash", n, new[n], *sorted(paths)[:3], file=sys.stderr)
        if not new[n].endswith("_lem"):
            new[n] += "_lem"
    return new


def turned(path, text, new, own):
    if is_walk(path):
        here = set()
        for module, names in IMPORT.findall(text):
            if is_own(module):
                here |= {n.split(" as ")[0].strip() for n in names.split(",")}
        mine = {k: v for k, v in new.items() if k in here or not re.search(r"(?m)^" + re.escape(k) + r" ", text)}
    else:
        mine = dict(new)
    foreign = set()
    for module, names in IMPORT.findall(text):
        if not is_own(module):
            foreign |= {n.split(" as ")[-1].strip() for n in names.split(",")}
    for n in foreign:
        mine.pop(n, None)

    if path.endswith(".rt") or (path.endswith(".edit") and re.search(r"(?m)^file: .*\.rt$", text)):
        mine = {k: v for k, v in mine.items() if "-" not in k and re.search(r"[A-Z]", k)}
    # Paths keep their spelling: a module is named as its file or its function.
    paths = [m.span() for m in re.finditer(r"(?m)^(?:pub )?(?:(?:ghost )?use|mod) [^{\n]*|^(?:file|//): .*", text)]

    def one(m):
        if any(a <= m.start() < b for a, b in paths):
            return m.group(0)
        return mine.get(m.group(0), m.group(0))

    return WORD.sub(one, text)


def main(argv):
    new, words, lemmas = table(".")
    if "--list" in argv:
        for n in sorted(new):
            print(n, new[n], "word" if n in words else "lemma")
        return 0
    for path in files("crates", (".rt", ".antt", ".edit")):
        text = text_of(path)
        said = turned(path, text, new, words)
        if said != text:
            with open(path, "w", encoding="utf-8") as f:
                f.write(said)
    return 0


if __name__ == "__main__":
    raise SystemExit(main(sys.argv[1:]))
