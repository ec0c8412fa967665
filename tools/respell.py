#!/usr/bin/env python3
"""Brings the names that this repository declares in specs/ and proofs/ to snake case.

usage: respell.py [FOLDER]      rewrites crates/ below FOLDER (here, if none is given); run once, after the kit's port.py
       respell.py --look [FOLDER]   writes nothing, and lists names that fall together

A definition, lemma, field or constructor such as evalCondition or few-carried becomes eval_condition or few_carried. Types, and facts with their
capital, stay. Where a function and a lemma fall together, the lemma gets the ending _lem. Functions of src/, exported names, strings, inputs and
outputs are left as they are: none of them has a capital inside or a dash.
"""
import collections
import glob
import os
import re
import sys

# A declaration of an .antt file: the names before its colon.
DECLARES = re.compile(r"^(\s*)((?:(?:abbrev|pub|mutual|opaque|unfoldable|private|instance)\s+)*)([^\s:(){}.;,=]+(?:\s+[^\s:(){}.;,=]+)*)\s+:(?:\s|$)")
WORD = re.compile(r"(?<![\w'\-·◌])([a-z][\w']*(?:-[\w']+)*)(?![\w'·◌])")
USE = re.compile(r"^(?:pub )?(?:ghost )?use\s+([^\s{};]+?)(?:\.\{([^}]*)\}|\s+as\s+(\S+?))?;?$")
FIELDS = set()
KEYWORDS = {"let", "in", "data", "record", "where", "use", "module", "mutual", "abbrev", "pub", "unfolding"}


def snake(name):
    return re.sub(r"(?<=[a-z0-9])([A-Z]+)", lambda m: "_" + m.group(1), name.replace("-", "_")).lower()


def declared(text):
    """The names that a file declares, with how deep each stands."""
    for line in text.splitlines():
        s = line.strip()
        if s.startswith(("--", "use ", "pub use ", "let ")):
            continue
        m = DECLARES.match(line)
        if m:
            for name in m.group(3).split():
                if re.fullmatch(r"[a-z][\w']*(?:-[\w']+)*", name) and name not in KEYWORDS:
                    yield name, len(m.group(1)), m.group(2)


def files(root):
    return sorted(p for p in glob.glob(root + "/crates/*/**/*", recursive=True) if p.endswith((".antt", ".rt")) and "/out/" not in p)


def in_function(path):
    """A file of one function's proof, whose goals have names that Rattle makes."""
    return re.search(r"/proofs/.+/[A-Za-z]+\.antt$", path) is not None


def fields(text):
    """The lines on which a file's records declare fields, with their names."""
    inside = None
    for i, line in enumerate(text.splitlines()):
        depth = len(line) - len(line.lstrip())
        if re.match(r"^\s*(?:(?:pub|abbrev) )*record ", line):
            inside = depth
        elif inside is not None and line.strip() and depth <= inside:
            inside = None
        elif inside is not None and not line.strip().startswith("--"):
            m = DECLARES.match(line)
            if m:
                yield i, m.group(3).split()


def table(root):
    names = collections.defaultdict(set)
    functions = set()
    for p in files(root):
        if p.endswith(".antt") and not in_function(p):
            text = open(p, encoding="utf8").read()
            FIELDS.update(n for _, ns in fields(text) for n in ns)
            for name, depth, marks in declared(text):
                names[name].add(p)
                if depth == 0 and "abbrev" in marks or re.search(r"[a-z0-9][A-Z]", name):
                    functions.add(name)
    by = collections.defaultdict(set)
    for name in names:
        by[snake(name)].add(name)
    turned, together = {}, []
    for to, group in by.items():
        if len(group) == 1:
            name = next(iter(group))
            if name != to:
                turned[name] = to
            continue
        # The function keeps the plain name; of two lemmas the one that has it.
        first = sorted(group, key=lambda n: (n not in functions, "-" in n, n != to, n))[0]
        together.append((to, first, sorted(group)))
        for name in group:
            end = to if name == first else to + "_lem"
            if name != end:
                turned[name] = end
    return turned, together, names


def own(root):
    return {os.path.basename(c) for c in glob.glob(root + "/crates/*") if os.path.isdir(c)}


def respell(path, text, turned, names, crates):
    foreign, mine, aliases = set(), set(), set()
    for line in text.splitlines():
        m = USE.match(line.strip())
        if not m:
            continue
        parts = m.group(1).split(".")
        ours = parts[0] == "Rattle" and len(parts) > 1 and parts[1] in crates
        if m.group(3) and ours:
            aliases.add(m.group(3))
        for item in (m.group(2) or "").split(","):
            item = item.strip().split(" as ")[-1]
            (mine if ours else foreign).add(item)
    here = {n for n, _, _ in declared(text)} if path.endswith(".antt") else set()
    declares = {i for i, _ in fields(text)}
    local = {}
    if path.endswith(".antt") and in_function(path):
        # Lemmas beside the goals of one function.
        for line in text.splitlines():
            m = re.match(r"^(?:abbrev )?([a-z][\w']*(?:-[\w']+)*) : (?!tie\.)", line)
            if m and snake(m.group(1)) != m.group(1) and m.group(1) not in turned:
                local[m.group(1)] = snake(m.group(1))

    def one(m):
        word = m.group(1)
        before = text[: m.start()]
        dotted = before.endswith(".") and not before.endswith("..")
        if word in local and not dotted:
            return local[word]
        if word not in turned or word in foreign:
            return word
        plain = re.fullmatch(r"[a-z][a-z0-9_']*", word) is not None
        if dotted:
            owner = re.search(r"([\w'\-]+)\.$", before)
            if owner and owner.group(1) in aliases:
                return turned[word]
            # A path ends in a module, whose names are its own; else it is a field, which is not a lemma.
            return word if plain else snake(word)
        if word in FIELDS and (before.count("\n") in declares and ":" not in before.rpartition("\n")[2] or re.search(r"(?:[{;]\s*|\n\s+)$", before) and re.match(r"\s*=\s", text[m.end() :])):
            return snake(word)
        # A plain word may be a name of the source or a variable: only where the file declares or imports it.
        if plain and word not in mine and word not in (here if path in names[word] else ()):
            return word
        return turned[word]

    return WORD.sub(one, text)


def main(argv):
    look = "--look" in argv
    rest = [a for a in argv if a != "--look"]
    root = os.path.realpath(rest[0] if rest else ".")
    turned, together, names = table(root)
    crates = own(root)
    for to, first, group in sorted(together):
        print(f"together: {to}: {' '.join(group)}; {first} keeps it")
    n = 0
    for p in files(root):
        text = open(p, encoding="utf8").read()
        new = respell(p, text, turned, names, crates)
        if new != text:
            old_words = set(WORD.findall(text))
            met = sorted({turned[w] for w in old_words if w in turned and turned[w] in old_words and turned[w] not in turned})
            if met:
                print(f"met: {os.path.relpath(p, root)}: {' '.join(met)}")
            n += 1
            if not look:
                with open(p, "w", encoding="utf8") as f:
                    f.write(new)
    print(f"respell: {len(turned)} names, {n} files")


main(sys.argv[1:])
