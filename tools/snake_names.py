#!/usr/bin/env python3
"""Spells the repository's own definitions and lemmas in snake case, as today's Rattle does.

usage: python3 tools/snake_names.py            at the top of the repository, once, after port.py

A name that a file below specs/ or proofs/ declares, in camel case or with dashes, gets underscores: crcBits becomes crc_bits, bytes-set bytes_set.
Names that begin with a capital (types, facts, modules) stay, and so do the names that Rattle makes, after a dot.
A name turns in a file that declares it or imports it from a crate of the repository, so that a name of the library keeps its own.
The comments of these files, docs/ and README.md follow. A lemma whose new name a definition has gets _lem.
It prints what it turned; a second run changes nothing.
"""

import collections
import os
import re
import sys

TOKEN = re.compile(r"""[^\s(){}.;,@"«»]+""")
DECLARED = re.compile(r"^ *(?:(?:unfoldable|abbrev|pub|private|opaque) )*([^\s:(){}]+) *(?:\{[^{}]*\} *)*:(?: |$)")
USE = re.compile(r"\buse (Rattle\.[\w.+'-]+?)\.\{([^{}]*)\}")


def snake(name):
    words = re.sub(r"(?<=[a-z0-9])[A-Z]", lambda m: "_" + m[0].lower(), name)
    return words.replace("-", "_")


def turns(name):
    return name[:1].islower() and snake(name) != name and re.fullmatch(r"[A-Za-z0-9_'₀-₉-]+", name)


def read(path):
    with open(path, encoding="utf-8") as f:
        return f.read()


def files(root):
    for crate in sorted(os.listdir(os.path.join(root, "crates"))):
        for top in ("specs", "proofs", "src"):
            for folder, dirs, names in os.walk(os.path.join(root, "crates", crate, top)):
                dirs.sort()
                for name in sorted(names):
                    path = os.path.join(folder, name)
                    if name.endswith((".antt", ".rt")):
                        yield crate, top, path


def module(root, path):
    rel = os.path.relpath(path, os.path.join(root, "crates"))[: -len(".antt")]
    return "Rattle." + rel.replace(os.sep, ".")


def declared(text):
    """The names that an .antt file declares: at its head, in a data type or a record."""
    names = set()
    for line in text.split("\n"):
        bare = line.split(" -- ")[0]
        if bare.lstrip().startswith("--"):
            continue
        m = DECLARED.match(bare)
        if m:
            names.add(m[1])
    return names


def fields_in(text):
    """The fields of the records that an .antt file declares, which stand after a dot where they are read."""
    names = set()
    for block in re.finditer(r"(?m)^(?:pub )?record (?:.*\n)(?:  .*\n|\n(?=  ))*", text):
        for m in re.finditer(r"(?m)^  (?:pub )?(\S+) :", block[0]):
            if turns(m[1]):
                names.add(m[1])
    return names


def is_proof_of_function(path):
    return os.path.basename(path) in ("Proof.antt", "Answers.antt", "Invariants.antt")


def made(text):
    """In a proof that walks the code: the names of answers, which the check's goals will name."""
    return {m[1] for m in re.finditer(r"(?m)^(?:abbrev )?(\S+) : tie\.", text)} | {m[1] for m in re.finditer(r"(?m)^pub (\S+-spec|\S+_spec) :", text)}


def main():
    root = os.getcwd()
    own = {}
    texts = {}
    for crate, top, path in files(root):
        texts[path] = read(path)
        if path.endswith(".antt"):
            names = declared(texts[path])
            if is_proof_of_function(path):
                names -= made(texts[path])
            own[module(root, path)] = names
    labels = {n for path, text in texts.items() if path.endswith(".antt") for n in fields_in(text)}
    everything = set().union(*own.values())
    # Definitions keep the plain name: those of specs/, and those in camel case of proofs/.
    plain = {snake(n) for m, names in own.items() for n in names - labels if ".specs." in m or re.search(r"[a-z0-9][A-Z]", n)}
    lemmas = {n for m, names in own.items() for n in names if ".specs." not in m and not re.search(r"[a-z0-9][A-Z]", n)}
    named_twice = {n for n in lemmas if "-" in n and snake(n) in everything}

    camel = {snake(n) for names in own.values() for n in names if re.search(r"[a-z0-9][A-Z]", n)}

    def new_name(mod, n):
        lemma = ".specs." not in mod and not re.search(r"[a-z0-9][A-Z]", n)
        if lemma and n[:1].islower() and (snake(n) in camel or "-" in n and (snake(n) in plain or n in named_twice)):
            return snake(n) + "_lem"
        return snake(n) if turns(n) else n

    changed = 0
    fields = {n for path, text in texts.items() if path.endswith(".antt") for n in fields_in(text)}
    # A field has a name of its own beside the definition that its type has.
    fields = {n: snake(n) + ("_holds" if snake(n) in plain else "") for n in fields}
    for path, text in sorted(texts.items()):
        table = {}
        if path.endswith(".antt"):
            for n in own[module(root, path)]:
                table[n] = new_name(module(root, path), n)
        for m in USE.finditer(text):
            for item in m[2].split(","):
                n = item.strip().split(" as ")[0]
                where = m[1] if m[1] in own else m[1].rsplit(".", 1)[0]
                if n in own.get(where, ()):
                    table[n] = new_name(where, n)
        table = {old: new for old, new in table.items() if old != new}
        imported = set()
        for m in re.finditer(r"\buse ([\w.+'·-]+?)\.\{([^{}]*)\}", text):
            for item in m[2].split(","):
                n = item.strip().split(" as ")[-1]
                if n and n not in own.get(m[1], ()) and n not in own.get(m[1].rsplit(".", 1)[0], ()):
                    imported.add(n)
        for old, new in table.items():
            if new in imported:
                print(f"look: {os.path.relpath(path, root)}: {old} becomes {new}, which is imported")
        back = collections.Counter(table.values())
        for new, k in back.items():
            if k > 1:
                print(f"look: {os.path.relpath(path, root)}: two names become {new}")
        for n in {t for t in TOKEN.findall(text)} & set(table.values()):
            print(f"look: {os.path.relpath(path, root)}: {n} stands there already")

        walked = is_proof_of_function(path)

        def turn(m):
            word = m[0]
            before = text[m.start() - 1] if m.start() else "\n"
            if word in fields and (before == "." or word not in table or word in fields_in(text)):
                return fields[word]
            if before == ".":
                return word
            if word in table:
                return table[word]
            # A variable of a proof.
            line = text[text.rfind("\n", 0, m.start()) + 1 : m.start()]
            if path.endswith(".antt") and not walked and turns(word) and word not in imported and "--" not in line and '"' not in line and not line.startswith("use "):
                return snake(word)
            return word

        new = TOKEN.sub(turn, text)
        if new != text and "--check" not in sys.argv:
            changed += 1
            with open(path, "w", encoding="utf-8") as f:
                f.write(new)
    print(f"{changed} files turned")


if __name__ == "__main__":
    sys.exit(main())
