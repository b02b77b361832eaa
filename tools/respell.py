#!/usr/bin/env python3
"""Brings the names of definitions and lemmas to the spelling of today's Rattle.

Run once, right after the kit's port.py, at the top of the checkout: `python3 tools/respell.py`. What the
repository's own specs/ and proofs/ define gets these names wherever it is named, in .antt files, in the
clauses and comments of .rt files and in the pages: a word in camel case that begins small is in snake case
(`boxAt` is `box_at`), `getD` inside a name is `get_or`, and a dash stays only where it joins two names
(`length-part`) or a fact to a name (`All-at`); elsewhere it is an underscore (`never_falls`). Types,
facts, modules, functions of src/, exported names and strings stay. A name that would fall together with
another one keeps its spelling, and is printed.
"""
import glob
import os
import re
import sys

SIG = re.compile(r"^\s*((?:(?:abbrev|unfoldable|pub|data|record|unfolding)\s+)*)([^\s(){}:;,.\[\]=λ]+(?: [^\s(){}:;,.\[\]=λ]+)*)"
                 r"(?:\s+\{[^}]*\}|\s+\([^)]*\))*\s+:\s")
TOKEN = re.compile(r"[^\s(){}\[\]:;,.=λ`\"|/*+<>&!?@#$%^~\\×→≡≤∷¬⊎◌]+")
WORDS = {"use", "module", "where", "let", "in", "elim", "as", "do"}


def lemma_files():
    return (glob.glob("crates/*/specs/**/*.antt", recursive=True) + glob.glob("crates/*/proofs/*.antt"))


def proof_files():
    return glob.glob("crates/*/proofs/*/**/*.antt", recursive=True)


def source_files():
    return glob.glob("crates/*/src/**/*.rt", recursive=True)


def page_files():
    return ["README.md"] + glob.glob("docs/**/*.md", recursive=True) + glob.glob("tests/README.md")


def read(path):
    return open(path, encoding="utf8").read()


def snake(word):
    word = word.replace("getD", "get_or").replace("get_d", "get_or")
    parts = []
    for part in word.split("-"):
        if re.match(r"[a-z]", part):
            part = re.sub(r"([a-z0-9])([A-Z])", lambda m: m.group(1) + "_" + m.group(2).lower(), part)
        parts.append(part)
    return "-".join(parts)


def main():
    own_crates = {os.path.basename(p) for p in glob.glob("crates/*")}
    own, alien, tokens = set(), set(), set()
    for path in lemma_files():
        for line in read(path).split("\n"):
            if line.lstrip().startswith("--"):
                continue
            found = SIG.match(line)
            names = found.group(2).split() if found else []
            if names and not WORDS & set(names) and all(re.match(r"[A-Za-z][\w'-]*$", n) for n in names):
                own.update(names)
    for path in lemma_files() + proof_files() + source_files():
        text = read(path)
        tokens.update(TOKEN.findall(text))
        for module, names in re.findall(r"use ([^\s{]+)\.\{([^}]*)\}", text):
            parts = module.split(".")
            if not (parts[0] == "Rattle" and len(parts) > 1 and parts[1] in own_crates):
                alien.update(name.split(" as ")[0].strip() for name in names.split(","))
            own.update(re.findall(r" as ([a-z]+[A-Z]\w*)", names))
    # The functions of src/: a lemma keeps apart from them by itself.
    names = {n for n in own | alien if "-" not in n}
    names |= {snake(n) for n in names}
    table, lemmas = {}, {}
    # Definitions in camel case first: where a lemma would take the same name, it keeps its dash.
    for name in sorted(own - alien, key=lambda n: ("-" in n, n)):
        if not re.match(r"[A-Za-z]", name):
            continue
        new = snake(name)
        if "-" in new and not new[0].isupper():
            parts = new.split("-")
            if not all(p in names for p in parts):
                new = new.replace("-", "_")
        if new == name:
            continue
        if new in alien or new in table.values():
            print("kept: %s (%s is there)" % (name, new))
            continue
        if new in own:
            # A lemma whose dash port.py had turned: it has its dash again, so that the two stay apart.
            if "-" in name or not re.match(r"[a-z]", name):
                print("kept: %s (%s is there)" % (name, new))
                continue
            lemmas[new] = new.replace("_", "-")
            print("parted: %s is %s, and %s is %s" % (name, new, new, lemmas[new]))
        table[name] = new
        if new in tokens:
            print("met: %s is %s, a word that stands elsewhere" % (name, new))

    def swap(text, lemmas=lemmas):
        def new(found):
            word = found.group(0)
            if word in lemmas and not re.search(r"proofs\.[\w.+-]*$", text[max(0, found.start() - 90):found.start()]):
                return lemmas[word]
            return table.get(word, word)
        return TOKEN.sub(new, text)

    changed = 0
    for path in lemma_files() + proof_files():
        text = read(path)
        new = swap(text)
        if new != text:
            open(path, "w", encoding="utf8").write(new)
            changed += 1
    for path in source_files():
        text = read(path)
        # Strings stay; what is left of a line is code, in which a name of ours stands in ghost text alone.
        new = "".join(piece if piece.startswith('"') else swap(piece, {})
                      for piece in re.split(r'("(?:[^"\\\n]|\\.)*")', text))
        if new != text:
            open(path, "w", encoding="utf8").write(new)
            changed += 1
    for path in page_files():
        text = read(path)
        new = re.sub(r"`[^`\n]+`", lambda m: swap(m.group(0), {}), text)
        if new != text:
            open(path, "w", encoding="utf8").write(new)
            changed += 1
    print("respell: %d names, %d files" % (len(table), changed))


sys.exit(main())
