#!/usr/bin/env python3
"""Brings the repository's own definitions and lemmas to the kit's spelling: words in snake case, and in a lemma's name a dash
only between two names.

usage: python3 tools/respell.py        at the top, once, after port.py
       python3 tools/respell.py --dry  prints what it would rename, and what falls together
       python3 tools/respell.py --text FILE..  the same table applied to other texts (must-fail edits, pages), as the tree gives it

It goes by whole words. It renames no function, field or constant of src/, no name of the library, and no string. A name is left
as it is where the new name is taken."""

import os
import re
import sys

# What each name's parts may be joined to by a dash, besides the repository's own names.
LIBRARY = set(
    "add sub mul div rem mod pow zero one two suc lt le eq ne length append take drop set get map min max not nil cons "
    "true false none some ok err refl sum".split()
)
IDENT = re.compile(r"[^\s(){}\[\].,;:\"`«»λ@→⌜⌝/\\]+")
CAMEL = re.compile(r"^[a-z][a-z0-9_]*[A-Z]")
DECLARED = re.compile(r"^\s*(?:(?:pub|abbrev|unfoldable|record|data|ruleset)\s+)*([^\s:(){}.,;]+)(?: \{[^}]*\})*(?: [^:=()\n]*)? :(?: |$)", re.M)
BOUND = re.compile(r"(?:\blet |λ )([^\s:(){}.,;]+)")
NEED = re.compile(r"^\s*(?:(?:pub|abbrev) )*([^\s:]+) : (?:tie\.|\{M : Type 1\} → statement)", re.M)
IMPORT = re.compile(r"^\s*(?:ghost )?use ([^\s{;]+?)(?:\.\{([^}]*)\}|( as [^\s;]+))?;?$", re.M)


def snake(word):
    parts = []
    for part in word.split("-"):
        if CAMEL.match(part):
            part = re.sub(r"(?<=[a-z0-9])([A-Z])", r"_\1", part).lower()
        parts.append(part)
    return "-".join(parts)


def files(root):
    for folder, dirs, names in os.walk(os.path.join(root, "crates")):
        dirs[:] = sorted(d for d in dirs if d not in ("out", "must-fail", "data"))
        for name in sorted(names):
            if name.endswith((".rt", ".antt")):
                yield os.path.join(folder, name)


def code(text):
    return re.sub(r"(?m)--.*$", "", text)


def is_library(path):
    return not path.startswith("Rattle.") or re.match(r"Rattle\.(std|core)(\.|$)", path) is not None


def table(root):
    texts = {p: open(p, encoding="utf-8").read() for p in files(root)}
    declared, needs, imported, words, bare, params, fields = set(), set(), set(), set(), set(), set(), set()
    for path, text in texts.items():
        plain = code(text) if path.endswith(".antt") else re.sub(r"(?m)//.*$", "", text)
        if path.endswith(".antt"):
            body = re.sub(r"(?m)^\s*use [^\s{;]+", "use ", plain)
            words.update(m.group() for m in IDENT.finditer(body) if not (m.start() and body[m.start() - 1] == "."))
            fields.update(m.group() for m in IDENT.finditer(body) if m.start() and body[m.start() - 1] == ".")
        else:
            params.update(re.findall(r"(?:[(,]|^)\s*(?:mut |const )?([a-z_][a-z0-9_]*): ", plain, re.M))
            params.update(re.findall(r"\bpub ([a-z_][a-z0-9_]*): ", plain))
            words.update(w for w in IDENT.findall(plain) if CAMEL.match(w))
        for m in IMPORT.finditer(plain):
            if is_library(m.group(1)) and m.group(2):
                for item in m.group(2).split(","):
                    imported.add(item.strip().split(" as ")[0])
        if path.endswith(".antt"):
            needs.update(NEED.findall(plain))
            found = set(DECLARED.findall(plain)) | set(BOUND.findall(plain))
            declared |= found
            for m in re.finditer(r"^(?:(?:pub|abbrev|unfoldable)\s+)*([^\s:(){}.,;]+)(?: \{[^}]*\})? :", plain, re.M):
                bare.add(snake(m.group(1)))
            for m in re.finditer(r"\bdata [^\n]*where\n((?:  .*\n)+)", plain):
                bare.update(snake(w) for w in DECLARED.findall(m.group(1)))
    bare = {n for n in bare if "-" not in n and len(n) > 1}
    bare |= {n.strip("◌") for n in bare if n.startswith("◌")} | LIBRARY
    renamed, together = {}, []
    for word in sorted(words | {f for f in fields if CAMEL.match(f)}, key=lambda w: ("-" in w, w)):
        if word in imported or word.startswith("+"):
            continue
        new = snake(word)
        if "-" in word and word in declared and word not in needs and not word.endswith(("-spec", "-requires")):
            parts = new.split("-")
            new = parts[0]
            for before, part in zip(parts, parts[1:]):
                new += ("-" if before in bare and part in bare else "_") + part
        if new == word:
            continue
        if "-" not in word and new in words and new in declared and new not in imported | params and new + "_lem" not in words:
            renamed[new] = new + "_lem"
            renamed[word] = new
            continue
        taken = words | imported | params | set(renamed.values())
        if new in taken and "-" in word and "-" not in new and new + "_lem" not in taken:
            new += "_lem"
        if new in taken:
            together.append((word, new))
            if snake(word) != word and snake(word) not in words and snake(word) not in renamed.values():
                renamed[word] = snake(word)
            continue
        renamed[word] = new
    return texts, renamed, together, declared


def aliases(text):
    found = set()
    for m in IMPORT.finditer(text):
        if m.group(3) and not is_library(m.group(1)):
            found.add(m.group(3)[4:])
    return found


def respelled(path, text, renamed):
    """The text with the table's words. In a comment and in src/ only words in camel case are names; so they are after a dot, but
    for the names of a module of ours."""
    own = aliases(text)

    def turned(piece, camel_only):
        def word(m):
            w = m.group()
            if w not in renamed:
                return w
            if not CAMEL.match(w) and (camel_only or m.start() and piece[m.start() - 1] == "."):
                head = re.search(r"([^\s(){}\[\].,;:]+)\.$", piece[: m.start()])
                if camel_only or not head or head.group(1) not in own:
                    return w
            return renamed[w]

        return IDENT.sub(word, piece)

    out = []
    for line in text.split("\n"):
        if path.endswith(".rt"):
            at = line.find("//")
            at = len(line) if at < 0 else at
        else:
            at = line.find("--")
            at = len(line) if at < 0 else at
        pieces = re.split(r'("(?:[^"\\]|\\.)*")', line[:at])
        for piece in pieces:
            out.append(piece if piece.startswith('"') and len(piece) > 1 else turned(piece, path.endswith(".rt")))
        out.append(turned(line[at:], True) + "\n")
    return "".join(out)[:-1]


def main(argv):
    root = "."
    texts, renamed, together, declared = table(root)
    if argv and argv[0] == "--dry":
        for a, b in sorted(renamed.items()):
            print(a, b)
        for a, b in together:
            print("together:", a, b)
        return
    for path, text in texts.items():
        new = respelled(path, text, renamed)
        if new != text:
            open(path, "w", encoding="utf-8").write(new)
    print(f"respell: {len(renamed)} names; {len(together)} kept, since the new name is taken")
    for a, b in together:
        print("together:", a, b)


if __name__ == "__main__":
    main(sys.argv[1:])
