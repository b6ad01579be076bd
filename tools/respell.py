#!/usr/bin/env python3
"""Spells this repository's own definitions and lemmas as its toolchain's library is spelled: words in snake case, types and modules in camel case.

usage: python3 tools/respell.py [--show]

Run once, at the top of the repository, after the toolchain's own script for older repositories. It reads which names the files of specs/ and proofs/
declare, and turns those that begin in lower case and hold a dash or a capital, in every .antt file, in the clauses and the `ghost use` lines of every .rt
file, in must-fail/*.edit, and in the code spans of the documents. A name that a file imports from the library stays in that file. A lemma that would meet a definition of the same
words ends in `_lem`. Functions of src/, exported names, strings, inputs and outputs stay. --show writes nothing and lists what would turn."""

import collections
import os
import re
import subprocess
import sys

WORD = re.compile(r'[^\s(){}.;,@"«»\[\]|`]+')
MARKS = r"(?:(?:pattern|unfoldable|abbrev|pub|ruleset|axiom) )*"
DECLARED = re.compile(r"(?m)^[ \t]*(?:where |let |do )?" + MARKS + r'([^\s(){};,:."«»]+)(?: \{[^{}\n]*\})* : ')
USE = re.compile(r"\b(?:ghost )?use ([^\s;{]+?)\.\{([^}]*)\}", re.S)
ONE = re.compile(r"(?m)^(?:ghost )?use ([^\s;{]+?)(?: as (\S+?))?;?$")
COMMENT = re.compile(r"--[^\n]*|//[^\n]*")
STRING = re.compile(r'b?"(?:\\.|[^"\\])*"')
# The library's word for what the older one called getD.
LATER = [("getD", "get_or")]
# Laws of the bits of a library's operation, beside the operation itself: there the dash joins two names.
KEPT = {"bit-xor", "bit-or", "bit-and"}


def spelled(name):
    for old, new in LATER:
        name = name.replace(old, new)
    name = re.sub(r"(?<=[a-z0-9'])([A-Z])(?=[a-z]|[^A-Za-z]|$)", lambda m: "_" + m[1].lower(), name)
    name = re.sub(r"(?<=[a-z0-9])([A-Z]+)", lambda m: "_" + m[1].lower(), name)
    return name.replace("-", "_")


def turns(name):
    return name not in KEPT and name[:1].islower() and bool(re.search(r"[a-z0-9'][A-Z]|-", name)) and spelled(name) != name


def files(ending):
    for folder, dirs, names in os.walk("crates"):
        dirs[:] = sorted(d for d in dirs if d not in ("out", "target"))
        for n in sorted(names):
            if n.endswith(ending):
                yield os.path.join(folder, n)


def read(path):
    with open(path, encoding="utf-8") as f:
        return f.read()


def own_crates():
    return {c for c in os.listdir("crates") if os.path.isdir(os.path.join("crates", c))}


def of_library(text, crates):
    found = set()
    for path, items in USE.findall(text):
        steps = path.split(".")
        if steps[0] == "Rattle" and len(steps) > 1 and steps[1] in crates:
            continue
        for it in items.split(","):
            found.update(it.split(" as "))
    return {f.strip() for f in found}


def is_generated(path):
    return re.search(r"/proofs/(?:.+/)?(?:Proof|Answers|Invariants)\.antt$", path)


def table(crates):
    declared, fields = collections.defaultdict(set), set()
    for p in files(".antt"):
        if is_generated(p):
            continue
        text = COMMENT.sub("", read(p))
        for name in DECLARED.findall(text):
            declared[name].add(p)
        for body in re.findall(r"(?m)^(?:pub )?record [^\n]*\n((?:  [^\n]*\n|\n)*)", text):
            fields.update(re.findall(r"(?m)^  (?:pub )?(\S+) :", body))
    for p in files(".antt"):
        if is_generated(p):
            for m in re.finditer(r"(?m)^" + MARKS + r'([^\s(){};,:."«»]+)(?: \{[^{}\n]*\})* : (?!tie\.|goal\.)', COMMENT.sub("", read(p))):
                declared[m[1]].add(p)
    new, by_new = {}, collections.defaultdict(set)
    for name in declared:
        by_new[spelled(name) if turns(name) else name].add(name)
    for word, olds in by_new.items():
        capital = [o for o in olds if "-" not in o and turns(o)]
        keep = capital[:1] or sorted(olds, key=lambda o: (turns(o) is not False, o))[:1]
        for o in olds:
            made = word if o in keep or o in fields else word + "_lem"
            if made != o:
                new[o] = made
    return new, declared, {w: o for w, o in by_new.items() if len(o) > 1}


def turned(text, new, stay, code_only):
    def word(m):
        w = m[0]
        return new[w] if w in new and w not in stay else w

    def comment(m):
        t = m[0]
        t = re.sub(r"`[^`]*`", lambda s: WORD.sub(word, s[0]), t)
        return re.sub(r"\b[a-z]+[A-Z]\w*", lambda s: new.get(s[0], s[0]), t)

    out, at = [], 0
    for m in re.finditer(COMMENT.pattern + "|" + STRING.pattern, text):
        out.append(WORD.sub(word, text[at : m.start()]))
        out.append(m[0] if m[0][0] in 'b"' else comment(m))
        at = m.end()
    out.append(WORD.sub(word, text[at:]))
    return "".join(out)


def main():
    show = "--show" in sys.argv[1:]
    crates = own_crates()
    new, declared, met = table(crates)
    clashes = []
    for ending in (".antt", ".rt"):
        for p in files(ending):
            text = read(p)
            stay = of_library(text, crates)
            bare = STRING.sub("", COMMENT.sub("", text))
            tokens = set(WORD.findall(bare))
            free = set(re.findall(r'(?<![^\s(){};,@"«»\[\]|`])[^\s(){}.;,@"«»\[\]|`]+(?!\.?\()', bare)) if ending == ".antt" else set(re.findall(r"\b(\w+):(?!:)|\blet (?:mut )?(\w+)|\bfor (\w+) in", bare))
            free = free if ending == ".antt" else {w for it in free for w in it if w}
            for t in tokens:
                if t in new and t not in stay and new[t] in free and new[t] not in new:
                    if ending == ".rt" or new[t] not in declared or new[t] in stay:
                        clashes.append((p, t, new[t]))
            if not show:
                made = turned(text, new, stay, False)
                if made != text:
                    with open(p, "w", encoding="utf-8") as f:
                        f.write(made)
    for p in files(".edit"):
        text = read(p)
        lines = []
        for line in text.splitlines(keepends=True):
            head, sep, rest = line.partition(": ")
            lines.append(head + sep + turned(rest, new, set(), True) if head in ("old", "new") else line)
        if not show and "".join(lines) != text:
            with open(p, "w", encoding="utf-8") as f:
                f.write("".join(lines))
    for p in ["README.md"] + sorted(os.path.join(d, n) for d in ("docs", "docs/changes") for n in os.listdir(d) if n.endswith(".md")):
        text = read(p)
        made = re.sub(r"`[^`\n]*`", lambda s: WORD.sub(lambda m: new.get(m[0], m[0]), s[0]), text)
        if not show and made != text and os.path.basename(p)[:1] not in "0":
            with open(p, "w", encoding="utf-8") as f:
                f.write(made)
    for c in [] if show else sorted(crates):
        subprocess.run(["rt", "fmt"], cwd=os.path.join("crates", c), capture_output=True)
    print(f"respell: {len(new)} names")
    for word, olds in sorted(met.items()):
        print("met:", word, sorted(olds), {o: new.get(o, o) for o in olds})
    for c in clashes:
        print("look:", *c)
    if show:
        for o, n in sorted(new.items()):
            if re.search("[A-Z]", n) or "get_or" in n or "__" in n:
                print(o, n)


main()
