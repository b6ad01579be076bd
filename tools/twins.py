#!/usr/bin/env python3
"""Lists the functions of crates/*/src that are alike but for names, types and numbers: twins, of which one generic function may serve."""
import glob
import re
import sys

WORDS = {"let", "mut", "if", "else", "match", "for", "in", "while", "loop", "return", "break", "as", "fn", "true", "false", "pub", "move"}


def shape(body):
    body = re.sub(r"//[^\n]*", "", body)
    seen = {}

    def name(m):
        w = m[0]
        return w if w in WORDS else seen.setdefault(w, f"x{len(seen)}")

    body = re.sub(r"b?'[^']'|b?\"[^\"]*\"|\b[0-9][0-9a-z_]*\b", "0", body)
    return re.sub(r"\s+", " ", re.sub(r"[A-Za-z_]\w*", name, body))


def main(root):
    groups = {}
    for path in sorted(glob.glob(f"{root}/crates/*/src/**/*.rt", recursive=True)):
        text = open(path).read()
        for m in re.finditer(r"^( *)(?:pub(?:\(crate\))? )?(?:extern \"C\" )?fn (\w+)([^{}]*(?:\{[^{}\n]*\}[^{}]*)*)\{\n(.*?)\n\1\}", text, re.M | re.S):
            body = m[4]
            if body.count("\n") >= 2:
                groups.setdefault(shape(body), []).append(f"{path[len(root) + 8:]} {m[2]}")
    twins = [g for g in groups.values() if len(g) > 1]
    for g in sorted(twins, key=lambda g: g[0]):
        print(", ".join(g))
    print(f"{len(twins)} groups, {sum(map(len, twins))} functions")


main(sys.argv[1] if len(sys.argv) > 1 else ".")
