#!/usr/bin/env python3
"""Breaks signatures in proofs that are past 160 columns, before arrows."""
import re, sys
LIMIT, WANTED = 160, 140
SIG = re.compile(r"(\s*)(?:abbrev |unfoldable )?(?:pub )?(?:abbrev |unfoldable )?[^\s(=]+ : ")
def depths(line):
    d, out = 0, []
    for ch in line:
        if ch in ")]}": d -= 1
        out.append(d)
        if ch in "([{": d += 1
    return out
def pieces(line, indent):
    out = []
    while len(line) > LIMIT:
        ds = depths(line)
        first = len(line) - len(line.lstrip())
        best = None
        for op in (" → ", " × ", " ⊎ "):
            at = line.find(op, first + 12)
            while at != -1 and at <= WANTED + 18:
                if best is None or (ds[at], -at) < best[0]: best = ((ds[at], -at), at)
                at = line.find(op, at + 1)
        if best is None: break
        at = best[1]
        out.append(line[:at])
        line = " " * indent + line[at + 1:]
    return out + [line]
n = 0
for f in sys.argv[1:]:
    text = open(f, encoding="utf-8").read().split("\n")
    out, indent, insig = [], 0, False
    for line in text:
        m = SIG.match(line)
        s = line.strip()
        if m and not s.startswith(("let ", "use ", "--", "∙")) and " = " not in line.split(" : ")[0]:
            # (a signature has no equation behind it at depth 0)
            ds = depths(line)
            eq = [i for i in range(len(line)) if line.startswith(" = ", i) and ds[i] == 0]
            insig, indent = not eq, len(m[1]) + 4
        elif not s.startswith(("→", "×", "⊎")):
            insig = False
        if insig and len(line) > LIMIT:
            out += pieces(line, indent); n += 1
        else:
            out.append(line)
    open(f, "w", encoding="utf-8").write("\n".join(out))
print(n)
