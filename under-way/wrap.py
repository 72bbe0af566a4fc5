#!/usr/bin/env python3
"""Breaks lines of clauses that are past 120 columns: before an operator, at the least depth of brackets that serves."""
import glob, re, sys
LIMIT = 120
OPERATORS = [[" → ", " × ", " ⊎ ", " ↔ "], [" ≡ ", " ≢ ", " ≤ ", " < "], ["; "], [" ++ ", ", "], [" "]]

def depths(line):
    d, out = 0, []
    for ch in line:
        if ch in ")]}": d -= 1
        out.append(d)
        if ch in "([{": d += 1
    return out

def break_at(line, indent):
    """Returns where to break the line: the index of the blank before what goes to the next line."""
    ds = depths(line)
    first = len(line) - len(line.lstrip())
    body = line.find("{") + 1 if re.match(r"\s*(ensures|requires)", line) else first
    for ops in OPERATORS:
        best = None
        for op in ops:
            at = line.find(op, body + 1)
            while at != -1 and at <= LIMIT:
                place = at + 1 if op in ("; ", ", ") else at
                rest = len(line) - place - 1 + indent
                if place > first + 8 and line[place+1:].strip() not in ("}", "{", ") }", ")) }"):
                    key = (ds[place], -place)
                    if best is None or key < best[0]: best = (key, place)
                at = line.find(op, at + 1)
        # a break that leaves nearly all for the next line isn't one
        if best: return best[1]
    return None

def wrapped(line, indent):
    out = []
    while len(line) > LIMIT:
        at = break_at(line, indent)
        if at is None: break
        out.append(line[:at].rstrip())
        line = " " * indent + line[at:].strip()
    out.append(line)
    return out

def main(files):
    changed = 0
    for f in files:
        lines = open(f, encoding="utf-8").read().split("\n")
        out, inside, indent, depth = [], False, 0, 0
        for line in lines:
            m = re.match(r"(\s*)(ensures|requires)\b", line)
            if m and not inside:
                inside, depth, indent = True, 0, len(m[1]) + 4
            if inside:
                depth += sum(line.count(c) for c in "({[") - sum(line.count(c) for c in ")}]")
                if len(line) > LIMIT and not line.lstrip().startswith("//"):
                    out += wrapped(line, max(indent, len(line) - len(line.lstrip())) if not m else indent)
                    changed += 1
                else:
                    out.append(line)
                if depth <= 0: inside = False
            else:
                out.append(line)
        open(f, "w", encoding="utf-8").write("\n".join(out))
    print(changed)
main(sys.argv[1:])
