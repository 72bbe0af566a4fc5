#!/usr/bin/env python3
"""Breaks terms of proofs that are past 160 columns, at a blank of the least nesting: before ∙ and arrows, behind commas and semicolons, or
before a bracket."""
import re, sys
LIMIT, WANTED = 160, 148
USE = re.compile(r"\s*(pub )?use ")
SIG = re.compile(r"(\s*)(?:abbrev |unfoldable )?(?:pub )?(?:abbrev |unfoldable )?[^\s(=]+ : ")
def marks(line):
    """depth before each character, and whether it stands in a string"""
    d, inside, out, k = 0, False, [], 0
    while k < len(line):
        ch = line[k]
        if inside:
            out.append((d, True))
            if ch == "\\": out.append((d, True)); k += 2; continue
            if ch == '"': inside = False
            k += 1; continue
        if ch == '"':
            inside = True; out.append((d, True)); k += 1; continue
        if ch in ")]}": d -= 1
        out.append((d, False))
        if ch in "([{": d += 1
        k += 1
    return out
def break_at(line):
    ms = marks(line); first = len(line) - len(line.lstrip())
    best = None
    for at in range(first + 24, min(len(line) - 1, WANTED)):
        if line[at] != " " or ms[at][1]: continue
        nxt, prev = line[at + 1], line[at - 1]
        rest = line[at + 1:]
        if rest.startswith(("∙ ", "→ ", "× ", "⊎ ", "++ ")): kind = 0
        elif prev in ",;": kind = 1
        elif nxt == "(" and prev not in "λ=:" : kind = 2
        elif rest.startswith("in ") or rest == "in": continue
        elif prev == "=" and ms[at][0] == 0: kind = 3
        else: continue
        # a binder λ (x : T). isn't broken inside
        before = line[:at]
        lam = before.rfind("λ")
        if lam != -1 and "." not in re.sub(r"\([^()]*\)", "", before[lam:]) and ". " not in before[lam:]: continue
        score = (ms[at][0], kind if kind < 3 else 1, -at)
        if best is None or score < best[0]: best = (score, at)
    return best and best[1]
def wrap(line):
    out, indent = [], len(line) - len(line.lstrip())
    more = indent + (4 if indent == 0 else 2)
    while len(line) > LIMIT:
        at = break_at(line)
        if at is None: break
        out.append(line[:at].rstrip())
        line = " " * more + line[at + 1:]
        indent = more
    return out + [line]
n = 0
for f in sys.argv[1:]:
    text = open(f, encoding="utf-8").read().split("\n"); out = []
    for line in text:
        if len(line) > LIMIT and not USE.match(line) and not line.lstrip().startswith("--"):
            w = wrap(line); n += len(w) > 1; out += w
        else: out.append(line)
    open(f, "w", encoding="utf-8").write("\n".join(out))
print(n)
