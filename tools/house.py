#!/usr/bin/env python3
"""The house in figures: `python3 tools/house.py [TREE]`, where TREE is a checkout, or this one. Parameters of functions, lengths of contracts
and clauses, arguments of definitions, long lines of proofs, names of definitions that stand in two crates or more, and lines of code that
stand twice: in windows of six lines that are the same but for blanks. With `--names` it lists which names, definitions and functions those are."""
import collections
import pathlib
import re
import sys

FUNCTION = re.compile(r"^( *)(?:pub(?:\([^)]*\))? )?(?:const |unsafe )*fn (\w+)")
CLAUSE = re.compile(r"^\s*(?:requires|ensures)\b")
DEFINITION = re.compile(r"^\s*(?:abbrev|unfoldable|data|record)\b")
HEAD = re.compile(r"^( *)(?:abbrev |unfoldable )?(?:pub )?([^\s:]+) :")
RECORD = re.compile(r"^( *)(?:pub )?(?:record|data) (?:pub )?([A-Z]\S*)")
WIDE_CLAUSE, WIDEST_CLAUSE, LONG_PROOF_LINE, MANY_PARAMETERS, MANY_ARGUMENTS, WINDOW = 100, 120, 160, 6, 7, 6


def groups(text):
    """Returns the words of a text, each pair of brackets with what it holds as one."""
    found, depth, word = [], 0, ""
    for it in text:
        depth += (it in "([{") - (it in ")]}")
        if it.isspace() and depth == 0:
            found += [word] if word else []
            word = ""
        else:
            word += it
    return found + ([word] if word else [])


def parameters(signature):
    """Returns how many parameters a function has, beside `self`."""
    begin, depth, angle = signature.index("(", signature.index("fn ")), 0, 0
    # (brackets of generics may hold brackets of functions, as in F: Fn(u8))
    opened = signature.find("<", signature.index("fn "))
    if 0 <= opened < begin:
        angle = 1
        begin = opened + 1
        while angle:
            angle += (signature[begin] == "<") - (signature[begin] == ">" and signature[begin - 1] != "-")
            begin += 1
        begin = signature.index("(", begin)
    inside = ""
    for it in signature[begin:]:
        depth += (it in "([{") - (it in ")]}")
        if depth == 0:
            break
        inside += it
    parts, depth, part = [], 0, ""
    for before, it in zip(" " + inside[1:], inside[1:]):
        depth += (it in "([{<") - (it in ")]}" or it == ">" and before != "-")
        if it == "," and depth == 0:
            parts.append(part)
            part = ""
        else:
            part += it
    parts = [it.strip() for it in [*parts, part] if it.strip()]
    return sum(not re.fullmatch(r"(?:&(?:'\w+ )?)?(?:mut )?self", it) for it in parts)


def functions(text):
    """Returns of each function its name, how many parameters it has, and the lines of its contract, without comments."""
    lines, found = text.split("\n"), []
    for at, line in enumerate(lines):
        begins = FUNCTION.match(line)
        if not begins:
            continue
        signature, contract, place = "", [], at
        while place < len(lines):
            it = lines[place]
            if CLAUSE.match(it) or contract and not re.match(rf"^{begins[1]}\{{", it) and not contract[-1].endswith(";"):
                contract.append(it.strip())
            elif not contract:
                signature += it + "\n"
            if re.match(rf"^{begins[1]}\{{", it) or it.rstrip().endswith(("{", "}", ";")) and not CLAUSE.match(it) and not contract:
                break
            if contract and contract[-1].endswith("};"):
                break
            place += 1
        found.append((begins[2], parameters(signature), [it for it in contract if it != "{" and not it.startswith("//")]))
    return found


def clauses(contract):
    """Returns the clauses of a contract, each with its lines."""
    found = []
    for line in contract:
        if CLAUSE.match(line) or not found:
            found.append([])
        found[-1].append(line)
    return found


def outside_records(lines):
    """Yields of each line its place, where it stands outside the fields and constructors of records and data."""
    inside = None
    for at, line in enumerate(lines):
        if not line.strip() or line.lstrip().startswith("--"):
            continue
        indent = len(line) - len(line.lstrip())
        if inside is not None and indent > inside:
            continue
        record = RECORD.match(line)
        inside = len(record[1]) if record else None
        yield at


def record_parameters(lines, at):
    """Returns how many parameters the record whose head begins in that line has."""
    head = lines[at]
    while " where" not in head and at + 1 < len(lines):
        at += 1
        head += " " + lines[at].strip()
    head = re.sub(r" : Type\b.*", "", head[RECORD.match(head).end():])
    return sum(len(groups(re.sub(r":.*", "", it.strip("()")))) for it in groups(head) if it.startswith("("))


def definitions(text):
    """Returns of each definition its name, and how many arguments it has: of a function those of its equations, of a record its parameters.
    Fields and constructors are none: they are read with their record."""
    found, lines = collections.Counter(), text.split("\n")
    own = list(outside_records(lines))
    names = {it[2] for it in (HEAD.match(lines[at]) for at in own) if it}
    for at in own:
        line = lines[at]
        record = RECORD.match(line)
        if record:
            found[record[2]] = record_parameters(lines, at)
            continue
        words = groups(line.split(" = ")[0]) if " = " in line or line.rstrip().endswith(" =") else []
        if words and words[0] in names and ":" not in words:
            found[words[0]] = max(found[words[0]], len([it for it in words[1:] if not it.startswith("{") and it != "="]))
    return found


def repeated(files):
    """Returns how many lines stand in a window of lines that stands somewhere else too, of those that aren't blank, a bracket or an import."""
    windows, places = collections.defaultdict(list), []
    for file in files:
        lines = [re.sub(r"\s+", " ", it).strip() for it in file.read_text(encoding="utf-8").split("\n")]
        lines = [it for it in lines if len(it) > 1 and not re.match(r"(?:pub |ghost )*use |//|--", it)]
        for at in range(len(lines) - WINDOW + 1):
            windows[tuple(lines[at:at + WINDOW])].append((file, at))
        places.append((file, len(lines)))
    twice = {(file, at + i) for all_at in windows.values() if len(all_at) > 1 for file, at in all_at for i in range(WINDOW)}
    return len(twice), sum(it[1] for it in places)


def main(top, with_names):
    top = pathlib.Path(top)
    counted, contracts, wide, widest, defined, home = [], [], [], [], [], collections.defaultdict(set)
    proof_lines = long_lines = 0
    sources = sorted(top.glob("crates/*/src/**/*.rt"))
    for file in sources:
        for name, count, contract in functions(file.read_text(encoding="utf-8")):
            counted.append((count, name, file.relative_to(top)))
            contracts.append((sum(map(len, contract)), name))
            wide += [any(len(it) > WIDE_CLAUSE for it in lines) for lines in clauses(contract)]
            widest += [any(len(it) > WIDEST_CLAUSE for it in lines) for lines in clauses(contract)]
    for file in sorted(top.glob("crates/*/specs/**/*.antt")):
        crate = file.relative_to(top).parts[1]
        for name, count in definitions(file.read_text(encoding="utf-8")).items():
            defined.append((count, name, file.relative_to(top)))
            home[name].add(crate)
    proofs = sorted(top.glob("crates/*/proofs/**/*.antt"))
    for file in proofs:
        lines = file.read_text(encoding="utf-8").split("\n")
        proof_lines += len(lines)
        long_lines += sum(len(it) > LONG_PROOF_LINE for it in lines)
    if not counted or not proof_lines:
        sys.exit(f"house.py: no crates under {top}")
    many = [it for it in counted if it[0] >= MANY_PARAMETERS]
    broad = [it for it in defined if it[0] >= MANY_ARGUMENTS]
    shared = {name: crates for name, crates in home.items() if len(crates) > 1}
    print(f"functions: {len(counted)}, most parameters {max(counted)[0]} ({max(counted)[1]}), with {MANY_PARAMETERS} or more {len(many)}")
    print(f"contracts: longest {max(contracts)[0]} characters ({max(contracts)[1]})")
    print(f"clauses: {len(wide)}, past {WIDE_CLAUSE} columns {100 * sum(wide) / len(wide):.0f} %, past {WIDEST_CLAUSE} {sum(widest)}")
    print(f"definitions: {len(defined)}, with {MANY_ARGUMENTS} or more arguments {len(broad)}, most {max(defined)[0]} ({max(defined)[1]})")
    print(f"lines of proofs: {proof_lines}, past {LONG_PROOF_LINE} columns {100 * long_lines / proof_lines:.1f} %")
    print(f"names of definitions in two crates or more: {len(shared)}")
    for what, files in (("code", sources), ("proofs", proofs)):
        twice, of = repeated(files)
        print(f"lines of {what} in windows of {WINDOW} that stand twice: {twice} of {of}, {100 * twice / of:.1f} %")
    if with_names:
        for count, name, file in sorted(many, reverse=True):
            print(f"{count} parameters: {name}, {file}")
        for count, name, file in sorted(broad, reverse=True):
            print(f"{count} arguments: {name}, {file}")
        for name, crates in sorted(shared.items()):
            print(f"in {len(crates)} crates: {name}, {', '.join(sorted(crates))}")


WORDS = [it for it in sys.argv[1:] if it != "--names"]
main(WORDS[0] if WORDS else pathlib.Path(__file__).resolve().parent.parent, "--names" in sys.argv)
