#!/usr/bin/env python3
"""python3 tools/proved.py [--compare]

Makes the tables of public calls in docs/PROVED.md from the sources, crates/CRATE/src. The table of a crate stands between the comments
`<!-- calls of CRATE -->` and `<!-- end -->`. It has a row for each call that another crate can name: a public function, a public method of a
public type, and each call of a public trait. A row has the call's name, the first sentence of its `///` lines, and the names of its `ensures`
clauses. A clause without a name is `-`. Where a clause is one application of a definition of this repository, the definition stands behind it in
brackets. Calls that are private or `pub(crate)` have no row, and what a crate passes on from another one stands in that one's table.

Run it where a public call, its comment or its contract changed. With --compare it writes nothing and prints what differs; the status is 1 then.
The status is 1 too, and nothing is written, where a crate with public calls has no table, where a table has no crate, and where a crate
makes something public that isn't found in it. Crates that only test (`script_*`, as2_script, as2_tests) need no table.
"""
import argparse
import difflib
import pathlib
import re
import sys

TOP = pathlib.Path(__file__).resolve().parent.parent
DOCUMENT = TOP / "docs/PROVED.md"
TESTS = re.compile(r"script_\w+|as2_script|as2_tests")

TABLE = re.compile(r"<!-- calls of (\w+) -->\n(.*?)<!-- end -->\n", re.S)
PASSED_ON = re.compile(r"^pub use (\w+)::(?:\{([^}]*)\}|(\w+));", re.M)
MODULE = re.compile(r"^mod (\w+);", re.M)
OWNER = re.compile(r"^(?:pub trait|impl(?:<.*?>)?) (?!.* for )(\w+)")
OTHER_IMPL = re.compile(r"^impl\b.* for ")
CALL = re.compile(r"^( *)(pub )?(?:const )?fn (\w+)")
ITEM = re.compile(r"^pub (struct|enum|trait|type|const|static)\b(?: fn)? (\w+)", re.M)
CLAUSE = re.compile(r"\b(requires|ensures)(?: (\w+))? \{")
CLAUSE_HEAD = re.compile(r"\b(?:requires|ensures)(?: \w+)? $")
COMMENT = re.compile(r"^\s*//.*$", re.M)
OF_STD = re.compile(r"^ghost use Rattle\.std\.[\w.]+\{([^}]*)\};", re.M)
SENTENCE_END = re.compile(r"[.!?](?=\s+[A-Z`]|$)")
OPERATORS = set("≡→×⊎¬≤<λ∷∘+-*^,:=")


class Fault(Exception):
    """Why the tables can't be made."""


class Call:
    """A call as the sources have it: whose it is, whether it is public, its name, its comment, and its clauses with what they apply."""

    def __init__(self, owner, is_public, name, comment, clauses):
        self.owner, self.is_public, self.name, self.comment, self.clauses = owner, is_public, name, comment, clauses

    def row(self):
        name = f"`{self.owner}::{self.name}`" if self.owner else f"`{self.name}`"
        clauses = [(f"`{clause}`" if clause else "-") + (f" (`{applied}`)" if applied else "") for clause, applied in self.clauses]
        return f"| {name} | {first_sentence(self.comment)} | {', '.join(clauses) or 'no clause'} |\n"


def first_sentence(comment):
    """Returns the first sentence of a comment, without its full stop."""
    end = SENTENCE_END.search(comment)
    return (comment[:end.start()] if end else comment).replace("|", r"\|") or "-"


def closed_by(text, begin):
    """Returns where the bracket that opens at a place is closed."""
    depth = 0
    for place in range(begin, len(text)):
        depth += (text[place] in "([{") - (text[place] in ")]}")
        if depth == 0:
            return place
    raise Fault(f"a bracket isn't closed: {text[begin:begin + 60]}")


def applied_in(clause, of_std):
    """Returns the definition that a clause is one application of, or None. Definitions of the standard library don't count."""
    word = re.match(r"[A-Z]\w*", clause)
    if not word or word[0] in of_std:
        return None
    place = 0
    while place < len(clause):
        if clause[place] in "([{":
            place = closed_by(clause, place)
        elif clause[place] in OPERATORS:
            return None
        place += 1
    return word[0]


def clauses_of(contract, of_std):
    """Returns the name of each `ensures` clause of a contract, and what it applies."""
    found, place = [], 0
    while clause := CLAUSE.search(contract, place):
        place = closed_by(contract, clause.end() - 1)
        if clause[1] == "ensures":
            found.append((clause[2], applied_in(contract[clause.end():place].strip(), of_std)))
    return found


def contract_of(text):
    """Returns the clauses of a contract. The text begins with the function: its signature, the clauses, and the body or the end of the line."""
    place, begin = 0, 0
    while text[place] != ";":
        if text[place] in "([{":
            if text[place] == "{" and not CLAUSE_HEAD.search(text, begin, place):
                break
            place = begin = closed_by(text, place)
        place += 1
    return text[:place]


def calls_in(text):
    """Returns the calls of a source, in its order. Of `impl TRAIT for TYPE` there are none: the trait has them."""
    lines, found, owner, comment = text.split("\n"), [], None, []
    of_std = {it.strip().split(" as ")[-1] for names in OF_STD.findall(text) for it in names.split(",")}
    is_trait = is_other = False
    for number, line in enumerate(lines):
        if line == "}":
            owner, is_trait, is_other = None, False, False
        elif begins := OWNER.match(line):
            owner, is_trait = begins[1], line.startswith("pub trait")
        elif OTHER_IMPL.match(line):
            is_other = True
        elif call := CALL.match(line):
            is_public = not is_other and (is_trait or bool(call[2]))
            if len(call[1]) == (4 if owner else 0):
                contract = contract_of(COMMENT.sub("", "\n".join(lines[number:])))
                found.append(Call(owner, is_public, call[3], " ".join(comment), clauses_of(contract, of_std)))
        if told := re.match(r" *///(?: (.*))?$", line):
            comment.append((told[1] or "").strip())
        elif not line.strip().startswith("#["):
            comment = []
    return found


def public_names(crate, text):
    """Returns the names that a crate makes public: what its lib.rt declares, and then what it passes on from its own modules, in order."""
    modules, found = set(MODULE.findall(text)), [name for _, name in ITEM.findall(text)]
    for module, many, one in PASSED_ON.findall(text):
        if module in modules:
            found += [it.strip() for it in (many or one).split(",") if it.strip()]
    if not found and re.search(r"^pub mod ", text, re.M):
        raise Fault(f"{crate}: a public module isn't understood")
    return found


def calls_of(crate):
    """Returns the public calls of a crate: those of its lib.rt, and then those that it makes public out of its modules, in that order."""
    folder = TOP / "crates" / crate / "src"
    library = (folder / "lib.rt").read_text(encoding="utf-8")
    texts = {it: it.read_text(encoding="utf-8") for it in sorted(folder.rglob("*.rt")) if "tests" not in it.relative_to(folder).parts}
    calls = [call for text in texts.values() for call in calls_in(text) if call.is_public]
    items = {name for text in texts.values() for _, name in ITEM.findall(text)}
    found = [it for it in calls_in(library) if it.is_public and it.owner is None]
    for name in public_names(crate, library):
        of_name = [it for it in calls if name in (it.owner, it.name if it.owner is None else None)]
        if not of_name and name not in items:
            raise Fault(f"{crate}: {name} is public and wasn't found")
        found += of_name
    return found


def table_of(crate):
    rows = [it.row() for it in calls_of(crate)]
    return "".join(["\n| call | what it does | clauses |\n", "|---|---|---|\n", *rows, "\n"]) if rows else "\n"


def crates():
    """Returns the crates that want a table where they have public calls."""
    names = re.findall(r"^(\w+):", (TOP / "crates.txt").read_text(encoding="utf-8"), re.M)
    return [it for it in names if not TESTS.fullmatch(it) and (TOP / "crates" / it / "src/lib.rt").exists()]


def document_anew(text):
    """Returns the document with each table made anew."""
    known, told = crates(), [it[1] for it in TABLE.finditer(text)]
    wrong = [f"the table of {it}: no such crate" for it in told if it not in known]
    wrong += [f"{it}: no table" for it in known if it not in told and calls_of(it)]
    wrong += [f"{it}: more than one table" for it in sorted(set(told)) if told.count(it) > 1]
    if wrong or len(told) != text.count("<!-- calls of "):
        raise Fault("; ".join(wrong) or "a table has no end")
    return TABLE.sub(lambda it: f"<!-- calls of {it[1]} -->\n{table_of(it[1])}<!-- end -->\n", text)


def main():
    asked = argparse.ArgumentParser(description="Makes the tables of public calls in docs/PROVED.md.")
    asked.add_argument("--compare", action="store_true", help="change nothing, and print what differs")
    given = asked.parse_args()
    before = DOCUMENT.read_text(encoding="utf-8")
    try:
        after = document_anew(before)
    except Fault as fault:
        print(f"proved.py: {fault}", file=sys.stderr)
        return 1
    if not given.compare:
        DOCUMENT.write_text(after, encoding="utf-8")
        return 0
    differing = list(difflib.unified_diff(before.split("\n"), after.split("\n"), "docs/PROVED.md", "the sources", n=0, lineterm=""))
    print(*differing, sep="\n", end="\n" if differing else "")
    return 1 if differing else 0


if __name__ == "__main__":
    sys.exit(main())
