#!/usr/bin/env python3
"""Lists the files that a reader has to believe in order to believe what the station's calls say, and `take` of the tables, and that the store is what they
ask of records, with their lines: the statement, and what it imports, definitions in specs/ and the types that they name in src/, and so on. A lemma that a
definition names is checked, so it is none of them. Compares that with the list in
docs/THEOREM.md; the status is 1 where it differs. With `--write` it puts the list there."""

import pathlib
import re
import sys

TOP = pathlib.Path(__file__).resolve().parent.parent
DOCUMENT = TOP / "docs" / "THEOREM.md"
ROOTS = ["as2_station.specs.Theorem", "as2_station.specs.Traces", "as2_station.specs.Said", "as2_instance.specs.Tables", "as2_kept.specs.Instance"]
IMPORT = re.compile(r"^(?:pub )?use Rattle\.([\w.]+?)(?:\.\{[^}]*\})?(?: as \w+)?;?$", re.M)
BEGIN, END = "<!-- list -->\n", "<!-- end of list -->\n"


def place_of(module):
    """Returns the file of the repository that a module stands in, with the type that it is, if it is one; None where it is the kit's."""
    crate, kind, *path = module.split(".")
    if not (TOP / "crates" / crate).is_dir():
        return None
    # the path of a type's module, then the type, then perhaps its variants
    is_type = kind == "specs" and path[0] == "declared"
    folder, suffix, names = ("src", ".rt", path[1:]) if is_type else (kind, ".antt", path)
    for length in range(len(names), 0, -1):
        found = TOP / "crates" / crate / folder / ("/".join(names[:length]) + suffix)
        if found.is_file():
            return found, names[length] if is_type else None
    raise SystemExit(f"no file for {module}")


def lines_of(text, name):
    """Returns how many lines declare the type of that name, with what is said of it."""
    found = re.search(rf"^(?:(?:///|#).*\n)*(?:pub(?:\(crate\))? )?(?:enum|struct) {name}\b[^\n]*(?:;|\{{\}}|\{{\n(?:.*\n)*?\}})\n", text, re.M)
    if not found:
        raise SystemExit(f"no type {name}")
    return found[0].count("\n")


def believed():
    """Returns the files, each with how many lines count, and the crates of the kit that they name."""
    places, files, kit, todo = set(), {}, set(), list(ROOTS)
    while todo:
        module = todo.pop()
        if module.split(".")[1] == "proofs":
            continue
        place = place_of(module)
        if place is None:
            kit.add(module.split(".")[0])
            continue
        if place in places:
            continue
        places.add(place)
        file, name = place
        text = file.read_text()
        files[file] = files.get(file, 0) + (lines_of(text, name) if name else len(text.splitlines()))
        # of a source file the types alone count, not what its functions promise
        todo += [] if name else IMPORT.findall(text)
    return files, kit


def table(files, kit):
    """Returns the list as the document has it: crate by crate."""
    rows = sorted((str(file.relative_to(TOP / "crates")), lines) for file, lines in files.items())
    text = "".join(f"| `{name}` | {lines} |\n" for name, lines in rows)
    total = f"{len(rows)} files, {sum(lines for _, lines in rows):,} lines"
    crates = ", ".join(f"`{it}`" for it in sorted(kit))
    return f"| file | lines |\n|---|---|\n{text}\n{total}; and of the kit what these name of {crates}.\n"


def main():
    made = table(*believed())
    before, rest = DOCUMENT.read_text().split(BEGIN, 1)
    listed, after = rest.split(END, 1)
    if "--write" in sys.argv[1:]:
        DOCUMENT.write_text(before + BEGIN + made + END + after)
    elif listed != made:
        print(f"docs/THEOREM.md has another list; this is the one of the files:\n{made}")
        return 1
    return 0


sys.exit(main())
