#!/usr/bin/env python3
"""tests/proved.sh

The tables of public calls in docs/PROVED.md against the sources:

    made      tools/proved.py makes them anew, and they are what is committed
    written   over a copy of the sources it writes the tables, and changes nothing else
    EDIT      each edit of a copy, of the sources or of the document, is found out, and nothing is written by --compare

Prints what differs, a line for each edit that isn't found out, and last whether all is as wanted; the status is 1 where it isn't.
Takes some seconds.
"""
import pathlib
import shutil
import subprocess
import sys
import tempfile

TOP = pathlib.Path(__file__).resolve().parent.parent
DOCUMENT, NAMES = "docs/PROVED.md", "crates/as2_names/src/"

# An edit: the file, what stands there, what comes in its place, and a part of what is said then.
EDITS = {
    "a clause with another name": (NAMES + "cut.rt", "ensures whole {", "ensures uncut {", "`uncut`"),
    "a clause more": (NAMES + "cut.rt", "    ensures exact {", "    ensures more { ⊤ }\n    ensures exact {", "`more`"),
    "a clause of another definition": (NAMES + "domain.rt", "ensures domain { IsDomain", "ensures domain { IsHost", "`IsHost`"),
    "another comment": (NAMES + "cut.rt", "/// What stands in a text before", "/// What is in a text before", "What is in a text"),
    "a call that isn't public any more": (NAMES + "lib.rt", "pub use cut::cut_at;\n", "", "-| `cut_at`"),
    "a method that isn't public any more": (NAMES + "domain.rt", "    pub fn bytes(", "    pub(crate) fn bytes(", "-| `Domain::bytes`"),
    "a call with another name": (NAMES + "blanks.rt", "fn is_blank", "fn is_gap", "is_blank is public and wasn't found"),
    "a crate without a table": (DOCUMENT, "<!-- calls of as2_names -->", "<!-- names -->", "as2_names: no table"),
    "a table of no crate": (DOCUMENT, "<!-- calls of as2_names -->", "<!-- calls of as2_nomes -->", "as2_nomes: no such crate"),
    "a row by hand": (DOCUMENT, "<!-- calls of as2_names -->\n", "<!-- calls of as2_names -->\n| `by_hand` | - | - |\n", "-| `by_hand`"),
}


def run(tree, *arguments):
    """Runs the tool of a tree, and returns its status and what it prints and says."""
    made = subprocess.run([sys.executable, tree / "tools/proved.py", *arguments], capture_output=True, text=True)
    return made.returncode, made.stdout + made.stderr


def copy(tree):
    """Makes a tree that has what the tool reads."""
    for folder in ("docs", "tools"):
        (tree / folder).mkdir(parents=True)
    for name in ("crates.txt", DOCUMENT, "tools/proved.py"):
        shutil.copy(TOP / name, tree / name)
    for folder in sorted((TOP / "crates").iterdir()):
        if (folder / "src").is_dir():
            shutil.copytree(folder / "src", tree / "crates" / folder.name / "src")


def failed_edits(tree):
    """Tries each edit over a tree, and returns a line for each that isn't found out."""
    found = []
    for name, (file, before, after, told) in EDITS.items():
        place = tree / file
        text, document = place.read_text(encoding="utf-8"), (tree / DOCUMENT).read_text(encoding="utf-8")
        if before not in text:
            found.append(f"{name}: {file} has no {before!r}")
            continue
        place.write_text(text.replace(before, after, 1), encoding="utf-8")
        edited = (tree / DOCUMENT).read_text(encoding="utf-8")
        status, said = run(tree, "--compare")
        if status != 1 or told not in said or (tree / DOCUMENT).read_text(encoding="utf-8") != edited:
            found.append(f"{name}: not found out: status {status}: {said[:300]}")
        place.write_text(text, encoding="utf-8")
        (tree / DOCUMENT).write_text(document, encoding="utf-8")
    return found


def failed_writing(tree):
    """Has the tables written anew over a row by hand, and returns a line where the document isn't as before."""
    document = tree / DOCUMENT
    before = document.read_text(encoding="utf-8")
    document.write_text(before.replace("-->\n", "-->\n| `by_hand` | - | - |\n", 1), encoding="utf-8")
    status, said = run(tree)
    same = document.read_text(encoding="utf-8") == before
    document.write_text(before, encoding="utf-8")
    return [] if status == 0 and same else [f"written: status {status}, {'the same' if same else 'another'} document: {said[:300]}"]


def main():
    status, said = run(TOP, "--compare")
    print(said, end="")
    failed = ["made: the tables of docs/PROVED.md aren't those of the sources: run tools/proved.py"] if status else []
    if not failed:
        with tempfile.TemporaryDirectory() as name:
            tree = pathlib.Path(name)
            copy(tree)
            failed += failed_writing(tree) + failed_edits(tree)
    for line in failed:
        print(line)
    print("the tables of docs/PROVED.md are NOT as wanted" if failed
          else f"the tables of docs/PROVED.md are those of the sources, and each of {len(EDITS)} edits is found out")
    return 1 if failed else 0


if __name__ == "__main__":
    sys.exit(main())
