#!/usr/bin/env python3
"""python3 tools/manual.py [--program FILE] [--to FOLDER]

Makes docs/as2desk.1, the man page, and deploy/as2desk.bash, the completion for bash, from what the program prints for
`--help` and for `COMMAND --help`. A line there that isn't understood is refused, and so is what the sources say
otherwise (crates/as2_commands/src): nothing is written then, and the status is 1. The program is ./as2desk, or the
file that --program names; with --to the files are made under that folder. Run it where a text of the command line
changed; tests/manual.sh compares.
"""
import argparse
import pathlib
import sys

TOP = pathlib.Path(__file__).resolve().parent.parent
sys.path[:0] = [str(TOP / "tools" / "manual")]
sys.dont_write_bytecode = True
import completion
import page
import reading
import sources


def main():
    asked = argparse.ArgumentParser(description="Makes the man page and the completion for bash.")
    asked.add_argument("--program", default=str(TOP / "as2desk"))
    asked.add_argument("--to", type=pathlib.Path, default=TOP)
    given = asked.parse_args()
    try:
        told = reading.program_of(str(pathlib.Path(given.program).resolve()))
        sources.compare(TOP, told)
        made = {"docs/as2desk.1": page.page_of(TOP, told), "deploy/as2desk.bash": completion.completion_of(told)}
    except reading.Fault as fault:
        print(f"manual.py: {fault}", file=sys.stderr)
        return 1
    for name, text in made.items():
        (given.to / name).parent.mkdir(parents=True, exist_ok=True)
        (given.to / name).write_text(text, encoding="utf-8")
        print(name)
    return 0


if __name__ == "__main__":
    sys.exit(main())
