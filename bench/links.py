"""How long partners that hang hold up another one: seconds from the submission of a document to its first byte at the partner, beside 0, 3, 4
and 8 that hang with so many documents each; of two programs side by side.

    bench/links.py [--program FILE] [--beside FILE] [--hung N ...] [--documents N]

`--timeout` is 5 seconds. The first figure is of a document that comes while those that hang have all the links that they get, the second the
longest of five that come once a time limit is over. The program is ./as2desk unless --program names another."""
import argparse
import math
import os
import pathlib
import sys
import tempfile

TOP = pathlib.Path(__file__).resolve().parent.parent
sys.path[:0] = [str(TOP / "tests" / "live"), str(TOP / "tests" / "hostile")]
sys.dont_write_bytecode = True
from fairness import measure
import running


def shown(seconds):
    """Those seconds; how long was waited if nothing came."""
    return f"over {running.PATIENCE} s" if math.isnan(seconds) else f"{seconds:.2f} s"


def main():
    words = argparse.ArgumentParser(description=__doc__.splitlines()[0])
    words.add_argument("--program", type=os.path.abspath, default=str(TOP / "as2desk"))
    words.add_argument("--beside", type=os.path.abspath, help="another program, to be measured too")
    words.add_argument("--hung", type=int, nargs="*", default=[0, 3, 4, 8])
    words.add_argument("--documents", type=int, default=1_000)
    given = words.parse_args()
    running.PATIENCE = 600
    for count in given.hung:
        for name, program in (("program", given.program), ("beside", given.beside)):
            if not program:
                continue
            with tempfile.TemporaryDirectory(prefix="links-") as folder:
                first, later, share, links, _ = measure(program, os.path.join(folder, "desk"), count, given.documents)
            print(f"{name}, beside {count} that hang with {given.documents:,} documents each: {shown(first)}, later {shown(later)}; "
                  f"{share:.0%} of a processor, {links} links to them", flush=True)


main()
