#!/usr/bin/env python3
"""What each function of a crate costs to prove: `bench/functions.py CRATE [COUNT]`, behind `rt check --jobs 1` in the crate's folder.

The prover writes a file into out/incremental for each step of a proof, as soon as that is done, so the seconds between two files are those
of the later one. A line has the seconds of a function, those of the borrow checker's part in them, and its name; the dearest come first.
What an earlier check had proved already has no true time: take `out/` away before."""
import collections
import pathlib
import re
import sys

TOP = pathlib.Path(__file__).resolve().parent.parent
# What stands behind a function's name in the name of a file.
STEP = re.compile(
    r"\.(?:Lts|Code|Kinds|Symbol|TheLinks?|Goals|Given|Answers|Proof|Tie|Invariants|decls|Statement|Met|TheInside|TheView"
    r"|Layout|Named|Carried|Reads|Instances)\b.*"
)


def main(crate, count="30"):
    files = [(it.lstat().st_mtime, it.name) for it in (TOP / "crates" / crate / "out/incremental").rglob("*.oantt")]
    files.sort()
    whole, borrowed = collections.Counter(), collections.Counter()
    for (before, _), (moment, name) in zip(files, files[1:]):
        function = STEP.sub("", re.sub(r"^Rattle[-.]\w+[-.](?:proofs|specs)\.|\.oantt$", "", name))
        whole[function] += moment - before
        borrowed[function] += (moment - before) * (".Lts" in name)
    for function, seconds in whole.most_common(int(count)):
        print(f"{seconds:7.1f} {borrowed[function]:7.1f}  {function}")
    print(f"{sum(whole.values()):7.1f} {sum(borrowed.values()):7.1f}  all")


if __name__ == "__main__":
    main(*sys.argv[1:])
