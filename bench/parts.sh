#!/bin/sh
# The time of `two_parts` and of going over all `Fields`, at 104,858 and at 1,048,576 bytes, of many lines and of one:
# ten times the bytes may take at most twelve times as long. Builds a small program over copies of the crates in a
# temporary folder, and takes the best of five of each, in turn, in one run.
set -eu
. "$(dirname "$0")/workspace.sh"

workspace as2_names as2_parts
echo "parts_bench: as2_parts" >> "$work/crates.txt"
mkdir -p "$work/crates/parts_bench/src"
cat > "$work/crates/parts_bench/src/main.rt" <<'END'
//! Does what the first argument names over standard input, as often as the second says, and prints what it counted.
#![tactic(auto)]

use as2_parts::{Fields, two_parts};
use std::env;
use std::io::{self, Read, Write};

/// Bytes of the two parts' contents, 0 where the body hasn't two.
fn parts(body: &[u8]) -> usize {
    match two_parts(body, b"boundary") {
        Ok((first, second)) => first.content.len().wrapping_add(second.content.len()),
        Err(_) => 0,
    }
}

/// Bytes of all values.
fn fields(text: &[u8]) -> usize {
    let mut total: usize = 0;
    for field in Fields::of(text) {
        total = total.wrapping_add(field.value.len());
    }
    total
}

fn main(rt: HostRuntime) -> io::Result<()> {
    let words: Vec<String> = env::args(&rt)?.collect(rt.alloc())?;
    let (what, often) = match words.as_slice() {
        [_, what, often] => (what.as_str(), often.as_str().parse::<u32>().unwrap_or(1)),
        _ => ("parts", 1),
    };
    let mut content: Vec<u8> = Vec::new(rt.alloc());
    rt.stdin().read_to_end(&mut content)?;
    let mut total: usize = 0;
    for _ in 0..often {
        let count = if what == "parts" {
            parts(&content)
        } else {
            fields(&content)
        };
        total = total.wrapping_add(count);
    }
    let mut output = rt.stdout();
    let word: &[u8] = if total == 0 { b"nothing\n" } else { b"something\n" };
    output.write_all(word)
}
END

build parts_bench parts 1

python3 - "$work" <<'END'
import subprocess, sys, time

program = sys.argv[1] + "/crates/parts_bench/out/parts_bench"
SMALL, LARGE, OFTEN = 104_858, 1_048_576, 20


def body(size, line):
    """A body of two parts whose contents are such lines."""
    front, between, end = b"--boundary\r\n\r\n", b"\r\n--boundary\r\n\r\n", b"\r\n--boundary--\r\n"
    half = (size - len(front) - len(between) - len(end)) // 2
    part = (line * (half // len(line) + 1))[:half]
    return front + part + between + part + end


def text(size, line):
    return (line * (size // len(line) + 1))[:size]


def seconds(what, content, often):
    start = time.perf_counter()
    done = subprocess.run([program, what, str(often)], input=content, stdout=subprocess.PIPE, check=True)
    assert done.stdout == b"something\n", done.stdout
    return time.perf_counter() - start


CASES = (
    ("parts", "many lines", lambda size: body(size, b"--boundary-x line\r\n")),
    ("parts", "one line", lambda size: body(size, b"x")),
    ("fields", "many lines", lambda size: text(size, b"Name: value\r\n folded\r\n")),
    ("fields", "one line", lambda size: b"Name: " + text(size - 6, b"x")),
    ("fields", "one field of many lines", lambda size: b"Name: x" + text(size - 7, b"\r\n folded")),
    ("fields", "one line of blanks and line ends", lambda size: b"Name: x" + text(size - 8, b" \r\n\t") + b"y"),
)
worst = 0
for what, name, make in CASES:
    small, large = make(SMALL), make(LARGE)
    best = {}
    for _ in range(5):
        # what starting and reading take is measured without work, and taken off
        for key, content, often in (("small", small, OFTEN), ("large", large, OFTEN), ("small0", small, 0), ("large0", large, 0)):
            if often == 0:
                start = time.perf_counter()
                subprocess.run([program, what, "0"], input=content, stdout=subprocess.PIPE, check=True)
                took = time.perf_counter() - start
            else:
                took = seconds(what, content, often)
            best[key] = min(best.get(key, took), took)
    low, high = best["small"] - best["small0"], best["large"] - best["large0"]
    ratio = high / low
    worst = max(worst, ratio)
    print("%-6s %-33s %8.3f ms, ten times the bytes %8.3f ms, ratio %.1f" % (what, name, low / OFTEN * 1e3, high / OFTEN * 1e3, ratio))
print("worst ratio %.1f (at most 12 wanted)" % worst)
sys.exit(0 if worst <= 12 else 1)
END
