#!/bin/sh
# The time of a MIC of 200 MiB beside sha1sum, md5sum and sha256sum, as ratios: at most 1.2 of each is wanted, of SHA-256 1.1.
# Builds a small program over copies of as2_names and as2_mic in a temporary folder, and takes the best of five
# runs of each, in turn.
set -eu
. "$(dirname "$0")/workspace.sh"

workspace as2_names as2_mic
echo "mic_bench: as2_mic" >> "$work/crates.txt"
mkdir -p "$work/crates/mic_bench/src"
cat > "$work/crates/mic_bench/src/main.rt" <<'END'
//! Prints the MIC of standard input under the digest that the argument names.
#![tactic(auto)]

use as2_mic::{Alg, Digester};
use std::env;
use std::io::{self, Read, Write};

/// Bytes that are read at once.
const BLOCK: usize = 65_536;

fn main(rt: HostRuntime) -> io::Result<()> {
    let words: Vec<String> = env::args(&rt)?.collect(rt.alloc())?;
    let alg = match words.as_slice() {
        [_, name] => Alg::named(name.as_bytes()).unwrap_or(Alg::Sha1),
        _ => Alg::Sha1,
    };
    let mut digester = Digester::new(alg);
    let mut block: Vec<u8> = Vec::with_capacity(rt.alloc(), BLOCK)?;
    block.resize(BLOCK, 0)?;
    let mut input = rt.stdin();
    for _ in 0..u64::MAX {
        let count = input.read(block.as_mut_slice())?;
        if count == 0 {
            break;
        }
        digester.update(&block[..count]);
    }
    let mut output = rt.stdout();
    output.write_all(digester.finish().bytes())?;
    output.write_all(b"\n")
}
END

head -c 209715200 /dev/urandom > "$work/content"
build mic_bench sha1

python3 - "$work" <<'END'
import base64, binascii, subprocess, sys, time

work = sys.argv[1]
content = work + "/content"
program = work + "/crates/mic_bench/out/mic_bench"

def run(words):
    with open(content, "rb") as file:
        start = time.perf_counter()
        text = subprocess.run(words, stdin=file, stdout=subprocess.PIPE, check=True).stdout
        return time.perf_counter() - start, text.split()[0].decode()

for name in ("sha1", "md5", "sha-256"):
    best = {}
    tool = name.replace("-", "") + "sum"
    for _ in range(5):
        for who, words in (("station", [program, name]), ("tool", [tool])):
            seconds, text = run(words)
            if who == "tool":
                text = base64.b64encode(binascii.unhexlify(text)).decode()
            best[who] = min(best.get(who, seconds), seconds)
            best.setdefault("text", text)
            assert best["text"] == text, "the MICs differ"
    print("%-7s MIC %.3f s, %s %.3f s, ratio %.2f" % (name, best["station"], tool, best["tool"], best["station"] / best["tool"]))
END
