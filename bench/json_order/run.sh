#!/bin/sh
# Times the JSON reader over objects and lists of 4 MiB, beside Node's JSON.parse and Python's json, on this machine in one
# run, and tells the peak of its memory. The program in Rattle is made in a temporary folder.
set -eu
. "$(dirname "$0")/../workspace.sh"
bench_on json_order
cat >"$work/crates/bench/src/main.rt" <<'RATTLE'
#![tactic(auto)]

use json_order::read;
use std::time::Instant;
use std::{fs, io};

const PASSES: u32 = 5;

fn main(rt: HostRuntime) -> io::Result<()> {
    for line in rt.lines(rt.alloc()) {
        let name = line?;
        let text = fs::read(&rt, name.as_str())?;
        let mut best = u128::MAX;
        let mut read_all = false;
        for _ in 0..PASSES {
            let start = Instant::now(&rt)?;
            let told = read(rt.alloc(), text.as_slice());
            best = best.min(start.elapsed(&rt)?.as_nanos());
            read_all = told.is_ok();
        }
        let size = text.len();
        println!(rt; "{size} {best} {read_all}")?;
    }
    Ok(())
}
RATTLE
python3 - "$work" <<'PYTHON'
import sys
work = sys.argv[1]
size = 4 * 1024 * 1024
def fill(part, first, last):
    out, used, at = [], 0, 0
    while used < size:
        piece = part(at)
        out.append(piece)
        used += len(piece) + 1
        at += 1
    return first + ",".join(out) + last
open(work + "/object.json", "w").write(fill(lambda at: '"key%d":%d' % (at, at), "{", "}"))
# keys of as many bytes, and such keys that all hash alike by the kit's hasher of fixed seed
mask = 2 ** 64 - 1
def folded(a, b):
    return (a * b & mask) ^ (a * b >> 64)
def number(text):
    return int.from_bytes(text.encode(), "little")
def alike():
    first = 0x243f6a8885a308d3 + 32
    for at in range(10 ** 7):
        prefix = "%016d" % at
        state = folded(number(prefix[:8]) ^ first & mask, number(prefix[8:]) ^ 0x9e3779b97f4a7c15)
        middle = state.to_bytes(8, "little")
        if all(0x30 <= byte < 0x5b or 0x5e <= byte < 0x7f for byte in middle):
            return prefix + middle.decode()
start = alike()
open(work + "/long_keys.json", "w").write(fill(lambda at: '"%024d%08d":0' % (at * 7919, at), "{", "}"))
open(work + "/colliding.json", "w").write(fill(lambda at: '"%s%08d":0' % (start, at), "{", "}"))
open(work + "/objects.json", "w").write(fill(lambda at: '{"a":' * 126 + "0" + "}" * 126, "[", "]"))
open(work + "/numbers.json", "w").write(fill(lambda at: "0", "[", "]"))
open(work + "/one_key.json", "w").write(fill(lambda at: '"key":%d' % at, "{", "}"))
open(work + "/lists.json", "w").write(fill(lambda at: "[" * 126 + "]" * 126, "[", "]"))
PYTHON
(cd "$work/crates/bench" && rt run </dev/null >/dev/null 2>"$work/log") || { cat "$work/log" >&2; exit 1; }
cat >"$work/peer.js" <<'NODE'
const text = require('fs').readFileSync(process.argv[2], 'utf8');
let best = Infinity;
for (let pass = 0; pass < 5; pass++) {
  const start = process.hrtime.bigint();
  JSON.parse(text);
  best = Math.min(best, Number(process.hrtime.bigint() - start));
}
console.log(best);
NODE
cat >"$work/peer.py" <<'PYTHON'
import json, sys, time
text = open(sys.argv[1]).read()
best = None
for _ in range(5):
    start = time.perf_counter_ns()
    json.loads(text)
    took = time.perf_counter_ns() - start
    best = took if best is None else min(best, took)
print(best)
PYTHON
cat >"$work/peak.py" <<'PYTHON'
import resource, subprocess, sys
told = subprocess.run([sys.argv[1]], input=sys.argv[2].encode() + b"\n", capture_output=True, check=True).stdout.decode().strip()
print(told, resource.getrusage(resource.RUSAGE_CHILDREN).ru_maxrss * 1024)
PYTHON
for name in object long_keys colliding one_key lists objects numbers; do
    python3 "$work/peak.py" "$work/crates/bench/out/bench" "$work/$name.json" >"$work/ours"
    node=$(command -v node >/dev/null && node "$work/peer.js" "$work/$name.json" || echo 0)
    python=$(python3 "$work/peer.py" "$work/$name.json")
    awk -v name="$name" -v node="$node" -v python="$python" '{
        printf "%s: %d bytes, read %s; json_order %.1f MB/s, peak %.1f bytes for a byte", name, $1, $3, $1 / ($2 / 1e9) / 1e6, $4 / $1
        if (node > 0) printf ", JSON.parse %.1f MB/s (ratio %.2f)", $1 / (node / 1e9) / 1e6, node / $2
        printf ", Python %.1f MB/s (ratio %.2f)\n", $1 / (python / 1e9) / 1e6, python / $2
    }' "$work/ours"
done
