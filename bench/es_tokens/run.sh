#!/bin/sh
# Times the lexer over the JavaScript files below a folder (by default those that Node ships), beside the tokenizer of
# acorn that Node carries, on this machine in one run. The program in Rattle is made in a temporary folder.
set -eu
folder=${1:-/usr/lib/node_modules}
. "$(dirname "$0")/../workspace.sh"
bench_on es_tokens pack_util
cat >"$work/crates/bench/src/main.rt" <<'RATTLE'
#![tactic(auto)]

use es_tokens::{TokenEnd, tokens};
use pack_util::MAX_TEXT;
use std::time::Instant;
use std::{fs, io};

const PASSES: u32 = 5;

fn main(rt: HostRuntime) -> io::Result<()> {
    for line in rt.lines(rt.alloc()) {
        let name = line?;
        let text = fs::read(&rt, name.as_str())?;
        if text.len() as u64 > MAX_TEXT {
            continue;
        }
        let mut best = u128::MAX;
        let mut faults = 0u32;
        for _ in 0..PASSES {
            let start = Instant::now(&rt)?;
            let told = tokens(rt.alloc(), text.as_slice());
            best = best.min(start.elapsed(&rt)?.as_nanos());
            faults = match told {
                Err(TokenEnd::Fault(_)) => 1,
                _ => 0,
            };
        }
        let size = text.len();
        let shown = name.as_str();
        println!(rt; "{size} {best} {faults} {shown}")?;
    }
    Ok(())
}
RATTLE
find "$folder" -type f \( -name '*.js' -o -name '*.mjs' -o -name '*.cjs' \) -size +0 | sort >"$work/files"
(cd "$work/crates/bench" && rt run </dev/null >/dev/null 2>"$work/log") || { cat "$work/log" >&2; exit 1; }
"$work/crates/bench/out/bench" <"$work/files" >"$work/ours"
cat >"$work/peer.js" <<'NODE'
const fs = require('fs');
const acorn = require('internal/deps/acorn/acorn/dist/acorn');
let bytes = 0, time = 0n;
for (const name of fs.readFileSync(process.argv[2], 'utf8').split('\n').filter(Boolean)) {
  const text = fs.readFileSync(name, 'utf8');
  let best = null;
  try {
    for (let pass = 0; pass < 5; pass++) {
      const start = process.hrtime.bigint();
      const all = [];
      for (const token of acorn.tokenizer(text, { ecmaVersion: 'latest', sourceType: 'module', allowHashBang: true })) all.push(token);
      const took = process.hrtime.bigint() - start;
      if (best === null || took < best) best = took;
    }
  } catch (error) { continue; }
  bytes += Buffer.byteLength(text); time += best;
}
console.log(`acorn: ${(bytes / (Number(time) / 1e9) / 1e6).toFixed(1)} MB/s over ${bytes} bytes`);
NODE
awk '{ bytes += $1; time += $2; faults += $3; if ($3) print "fault in " $4 }
     END { printf "es_tokens: %.1f MB/s over %d bytes in %d files, %d with a fault\n", bytes / (time / 1e9) / 1e6, bytes, NR, faults }' "$work/ours"
if command -v node >/dev/null; then
    node --expose-internals "$work/peer.js" "$work/files" || echo "acorn: not found in this Node, passed over"
else
    echo "acorn: no Node here, passed over"
fi
