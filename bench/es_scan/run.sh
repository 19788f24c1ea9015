#!/bin/sh
# Compares the scanner with a scanner of our own over acorn's tokens, on the JavaScript files below a folder (by default
# those that Node ships) and on random texts, and times `tokens` and `scan` together over the same files, beside acorn's
# tokenizer in the same run. The programs in Rattle are made in a temporary folder.
set -eu
folder=${1:-/usr/lib/node_modules}
. "$(dirname "$0")/../workspace.sh"
copy_crates runs_texts
bench_on es_scan es_tokens pack_util
cat >"$work/crates/bench/src/main.rt" <<'RATTLE'
#![tactic(auto)]

use es_scan::scan;
use es_tokens::tokens;
use pack_util::MAX_TEXT;
use std::time::Instant;
use std::{fs, io};

const PASSES: u32 = 5;

fn main(rt: HostRuntime) -> io::Result<()> {
    for line in rt.lines(rt.alloc()) {
        let name = line?;
        let text = fs::read(&rt, name.as_str())?;
        if text.len() as u64 > MAX_TEXT {
            continue;
        }
        let mut best = u128::MAX;
        for _ in 0..PASSES {
            let start = Instant::now(&rt)?;
            if let Ok(tokens) = tokens(rt.alloc(), text.as_slice()) {
                let _ = scan(rt.alloc(), name.as_str(), text.as_slice(), tokens.as_slice())?;
            }
            best = best.min(start.elapsed(&rt)?.as_nanos());
        }
        let size = text.len();
        println!(rt; "{size} {best}")?;
    }
    Ok(())
}
RATTLE
find "$folder" -type f \( -name '*.js' -o -name '*.mjs' -o -name '*.cjs' \) -size +0 | sort >"$work/files"
for crate in bench runs_texts; do
    (cd "$work/crates/$crate" && rt run </dev/null >/dev/null 2>"$work/log") || { cat "$work/log" >&2; exit 1; }
done
"$work/crates/bench/out/bench" <"$work/files" >"$work/ours"
awk '{ bytes += $1; time += $2 } END { printf "tokens and scan: %.1f MB/s over %d bytes in %d files\n", bytes / (time / 1e9) / 1e6, bytes, NR }' "$work/ours"
# What the scanner answers to lines of what is asked and a text.
answers() {
    sed 's/^/scan /' | "$work/crates/runs_texts/out/runs_texts"
}
command -v node >/dev/null || { echo "acorn: no Node here, passed over"; exit 0; }
if ! node --expose-internals "$here/peer.js" "$work/files" "$work/texts" >"$work/theirs"; then
    echo "acorn: not found in this Node, passed over"
    exit 0
fi
answers <"$work/texts" >"$work/found"
node "$here/random.js" "${2:-20000}" 1 "$work/random" "$work/wanted"
answers <"$work/random" >"$work/made"
for pair in "theirs found files" "wanted made random"; do
    set -- $pair
    paste "$work/$1" "$work/$2" "$work/$3" | awk -F '\t' -v what="$3" '
        $1 == "passed over" { passed++; next }
        $1 != $2 { differ++; if (differ <= 10) print what ": " $0 }
        { all++ }
        END { printf "%s: %d compared, %d differ, %d passed over\n", what, all, differ, passed }'
done
