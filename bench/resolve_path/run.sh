#!/bin/sh
# Compares resolution with a plain program of our own, on random trees, settings and requests: so many trees, from a seed.
# The program in Rattle is made in a temporary folder.
set -eu
. "$(dirname "$0")/../workspace.sh"
copy_crates runs_modules
(cd "$work/crates/runs_modules" && rt run </dev/null >/dev/null 2>"$work/log") || { cat "$work/log" >&2; exit 1; }
python3 "$here/trees.py" "${1:-20000}" "${2:-1}" >"$work/lines"
python3 "$here/plain.py" <"$work/lines" >"$work/wanted"
"$work/crates/runs_modules/out/runs_modules" <"$work/lines" >"$work/found"
cmp "$work/wanted" "$work/found"
echo "$(wc -l <"$work/found") answers are the same"
