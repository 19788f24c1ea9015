#!/bin/sh
# Runs each program of crates/ that has a stored output and is built, as `rt ci` and `rt run` leave it, on its stored input, words
# and files, and compares what it writes and its status. CHUNKPACK names the program to try for pack_main. Needs neither Node
# nor the kit. The last line counts.
set -eu
cd -- "$(dirname -- "$0")/.."
work=$(mktemp -d)
trap 'rm -rf -- "$work"' EXIT
passed=0
failed=0
skipped=0
lacking=
stale=

program_of() {
    if [ "$1" = pack_main ] && [ -n "${CHUNKPACK-}" ]; then
        printf '%s\n' "$CHUNKPACK"
    else
        printf '%s\n' "crates/$1/out/$1"
    fi
}

# A source of the crate, or of one that it stands on, that is newer than its program.
newer_source() {
    [ "$(program_of "$1")" = "crates/$1/out/$1" ] || return 0
    for below in $(bin/crates "$1" | cut -d ' ' -f 1); do
        find "crates/$below/src" "crates/$below/specs" "crates/$below/proofs" -newer "crates/$1/out/$1" 2>/dev/null || true
    done | head -n 1
}

stored() {
    [ ! -f "crates/$1/$2" ] || cat -- "crates/$1/$2"
}

# The program's status and output, in a folder of its own with its files. Its arguments are lines.
run_crate() {
    rm -rf -- "$work/data" "$work/program"
    mkdir -- "$work/data"
    [ ! -d "crates/$1/data" ] || cp -R -- "crates/$1/data/." "$work/data"
    cp -- "$(program_of "$1")" "$work/program"
    chmod +x -- "$work/program"
    stored "$1" stdin >"$work/stdin"
    stored "$1" args >"$work/args"
    set --
    while IFS= read -r word; do set -- "$@" "$word"; done <"$work/args"
    status=0
    (cd -- "$work/data" && exec $limit ../program "$@" <../stdin >../stdout 2>../stderr) || status=$?
}

compare() {
    wanted=$(stored "$1" status)
    if [ "$status" -ne "${wanted:-0}" ]; then
        printf 'FAILED: the stored run of %s ended with status %s\n' "$1" "$status"
        tail -n 5 -- "$work/stderr"
    elif ! differs=$(cmp -- "$work/stdout" "crates/$1/stdout" 2>&1); then
        printf 'FAILED: the stored run of %s: %s\n' "$1" "$differs"
        diff -- "crates/$1/stdout" "$work/stdout" | head -n 4
    else
        printf 'ok: the stored run of %s\n' "$1"
        passed=$((passed + 1))
        return
    fi
    failed=$((failed + 1))
}

limit=
! command -v timeout >/dev/null 2>&1 || limit='timeout 120'
for file in crates/*/stdout; do
    name=$(basename -- "$(dirname -- "$file")")
    if [ ! -f "$(program_of "$name")" ]; then
        lacking="$lacking $name"
    elif [ -n "$(newer_source "$name")" ]; then
        stale="$stale $name"
    else
        run_crate "$name"
        compare "$name"
        continue
    fi
    skipped=$((skipped + 1))
done
[ -z "$lacking" ] || printf 'skipped: the stored runs of%s: not built here, which rt ci does\n' "$lacking"
[ -z "$stale" ] || printf 'skipped: the stored runs of%s: built of other sources than those that stand here\n' "$stale"
echo "$passed passed, $failed failed, $skipped skipped"
[ "$failed" -eq 0 ]
