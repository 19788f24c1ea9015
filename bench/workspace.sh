# Sourced by the benchmarks: a temporary repository for a program in Rattle over copies of crates. It sets `here`, the
# benchmark's folder, `root`, the repository, and `work`, the temporary one.
here=$(cd "$(dirname "$0")" && pwd)
root=$(cd "$here/../.." && pwd)
work=$(mktemp -d)
trap 'rm -rf "$work"' EXIT
mkdir -p "$work/crates/bench/src" "$work/crates/bench/specs" "$work/crates/bench/proofs"

# Copies crates and those that they stand on in the repository, with their lines of crates.txt.
copy_crates() {
    for crate in "$@"; do
        grep -q "^$crate[ :]" "$root/crates.txt" || continue
        [ ! -e "$work/crates/$crate" ] || continue
        cp -r "$root/crates/$crate" "$work/crates/$crate"
        rm -rf "$work/crates/$crate/must-fail"
        grep "^$crate[ :]" "$root/crates.txt" >>"$work/crates.txt"
        # shellcheck disable=SC2046
        copy_crates $(sed -n "s/^$crate[^:]*://p" "$root/crates.txt")
    done
}

# The line of the program, whose words are what it stands on.
bench_on() {
    copy_crates "$@"
    printf 'bench: %s\n' "$*" >>"$work/crates.txt"
}
