#!/bin/sh
# Least offsets of path-like lists of arcs: calls a second of `tsn_diff`, and of a plain Rust program of the same algorithm
# (bench/least/plain.rs), built and run in turn, five times each; the best time counts. Needs the toolchain and rustc.
set -eu
root=$(cd "$(dirname "$0")/.." && pwd)
work=$(mktemp -d)
trap 'rm -rf "$work"' EXIT
rustc -O -o "$work/plain" "$root/bench/least/plain.rs"
(cd "$root/crates/tsn_calls" && rt run -- least 8 1 >"$work/log" 2>&1) || { cat "$work/log" >&2; exit 1; }
proved=$root/crates/tsn_calls/out/tsn_calls

# the least of five times, in nanoseconds
best() {
    for _ in 1 2 3 4 5; do "$@" 2>&1 >"$work/found"; done | sort -n | head -n 1
}

echo 'streams  arcs  tsn_diff calls/s  plain calls/s  ratio'
for size in '8 2000000' '32 400000' '128 100000'; do
    set -- $size
    one=$(best "$proved" least "$1" "$2")
    said=$(cat "$work/found")
    other=$(best "$work/plain" least "$1" "$2")
    [ "$said" = "$(cat "$work/found")" ] || { echo "different answers: $said, $(cat "$work/found")" >&2; exit 1; }
    arcs=$(printf '%s\n' "$said" | cut -d ' ' -f 4)
    awk -v n="$1" -v a="$arcs" -v k="$2" -v p="$one" -v q="$other" \
        'BEGIN { printf "%7d  %4d  %16.0f  %13.0f  %5.2f\n", n, a, k * 1e9 / p, k * 1e9 / q, p / q }'
done
