#!/bin/sh
# The book of a search: settlements a second, and how often a second the first open node is found, with 1,000, 100,000 and
# 1,000,000 events; and the memory of each run. The events are splits, a level of the tree after another; making them isn't
# timed. Each size is run five times, the least time counts. Needs the toolchain.
set -eu
root=$(cd "$(dirname "$0")/.." && pwd)
work=$(mktemp -d)
trap 'rm -rf "$work"' EXIT
net=$root/bench/networks/star.toml
(cd "$root/crates/tsn_calls" && rt run -- book 1 "$net" >"$work/log" 2>&1) || { cat "$work/log" >&2; exit 1; }
program=$root/crates/tsn_calls/out/tsn_calls

echo ' events  settle/s  ns each  first_open/s  ns each  memory MB'
for events in 1000 100000 1000000; do
    : >"$work/times"
    memory=$(python3 "$root/bench/measure.py" "$program" book "$events" "$net" | cut -d ' ' -f 1)
    for _ in 1 2 3 4 5; do
        printf '%s %s\n' "$("$program" book "$events" "$net" 2>&1 >/dev/null)" "$memory" >>"$work/times"
    done
    awk -v n="$events" '
        NR == 1 || $1 < settle { settle = $1 } NR == 1 || $2 < ask { ask = $2 } NR == 1 || $3 > memory { memory = $3 }
        END { printf "%7d  %8.0f  %7.0f  %12.0f  %7.0f  %9.1f\n", n, n * 1e9 / settle, settle / n, 1e5 * 1e9 / ask, ask / 1e5, memory }' "$work/times"
done
