#!/usr/bin/env bash
# Runs the built program on files and streams that fail, or that have to be left alone, where the system has to help: pipes
# that nobody writes to, a full device, a pipe that is closed, streams that are closed, a file that may not be read. Each case
# says which status it expects, which standard output, and which line on standard error. What needs no help of the system is in
# bench/real-files.
#
#     bench/files.sh [PROGRAM]
set -u
root=$(cd "$(dirname "$0")/.." && pwd)
program=${1:-$root/crates/tsn/out/tsn}
network=$root/examples/two-streams.toml
if [ ! -x "$program" ]; then
    echo "bench/files.sh: there is no program $program; run ./tsn first" >&2
    exit 2
fi
folder=$(mktemp -d)
trap 'rm -rf "$folder"' EXIT
cd "$folder" || exit 2
held=0
wrong=0

# TITLE STATUS OUTPUT TOLD: whether the last run ended so, by the files `status`, `output` and `told`. TOLD `?` is any text.
expect() {
    local told
    told=$(cat told)
    if [ "$(cat status)" = "$2" ] && [ "$(cat output)" = "$3" ] && { [ "$4" = "$told" ] || { [ "$4" = '?' ] && [ -n "$told" ]; }; }; then
        held=$((held + 1))
    else
        wrong=$((wrong + 1))
        echo "$1: status $(cat status), output '$(cat output)', told '$told'"
    fi
}

# WORDS..: runs the program, with at most ten seconds. A run that waits for a pipe ends with status 124.
run() {
    timeout 10 "$program" "$@" >output 2>told
    echo $? >status
}

cp "$network" net.toml
echo 'cycle = 0' >bad.toml
echo '{"flowspan":2924,"offsets":[0,672]}' >plan.json
mkfifo fifo
refused='tsn: bad.toml: the key node is missing'

run check bad.toml fifo fifo
expect 'pipes behind a refused network' 3 'refused N2 top' "$refused"

run gates bad.toml fifo
expect 'a pipe behind a refused network' 3 'refused N2 top' "$refused"

(head -c 10 net.toml; sleep 1; tail -c +11 net.toml) >fifo &
run valid fifo 0 672
wait
expect 'a network from a pipe, in two parts' 0 'valid flowspan 2924' ''

(head -c 10 net.toml; sleep 1; tail -c +11 net.toml) | run valid - 0 672
expect 'a network from standard input, in two parts' 0 'valid flowspan 2924' ''

run valid - 0 672 <.
expect 'a directory as standard input' 8 '' 'tsn: standard input: cannot be read: Is a directory (os error 21)'

run valid - 0 672 <&-
expect 'standard input that is closed' 8 '' 'tsn: standard input: cannot be read: Bad file descriptor (os error 9)'

: >output
"$program" valid net.toml 0 672 >/dev/full 2>told
echo $? >status
expect 'a full device as standard output' 8 '' 'tsn: standard output: cannot be written: No space left on device (os error 28)'

"$program" valid net.toml 0 672 >&- 2>told
echo $? >status
expect 'standard output that is closed' 8 '' 'tsn: standard output: cannot be written: Bad file descriptor (os error 9)'

(
    trap '' PIPE
    sleep 1
    "$program" gates net.toml plan.json 2>told
    echo $? >status
) | true
expect 'a pipe that is closed as standard output' 8 '' 'tsn: standard output: cannot be written: Broken pipe (os error 32)'

run plan net.toml --plan /dev/full
expect 'a full device as plan file' 8 '' 'tsn: /dev/full: cannot be written: No space left on device (os error 28)'

: >told
timeout 10 "$program" valid bad.toml 0 >output 2>&-
echo $? >status
expect 'standard error that is closed' 3 'refused N2 top' ''

timeout 10 "$program" valid bad.toml 0 >output 2>/dev/full
echo $? >status
expect 'a full device as standard error' 3 'refused N2 top' ''

cp net.toml secret.toml
chmod 000 secret.toml
if [ -r secret.toml ]; then
    echo 'left out: a file that may not be read, since this user may read all'
else
    run valid secret.toml 0 672
    expect 'a file that may not be read' 8 '' 'tsn: secret.toml: cannot be read: Permission denied (os error 13)'
fi

for words in '' 'valid' 'valid net.toml' 'valid net.toml x' 'check net.toml plan.json' 'plan net.toml --workers 17'; do
    # shellcheck disable=SC2086
    run $words
    expect "the words '$words'" 2 '' '?'
done

echo "$held cases hold"
if [ "$wrong" -gt 0 ]; then
    echo "$wrong cases don't hold"
    exit 1
fi
