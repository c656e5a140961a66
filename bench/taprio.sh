#!/bin/sh
# Runs the script of `gates --format taprio` for two streams with a `tc` that stores its words, and compares them: with each of
# the variables that the script takes. The script is the one that the rows compare the program's with. Ends with 0 where all is
# as it should be; where the real `tc` is there, it reads the commands too.
set -eu
root=$(cd "$(dirname "$0")/.." && pwd)
script=$root/crates/tsn_rows/data/two-streams.taprio
made=$(mktemp -d)
trap 'rm -rf "$made"' EXIT
mkdir "$made/bin"
cat >"$made/bin/tc" <<'STUB'
#!/bin/sh
echo "tc $*" >>"$STORED"
STUB
chmod +x "$made/bin/tc"
STORED=$made/stored
export STORED
wrong=0

# VARIABLES..: runs the script with them; what it has `tc` do is stored.
run() {
    run_of "$script" "$@"
}

# SCRIPT VARIABLES..: the same of another script.
run_of() {
    ran=$1
    shift
    : >"$STORED"
    status=0
    env -u FLAGS -u DRY -u FORCE -u MOST -u LEAST -u BASE_TIME -u CLOCKID PATH="$made/bin:$PATH" "$@" \
        "${SHELL_OF:-sh}" "$ran" >"$made/printed" 2>"$made/told" || status=$?
}

is() {
    if [ "$1" != "$2" ]; then
        echo "$case_name: wanted '$2', got '$1'"
        wrong=$((wrong + 1))
    fi
}

base="parent root handle 100 taprio num_tc 8 map 0 1 2 3 4 5 6 7 0 0 0 0 0 0 0 0 queues 1@0 1@1 1@2 1@3 1@4 1@5 1@6 1@7"
list="cycle-time 1000000 sched-entry S 80 672 sched-entry S 7F 986992 sched-entry S 00 12336"

for SHELL_OF in sh dash bash; do
    command -v "$SHELL_OF" >/dev/null || continue
    export SHELL_OF
    case_name="$SHELL_OF, no device"
    run
    is "$status $(cat "$STORED")" "0 "

    case_name="$SHELL_OF, one device"
    run DEV_0=eth0 BASE_TIME=17
    is "$status $(cat "$STORED")" "0 tc qdisc replace dev eth0 $base base-time 17 $list clockid CLOCK_TAI"

    case_name="$SHELL_OF, the device keeps the gates"
    run DEV_0=eth0 FLAGS=0x2
    is "$status $(cat "$STORED")" "0 tc qdisc replace dev eth0 $base base-time 0 $list flags 0x2"

    case_name="$SHELL_OF, launch times"
    run DEV_0=eth0 FLAGS=0x1 TXTIME_DELAY=200000 CLOCKID=CLOCK_MONOTONIC
    is "$status $(cat "$STORED")" \
        "0 tc qdisc replace dev eth0 $base base-time 0 $list flags 0x1 txtime-delay 200000 clockid CLOCK_MONOTONIC"

    case_name="$SHELL_OF, a dry run"
    run DEV_0=eth0 DRY=1
    is "$status $(cat "$STORED") $(cat "$made/printed")" \
        "0  tc qdisc replace dev eth0 $base base-time 0 $list clockid CLOCK_TAI"

    case_name="$SHELL_OF, too many entries on one of two devices"
    run DEV_0=eth0 DEV_4=eth4 MOST=3
    is "$status $(cat "$STORED")" "1 "
    is "$(head -n 1 "$made/told")" "eth4: 4 entries, more than 3"

    case_name="$SHELL_OF, an entry that is too short"
    run DEV_0=eth0 LEAST=673
    is "$status $(cat "$STORED")" "1 "
    is "$(head -n 1 "$made/told")" "eth0: an entry of 672 ns, shorter than 673"

    case_name="$SHELL_OF, just long enough"
    run DEV_0=eth0 LEAST=672 MOST=3
    is "$status $(wc -l <"$STORED" | tr -d ' ')" "0 1"

    case_name="$SHELL_OF, no shortest entry but the link's"
    run DEV_0=eth0 LEAST=
    is "$status $(wc -l <"$STORED" | tr -d ' ')" "0 1"

    case_name="$SHELL_OF, an entry that is too short for the link's rate"
    sed 's/sched-entry S 80 672/sched-entry S 80 479/' "$script" >"$made/short.taprio"
    run_of "$made/short.taprio" DEV_0=eth0
    is "$status $(cat "$STORED")" "1 "
    is "$(head -n 1 "$made/told")" "eth0: an entry of 479 ns, shorter than 480"
    run_of "$made/short.taprio" DEV_0=eth0 LEAST=479
    is "$status $(wc -l <"$STORED" | tr -d ' ')" "0 1"

    case_name="$SHELL_OF, links of several rates"
    sed '/DEV_4/s/ 480 / 4800 /' "$script" >"$made/rates.taprio"
    run_of "$made/rates.taprio" DEV_0=eth0 DEV_4=eth4
    is "$status $(cat "$STORED")" "1 "
    is "$(grep -v FORCE "$made/told")" "eth4: an entry of 1344 ns, shorter than 4800"
    run_of "$made/rates.taprio" DEV_0=eth0 DEV_4=eth4 LEAST=480
    is "$status $(wc -l <"$STORED" | tr -d ' ')" "0 2"

    for word in 3x x 5e3 -1 +3 0x10 ' 3' 1234567890123456789; do
        case_name="$SHELL_OF, MOST=$word"
        run DEV_0=eth0 MOST="$word" FORCE=1
        is "$status $(cat "$STORED")" "1 "
        is "$(cat "$made/told")" "MOST is no number of at most 18 digits: $word"

        case_name="$SHELL_OF, LEAST=$word"
        run DEV_0=eth0 LEAST="$word"
        is "$status $(cat "$STORED")" "1 "
        is "$(cat "$made/told")" "LEAST is no number of at most 18 digits: $word"
    done

    case_name="$SHELL_OF, numbers of 18 digits"
    run DEV_0=eth0 MOST=000000000000000003 LEAST=000000000000000672
    is "$status $(wc -l <"$STORED" | tr -d ' ')" "0 1"

    case_name="$SHELL_OF, forced"
    run DEV_0=eth0 DEV_4=eth4 MOST=3 LEAST=673 FORCE=1
    is "$status $(wc -l <"$STORED" | tr -d ' ')" "0 2"
done

# The real one reads all words before it looks for the device, which isn't there.
if command -v tc >/dev/null; then
    for flags in "" 0x1 0x2; do
        case_name="the real tc, flags '$flags'"
        is "$(DEV_0=tsn-none FLAGS=$flags sh "$script" 2>&1 || true)" 'Cannot find device "tsn-none"'
    done
fi

[ "$wrong" -eq 0 ] && echo "the script does what it says"
