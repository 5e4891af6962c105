#!/bin/sh
# Measures `receive` and `send` on real files, as ratios to `cat` of the same capture into a null device, `inspect`, `import`
# and `receive` of it as a recording, `follow` of two paths' captures, and the memory of `receive` at two lengths of a
# capture. Wants about 1.6 GB below TMPDIR (/tmp), best a folder in memory, as TMPDIR=/dev/shm. Words: how many rounds (5),
# the best one counts; how many frames a capture has (60), of which 195 are a gigabyte.
root=$(CDPATH='' cd -- "$(dirname -- "$0")/.." && pwd) || exit 1
rounds=${1:-5}
folder=$(mktemp -d "${TMPDIR:-/tmp}/st2110-bench.XXXXXX") || exit 1
trap 'rm -rf "$folder"' EXIT
program=$root/st2110
# The launcher looks whether the program is current: once, for a command that its part hasn't, then it is started itself.
"$program" receive --help >/dev/null || exit 1
program=$root/crates/st2110/out/st2110
sdp=$root/examples/camera.sdp
frames=${2:-60}
# The timestamps of frames 0 to 15 at 60000/1001.
window=0,1501,3003,4504,6006,7507,9009,10510,12012,13513,15015,16516,18018,19519,21021,22522

# A picture of 1920 by 1080, YCbCr 4:2:2, 10 bits, 60000/1001: its block, and 5,184,000 octets without order.
make_picture() {
    printf 'S20PIC01\000\012\007\200\004\070\000\000\352\140\000\000\003\351'
    head -c 5184000 /dev/urandom
}

# The names of so many copies of the picture.
pictures() {
    i=0
    while [ "$i" -lt "$1" ]; do
        echo "$folder/picture"
        i=$((i + 1))
    done
}

# The microseconds of a command's best round.
best() {
    least=
    i=0
    while [ "$i" -lt "$rounds" ]; do
        rm -f "$folder/out"
        before=$(date +%s%N)
        "$@" >/dev/null 2>"$folder/faults" || { cat "$folder/faults" >&2; exit 1; }
        spent=$((($(date +%s%N) - before) / 1000))
        if [ -z "$least" ] || [ "$spent" -lt "$least" ]; then least=$spent; fi
        i=$((i + 1))
    done
    echo "$least"
}

# A line: what was measured, its milliseconds, and how many times the time of `cat` it took.
line() {
    awk -v what="$1" -v spent="$2" -v cat="$3" \
        'BEGIN { printf "%-44s %8.1f ms %6.2f\n", what, spent / 1000, spent / cat }'
}

# The greatest resident memory of a command, in KiB, as the system's own `time` tells it.
memory() {
    /usr/bin/time -f %M "$@" 2>&1 >/dev/null | tail -n 1
}

receive() {
    "$program" receive --window "$1" --state /dev/null "$folder/$2"
}

make_picture >"$folder/picture"
# shellcheck disable=SC2046
send() { "$program" send --pt 112 --sdp "$sdp" --paths "${3:-a}" --out "$1" $(pictures "$2"); }
send "$folder/short" 16 >/dev/null || exit 1
send "$folder/long" "$frames" >/dev/null || exit 1

copied=$(best cat "$folder/long")
line "cat of $frames frames" "$copied" "$copied"
line "receive, window of 1" "$(best receive 0 long)" "$copied"
line "receive, window of 16" "$(best receive "$window" long)" "$copied"
line "send --paths a" "$(best send "$folder/out" "$frames")" "$copied"

# The same as a recording: each beside `cat` of it.
flow=239.1.1.1:5004
"$program" export --a $flow --out "$folder/recording" "$folder/long" >/dev/null || exit 1
import() { "$program" import --sdp "$sdp" --a $flow --out /dev/null "$folder/recording"; }
record() { "$program" receive --sdp "$sdp" --a $flow --window "$1" --state /dev/null "$folder/recording"; }
recorded=$(best cat "$folder/recording")
line "cat of a recording of $frames frames" "$recorded" "$recorded"
line "inspect" "$(best "$program" inspect "$folder/recording")" "$recorded"
line "import" "$(best import)" "$recorded"
line "receive of the recording, window of 1" "$(best record 0)" "$recorded"
line "receive of the recording, window of 16" "$(best record "$window")" "$recorded"

# Both paths' captures side by side, into a pipe: beside `cat` of both.
rm -f "$folder/out" "$folder/recording"
send "$folder/other" "$frames" b >/dev/null || exit 1
follow() { "$program" follow --out "$1" "$folder/long" "$folder/other" | cat; }
side_by_side=$(best cat "$folder/long" "$folder/other")
line "cat of both paths' $frames frames" "$side_by_side" "$side_by_side"
line "follow" "$(best follow /dev/null)" "$side_by_side"
line "follow, into a pipe" "$(best follow -)" "$side_by_side"

if [ -x /usr/bin/time ]; then
    for capture in short long; do
        echo "memory of receive, window of 16, $capture:" \
            "$(memory "$program" receive --window "$window" --state /dev/null "$folder/$capture") KiB"
    done
fi
