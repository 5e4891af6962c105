#!/bin/sh
# Makes the recordings of examples/recordings/ anew, by real senders and recorders in a network of its own, and looks
# whether the program takes from them what tshark does; and the pictures of examples/forms/, by FFmpeg. No part of the gate.
set -u
usage='usage: tests/interop.sh [FOLDER [PROGRAM]]

Writes the recordings and what tshark says of them into FOLDER, or a temporary one, and runs the cases of tests/program/import.sh
and export.sh on them, by PROGRAM or ./st2110. Then what `export` writes is read by tshark. Nothing is sent but within a network
that is made for it.'
root=$(CDPATH='' cd -- "$(dirname -- "$0")/.." && pwd) || exit 125
case ${1-} in
    -h | --help)
        printf '%s\n' "$usage"
        exit
        ;;
    -*) set -- too many words ;;
esac
if [ $# -gt 2 ]; then
    printf '%s\n' "$usage" >&2
    exit 2
fi

stop() {
    printf 'interop: %s\n' "$1" >&2
    exit 1
}

# Which tools aren't there.
lacking=
for tool in tshark dumpcap mergecap tcpdump gst-launch-1.0 ffmpeg ffprobe ip python3 unshare nsenter gzip; do
    command -v "$tool" >/dev/null || lacking="$lacking $tool"
done
case $lacking in
    *gst*) ;;
    *)
        for element in rtpvrawpay rtpL24pay udpsink videotestsrc audiotestsrc; do
            gst-inspect-1.0 --exists $element || lacking="$lacking $element"
        done
        ;;
esac
[ -z "$lacking" ] || stop "not found:$lacking; on Debian
    apt-get install tshark tcpdump gstreamer1.0-tools gstreamer1.0-plugins-base gstreamer1.0-plugins-good ffmpeg iproute2"
[ -w /dev/net/tun ] || stop '/dev/net/tun may not be written to; as root it may'

room=$(mktemp -d) || exit 125
trap 'rm -rf "$room"' EXIT
folder=${1:-$room/recordings}
mkdir -p "$folder" && folder=$(CDPATH='' cd -- "$folder" && pwd) || exit 1
program=${2:-$root/st2110}
case $program in
    /*) ;;
    *) program=$(pwd)/$program ;;
esac

# A network of its own wants the rights of root: one's own, or those in a namespace of users.
rights=
[ "$(id -u)" = 0 ] || rights='--user --map-current-user --keep-caps'
# shellcheck disable=SC2086
unshare $rights --net "$root/tests/interop/record.sh" "$folder" || stop 'the recordings were not made'
cp "$root"/examples/recordings/*.sdp "$folder" || exit 1
echo "recorded: $(find "$folder" -name '*.pcap*' | wc -l) files in $folder"

# The cases, with the new recordings in place of the old.
passed=0
failed=0
RECORDINGS=$folder "$root/tests/program.sh" "$program" "import export" >"$room/cases"
grep -v '^passed: ' "$room/cases" | sed '$d'
counts=$(tail -n 1 "$room/cases")
passed=${counts%% passed*}
failed=${counts#*passed, }
failed=${failed%% failed*}

pass() {
    passed=$((passed + 1))
    printf 'passed: %s\n' "$1"
}
fail() {
    failed=$((failed + 1))
    printf 'FAILED: %s: %s\n' "$1" "$2"
}

# What tshark reads of an export: just the datagrams of the capture that tshark read in the recording, at their times, each
# with good checksums of IP and UDP. exported NAME RECORDING A [B]: flows as --a and --b have them.
told() {
    HOME=$room XDG_CONFIG_HOME=$room TZ=UTC LC_ALL=C tshark -n -r "$1" -o ip.check_checksum:TRUE \
        -o udp.check_checksum:TRUE -T fields -e frame.time_epoch -e ip.dst -e ipv6.dst -e udp.dstport \
        -e "$2" -e udp.checksum.status -e udp.payload 2>/dev/null
}
exported() {
    name=$1
    recording=$2
    flows="--a $3${4:+ --b $4}"
    # shellcheck disable=SC2086
    if ! "$program" import --sdp "$folder/$name.sdp" --out "$room/$name.cap" "$folder/$recording" >/dev/null ||
        ! "$program" export $flows --out "$room/$name.pcap" "$room/$name.cap" >/dev/null; then
        fail "export: $recording" 'the program failed'
        return
    fi
    status=ip.checksum.status
    good='1\t1'
    case $3 in
        \[*)
            status=ipv6.version
            good='6\t1'
            ;;
    esac
    awk -F '\t' -v good="$good" -v a="$3" -v b="${4-}" '
        { to = ($5 == "" ? "[" $6 "]" : $5) ":" $7 }
        $4 !~ /:icmp/ && (to == a || to == b) { print $1 "\t" $5 "\t" $6 "\t" $7 "\t" good "\t" $9 }
    ' "$folder/${recording%.*}.txt" >"$room/want"
    told "$room/$name.pcap" $status >"$room/got"
    if [ -s "$room/got" ] && cmp -s "$room/want" "$room/got"; then
        pass "export: $recording"
    else
        fail "export: $recording" "tshark says $(diff "$room/want" "$room/got" | head -n 4)"
    fi
}
if "$program" export --help >/dev/null 2>&1; then
    exported loopback loopback.pcap 127.0.0.1:5004
    exported two-cards two-cards.pcapng 239.1.1.1:5004 239.1.1.2:5006
    exported nanoseconds nanoseconds.pcap 127.0.0.1:5004
    exported ffmpeg ffmpeg.pcap 127.0.0.1:5004
    exported foreign foreign.pcapng 192.0.2.2:5004
    exported ipv6 ipv6.pcap '[ff3e::8000:1]:5004'
else
    echo 'left out: export, which the program has not'
fi

# Pictures of FFmpeg, and what ffprobe reads of those that the program writes.
mkdir "$room/forms" && "$root/tests/interop/forms.sh" "$room/forms" "$program" >"$room/pictures"
grep '^FAILED: ' "$room/pictures"
passed=$((passed + $(grep -c '^passed: ' "$room/pictures")))
failed=$((failed + $(grep -c '^FAILED: ' "$room/pictures")))

echo "$passed passed, $failed failed"
[ "$failed" = 0 ]
