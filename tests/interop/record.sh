#!/bin/sh
# Makes the recordings of examples/recordings/ in FOLDER, the only word. tests/interop.sh runs it in a network of its own.
# GStreamer and FFmpeg send; here are the near ends of two cables, and a second network has the far ends:
#   a0, a1: 192.0.2.1 and 192.0.2.2;  b0, b1;  c0, c1: both ends here.
# shellcheck disable=SC2086
set -u
here=$(CDPATH='' cd -- "$(dirname -- "$0")" && pwd) || exit 125
cd "$1" || exit 1
room=$(mktemp -d) || exit 125
far=
others=
trap '{ for process in $far $others; do kill "$process" && wait "$process"; done; } 2>/dev/null; rm -rf "$room"' EXIT

stop() {
    printf 'record: %s\n' "$1" >&2
    exit 1
}

# until_says FILE PATTERN: waits until a line of the file has it, ten seconds at most.
until_says() {
    tries=0
    until grep -q -e "$2" "$1" 2>/dev/null; do
        tries=$((tries + 1))
        [ "$tries" -le 200 ] || stop "waited in vain for $2: $(cat "$1")"
        sleep 0.05
    done
}

# Two networks, without what the system sends by itself over IPv6. `$there COMMAND` runs in the second one.
quiet() {
    echo 1 >/proc/sys/net/ipv6/conf/all/disable_ipv6
    echo 1 >/proc/sys/net/ipv6/conf/default/disable_ipv6
}
networks() {
    quiet
    unshare --net sleep 300 &
    far=$!
    tries=0
    while [ "$(readlink "/proc/$far/ns/net")" = "$(readlink /proc/self/ns/net)" ]; do
        tries=$((tries + 1))
        [ "$tries" -le 200 ] || stop 'there is no second network'
        sleep 0.05
    done
    ip link set lo up
    for cable in a b c; do
        ip link add "${cable}0" type veth peer name "${cable}1" || stop "no cable $cable"
        [ $cable = c ] || ip link set "${cable}1" netns "$far"
    done
    ip addr add 192.0.2.1/28 dev a0
    for device in a0 b0 c0 c1; do ip link set "$device" up; done
    # Without a route to a group, a sender that names its card is refused too.
    ip route add 239.0.0.0/8 dev a0
    there="nsenter --net=/proc/$far/ns/net"
    $there sh -c 'echo 1 >/proc/sys/net/ipv6/conf/all/disable_ipv6; ip link set lo up; ip link set a1 up
        ip link set b1 up; ip addr add 192.0.2.2/28 dev a1'
}

# listen COMMAND..: starts a recorder, and waits until it listens. end: stops all of them once all has come.
listening=0
recorders=
listen() {
    listening=$((listening + 1))
    "$@" >/dev/null 2>"$room/recorder.$listening" &
    recorders="$recorders $!"
    until_says "$room/recorder.$listening" '^tcpdump: listening\|^File: '
}
end() {
    sleep 0.5
    for process in $recorders; do
        kill "$process"
        wait "$process"
    done
    recorders=
}
dump='tcpdump -U --immediate-mode'
[ "$(id -u)" != 0 ] || dump="$dump -Z root"

# send FORMAT WIDTH HEIGHT RATE MTU FIRST SINK..: two frames, each sent as soon as it is due. A packet has at most three
# rows by the choice of MTU, which counts from the header of RTP on.
frames=2
send() {
    format=$1 width=$2 height=$3 rate=$4 mtu=$5 first=$6
    shift 6
    gst-launch-1.0 -q videotestsrc num-buffers="$frames" pattern=zone-plate kx2=40 ky2=30 kt=3 ! \
        "video/x-raw,format=$format,width=$width,height=$height,framerate=$rate" ! \
        rtpvrawpay pt=96 ssrc=7 timestamp-offset=900 seqnum-offset="$first" mtu="$mtu" ! "$@" >/dev/null ||
        stop 'GStreamer sent nothing'
}
small='UYVY 8 8 25/1 80'

# relay WORDS..: a lossy way on from port 6000, as senders.py has it. passed: waits for its end.
relay() {
    rm -f "$room/relay"
    "$here/senders.py" relay "$@" >"$room/relay" &
    relay=$!
    others="$others $relay"
    until_says "$room/relay" ready
}
passed() {
    wait "$relay" || stop 'the relay failed'
}
to_relay='udpsink host=127.0.0.1 port=6000'
to_lo='udpsink host=127.0.0.1 port=5004'
to_a='udpsink host=239.1.1.1 port=5004 multicast-iface=a0'

# On loopback, in microseconds and nanoseconds; the sequence number runs over.
loopback() {
    listen $dump -i lo -w loopback.pcap udp
    send $small 65534 $to_lo
    end
    gzip -9 -n -c loopback.pcap >loopback.pcap.gz
    # Within the last packet of six.
    head -c "$(($(wc -c <loopback.pcap) - 10))" loopback.pcap >cut.pcap
    listen $dump --time-stamp-precision=nano -i lo -w nanoseconds.pcap udp
    send UYVP 8 8 30000/1001 92 0 $to_lo
    end
}

# One stream by two cards, which both lose packets, and never the same.
two_cards() {
    listen $there dumpcap -q -i a1 -i b1 -w two-cards.pcapng
    relay 12 --skew 0.0005 a0,239.1.1.1,5004,2+5+6+11 b0,239.1.1.2,5006,0+3+8+10
    send UYVY 32 18 25/1 224 65530 $to_relay
    passed
    end
    gst-launch-1.0 -q videotestsrc num-buffers=2 pattern=zone-plate kx2=40 ky2=30 kt=3 ! \
        video/x-raw,format=UYVY,width=32,height=18,framerate=25/1 ! filesink location=two-cards.raw
    # Within the block of a packet.
    head -c "$(($(wc -c <two-cards.pcapng) / 2))" two-cards.pcapng >cut-block.pcapng
}

# Each card's recorder writes a file of its own, and that of B begins with the third frame. Then both in one file.
late() {
    frames=4
    listen $there $dump -i a1 -w late-a.pcap udp
    relay 12 --skew 0.0005 --hold 6 "$room/late" a0,239.1.1.1,5004,7+9 b0,239.1.1.2,5004,6+10
    send $small 0 $to_relay
    listen $there $dump --time-stamp-precision=nano -i b1 -w late-b.pcap udp
    : >"$room/late"
    passed
    end
    frames=2
    mergecap -w merged.pcapng late-a.pcap late-b.pcap || stop 'mergecap failed'
}

# Both cards have the same address and port.
alike() {
    listen $there $dump -i a1 -w alike-a.pcap udp
    listen $there $dump -i b1 -w alike-b.pcap udp
    relay 6 --skew 0.0005 a0,239.1.1.1,5004,1 b0,239.1.1.1,5004,4
    send $small 0 $to_relay
    passed
    end
}

# On all devices at once: with a header of Linux for that of a card, of either version. A cable of which both ends are here
# has each packet twice.
cooked() {
    listen $there $dump -i any -y LINUX_SLL -w cooked.pcap
    send $small 0 $to_a
    end
    listen $dump -i any -y LINUX_SLL2 -w cooked2.pcap udp port 5004
    relay 6 c0,239.1.1.1,5004,-
    send $small 0 $to_relay
    passed
    end
}

# Frames with one tag by path A, with two by path B.
tagged() {
    listen $there $dump -i a1 -w tagged.pcap
    relay 6 a0,239.1.1.1,5004,2,8100.000a a0,239.1.1.2,5006,3,88a8.0064+8100.000a
    send $small 0 $to_relay
    passed
    end
}

# By IPv6, with what the system sends by itself.
ipv6() {
    listen $there $dump -i a1 -w ipv6.pcap
    echo 0 >/proc/sys/net/ipv6/conf/a0/disable_ipv6
    ip -6 addr add fd00::1/64 dev a0 nodad
    ip -6 route add ff3e::/16 dev a0 table local
    send RGB 8 8 25/1 104 0 udpsink host=ff3e::8000:1 port=5004 multicast-iface=a0 bind-address=fd00::1
    end
    echo 1 >/proc/sys/net/ipv6/conf/a0/disable_ipv6
}

# Of each frame two packets have 122 octets, and one 100.
snapped() {
    listen $there $dump -s 100 -i a1 -w snapped.pcap udp
    send $small 0 $to_a
    end
}

# To a port at which nobody listens: ARP, the stream, faults of ICMP that quote it, and others' packets.
foreign() {
    listen $there dumpcap -q -i a1 -w foreign.pcapng
    "$here/senders.py" stray a0 192.0.2.2 5004 || stop 'nothing strayed'
    send AYUV 8 8 25/1 104 0 udpsink host=192.0.2.2 port=5004
    gst-launch-1.0 -q audiotestsrc num-buffers=1 samplesperbuffer=48 ! audio/x-raw,rate=48000,channels=2 ! \
        audioconvert ! rtpL24pay pt=97 ssrc=8 ! udpsink host=239.1.1.9 port=5006 multicast-iface=a0 >/dev/null
    end
}

# Packets above the most that the cable takes come as fragments; the last of each frame is whole.
fragments() {
    ip link set c0 mtu 100
    listen $dump -i c1 -w fragments.pcap udp
    relay 6 c0,239.1.1.1,5004,-
    send $small 0 $to_relay
    passed
    end
}

# By a device that has no link layer.
raw() {
    "$here/senders.py" tunnel t0 "$room/raw" >"$room/tunnel" &
    others="$others $!"
    until_says "$room/tunnel" ready
    ip addr add 192.0.2.17/28 dev t0
    ip link set t0 up
    listen $dump -i t0 -w raw.pcap
    send $small 0 udpsink host=192.0.2.18 port=5004
    end
    : >"$room/raw"
}

# FFmpeg, which sends a packet of RTCP to the stream's own port.
ffmpeg_sends() {
    listen $dump -i lo -w ffmpeg.pcap udp
    ffmpeg -nostdin -loglevel error -f lavfi -i testsrc2=size=16x8:rate=25 -frames:v 2 -c:v rawvideo -pix_fmt uyvy422 \
        -fflags +bitexact -f rtp -payload_type 96 -ssrc 7 -seq 0 \
        'rtp://127.0.0.1:5004?pkt_size=128&rtcpport=5004' >/dev/null || stop 'FFmpeg sent nothing'
    end
}

# What tshark says of a recording, a line for each packet; of one that was cut, of the packets before.
told() {
    # The person's own settings don't count.
    HOME=$room XDG_CONFIG_HOME=$room TZ=UTC LC_ALL=C tshark -n -r "$1" -o ip.defragment:FALSE -T fields \
        -E occurrence=f -e frame.time_epoch -e frame.cap_len -e frame.len -e frame.protocols -e ip.dst -e ipv6.dst \
        -e udp.dstport -e udp.length -e udp.payload >"${1%.pcap*}.txt" 2>"$room/tshark"
    [ -s "${1%.pcap*}.txt" ] || stop "tshark says nothing of $1: $(cat "$room/tshark")"
}

networks
for recording in loopback two_cards late alike cooked tagged ipv6 snapped foreign fragments raw ffmpeg_sends; do
    $recording
done
for recording in *.pcap *.pcapng; do
    told "$recording"
done
