# inspect with a format: what came of a stream by each path, and what is missing.

# Two pictures of four packets each by both paths, numbers from 65534 on: packet k is record 2k by A and record 2k + 1 by B,
# at that moment. Of these come, in this order: by A 0, twice, and 3 to 7; by B 0, 2, 3, 4, 7 and behind that 5. Behind them
# a datagram of payload type 97 of source 7, one of RTCP and one of five octets.
run send --out sent.cap --sdp q.sdp --first 65534 --base 900 --max 24 --paths both p.pic p.pic
says 'inspect a stream: sent' 0 'sent 8' ''
front=$((10 + $(wc -c <q.sdp)))
head -c "$front" sent.cap >lossy.cap
for record in 0 0 1 5 6 7 8 9 10 15 11 12 14; do
    tail -c +$((front + 35 * record + 1)) sent.cap | head -c 35 >>lossy.cap
done
cp lossy.cap heard.cap
octets "00 0000000000000010 001C 80610005 00000030 00000007 0000 0008 0000 0000 $u
    00 0000000000000011 0004 80C80000 01 0000000000000012 0005 0102030405" >>heard.cap
heading='  path    datagrams       lowest      highest         lost     repeated         late'
stamps='timestamps of payload type 96
       source    timestamp         by A         by B       marker        ticks skew of B in nanoseconds'
# By A 1 and 2 are lost, by B 1 and 6. The skew of the first picture isn't known: moment 0 is none.
told="stream of payload type 96 and source 1
$heading
  A               7        65534        65541            2            1            0
  B               6        65534        65541            2            0            1
  by A 2 never came, 1 came more than once, 0 came late
  by B 2 never came, 0 came more than once, 1 came late
  A alone would lose 2, B alone 2, both together 1"
times="$stamps
            1          900            3            3          yes            - -
            1         2400            4            3          yes         1500 1
skew of B in nanoseconds: least 1, middle 1, greatest 1, of 1 timestamps"
run inspect lossy.cap
says 'inspect a stream: by the text of a capture' 0 "$told
$times
window 900,2400" ''
run inspect heard.cap
says 'inspect a stream: what is refused, and RTCP' 0 "$told
stream of payload type 97 and source 7
$heading
  A               1            5            5            0            0            0
  B               0            -            -            0            0            0
  nothing came by B
  A alone would lose 0, B alone 1, both together 0
$times
refused 1 ShortHeader 1
refused 5 WrongPayloadType 1
RTCP 1
window 900,2400" ''
# The last line is what receive takes.
window=$(tail -n 1 out)
run receive --window "${window#window }" --state lossy.rcv lossy.cap
says 'inspect a stream: its window, received' 0 'delivered 13
frame 900 present 12 missing 4 contested 0
frame 2400 present 16 missing 0 contested 0' ''
run inspect --json heard.cap
says 'inspect --json: a stream' 0 '{"kind":"path","payload_type":96,"ssrc":1,"path":"A","datagrams":7,"lowest":65534,"highest":65541,"lost":2,"repeated":1,"late":0}
{"kind":"path","payload_type":96,"ssrc":1,"path":"B","datagrams":6,"lowest":65534,"highest":65541,"lost":2,"repeated":0,"late":1}
{"kind":"together","payload_type":96,"ssrc":1,"both":5,"lost_by_a":2,"lost_by_b":2,"lost_by_both":1}
{"kind":"path","payload_type":97,"ssrc":7,"path":"A","datagrams":1,"lowest":5,"highest":5,"lost":0,"repeated":0,"late":0}
{"kind":"path","payload_type":97,"ssrc":7,"path":"B","datagrams":0,"lowest":null,"highest":null,"lost":0,"repeated":0,"late":0}
{"kind":"together","payload_type":97,"ssrc":7,"both":0,"lost_by_a":0,"lost_by_b":1,"lost_by_both":0}
{"kind":"timestamp","payload_type":96,"ssrc":1,"timestamp":900,"a":3,"b":3,"marker":true,"ticks":null,"skew":null}
{"kind":"timestamp","payload_type":96,"ssrc":1,"timestamp":2400,"a":4,"b":3,"marker":true,"ticks":1500,"skew":1}
{"kind":"skew","timestamps":1,"least":1,"middle":1,"greatest":1}
{"kind":"refused","number":1,"name":"ShortHeader","datagrams":1}
{"kind":"refused","number":5,"name":"WrongPayloadType","datagrams":1}
{"kind":"rtcp","datagrams":1}
{"kind":"window","timestamps":[900,2400]}' ''
if command -v python3 >python3.path; then
    while read -r object; do
        printf '%s' "$object" | python3 -m json.tool >object.out 2>object.err ||
            fail 'inspect --json: an object of a stream for Python' "$(cat object.err): $object"
    done <out
    pass 'inspect --json: objects of a stream for Python'
fi
run inspect --format 'YCbCr-4:2:2 8 4 2 60' --pt 98 old.cap
says 'inspect a stream: none' 0 "stream of payload type 96 and source 1
$heading
  A               1            1            1            0            0            0
  B               0            -            -            0            0            0
  nothing came by B
  A alone would lose 0, B alone 1, both together 0
timestamps of payload type 98
${stamps#*
}
skew of B in nanoseconds: least -, middle -, greatest -, of 0 timestamps
refused 5 WrongPayloadType 1
no datagram of payload type 98 came" ''
run inspect --json --format 'YCbCr-4:2:2 8 4 2 60' --pt 98 old.cap
says_last=$(tail -n 1 out)
if [ "$says_last" = '{"kind":"nothing","payload_type":98}' ]; then
    pass 'inspect --json: no stream'
else
    fail 'inspect --json: no stream' "$says_last"
fi

# A recording by each card, of one address and port, in microseconds (examples/recordings/alike-a.txt, alike-b.txt). Of the
# packets 0 to 5 A lost 1 and B lost 4. Packet 0 came by B 637 microseconds after A, and packet 3 815.
run inspect --sdp "$recordings/alike.sdp" "$recordings/alike-a.pcap" "$recordings/alike-b.pcap"
says 'inspect a stream: two recordings' 0 "stream of payload type 96 and source 7
$heading
  A               5            0            5            1            0            0
  B               5            0            5            1            0            0
  by A 1 never came, 0 came more than once, 0 came late
  by B 1 never came, 0 came more than once, 0 came late
  A alone would lose 1, B alone 1, both together 0
$stamps
            7          900            2            3          yes            - 637000
            7         4500            3            2          yes         3600 815000
skew of B in nanoseconds: least 637000, middle 637000, greatest 815000, of 2 timestamps
window 900,4500" ''
# Of two cards in one recording, the sender's numbers from 65530 on with a high half of 0 (two-cards.txt): of twelve packets
# A lost 2, 5, 6 and the last, B the first, 3, 8 and 10. Packet 7 came by B 577256 nanoseconds after A.
cards=$recordings/two-cards
run inspect --sdp "$cards.sdp" "$cards.pcapng"
cp out stream.said
says 'inspect a stream: two cards' 0 "stream of payload type 96 and source 7
$heading
  A               8        65530        65540            3            0            0
  B               8        65531        65541            3            0            0
  by A 3 never came, 0 came more than once, 0 came late
  by B 3 never came, 0 came more than once, 0 came late
  A alone would lose 4, B alone 4, both together 0
$stamps
            7          900            4            4          yes            - -
            7         4500            4            4          yes         3600 577256
skew of B in nanoseconds: least 577256, middle 577256, greatest 577256, of 1 timestamps
window 900,4500" ''
# The same of its format, of the capture that import makes, and of standard input.
run inspect --format 'YCbCr-4:2:2 8 32 18 25' --a 239.1.1.1:5004 --b 5006 "$cards.pcapng"
alike 'inspect a stream: by its format' out stream.said
run import --sdp "$cards.sdp" --out stream.cap "$cards.pcapng"
run inspect --sdp "$cards.sdp" stream.cap
cp out stream.said
run inspect stream.cap
alike 'inspect a stream: imported, by its text' out stream.said
run inspect --format 'YCbCr-4:2:2 8 32 18 25' --pt 96 stream.cap
alike 'inspect a stream: imported, by its format' out stream.said
"$program" inspect - <stream.cap >out 2>err
alike 'inspect a stream: standard input, a file' out stream.said
# shellcheck disable=SC2002
cat stream.cap | "$program" inspect - >out 2>err
alike 'inspect a stream: standard input, a pipe' out stream.said
# shellcheck disable=SC2002
cat "$recordings/alike-a.pcap" | "$program" inspect --sdp "$recordings/alike.sdp" - "$recordings/alike-b.pcap" >out 2>err
status=$?
if [ "$status" = 0 ] && [ "$(tail -n 1 out)" = 'window 900,4500' ]; then
    pass 'inspect a stream: a pipe beside a file'
else
    fail 'inspect a stream: a pipe beside a file' "status $status: $(cat out err)"
fi
# A capture, whose text says the format, and a recording beside it, whose flows words say.
run inspect --a 239.1.1.1:5004 --b 5006 lossy.cap "$cards.pcapng"
says_last=$(tail -n 1 out)
if [ "$status" = 0 ] && [ "$says_last" = 'window 900,2400,4500' ] && grep -q '^stream of payload type 96 and source 7$' out; then
    pass 'inspect a stream: a capture and a recording'
else
    fail 'inspect a stream: a capture and a recording' "status $status: $(cat out err)"
fi

# What isn't whole is told as far as it goes.
head -c $((front + 35 * 4 + 20)) lossy.cap >cut.cap
run inspect cut.cap
says 'inspect a stream: a capture cut short' 1 "stream of payload type 96 and source 1
$heading
  A               2        65534        65534            0            1            0
  B               2        65534        65536            1            0            0
  by A 0 never came, 1 came more than once, 0 came late
  by B 1 never came, 0 came more than once, 0 came late
  A alone would lose 2, B alone 1, both together 1
$stamps
            1          900            2            2           no            - -
skew of B in nanoseconds: least -, middle -, greatest -, of 0 timestamps
window 900" 'st2110: capture 5 Truncated'
run inspect --sdp "$cards.sdp" "$recordings/cut-block.pcapng"
if [ "$status" = 1 ] && [ "$(cat err)" = 'st2110: recording 2 Truncated' ] && [ "$(tail -n 1 out)" = 'window 900,4500' ]; then
    pass 'inspect a stream: a recording cut short'
else
    fail 'inspect a stream: a recording cut short' "status $status: $(cat out err)"
fi

# What is told beside it: packets that were left out, and the flows of a recording that has none that was asked for.
run inspect -v --sdp "$recordings/group.sdp" "$recordings/fragments.pcap"
if [ "$status" = 0 ] && [ "$(cat err)" = '  left out 8 Fragment' ]; then
    pass 'inspect a stream: left out'
else
    fail 'inspect a stream: left out' "status $status: $(cat err)"
fi
run inspect --sdp "$recordings/foreign.sdp" "$recordings/alike-a.pcap"
cp err lacking
run inspect "$recordings/alike-a.pcap"
alike 'inspect a stream: of another flow' lacking out

# What is refused before a file is read: a format that there isn't, words that are no format, a flow, an SDP.
run inspect --format 'RGB 8 4 2 0/1' "$cards.pcapng"
says 'inspect a stream: no such format' 1 '' 'st2110: format 3 BadRate'
run inspect -v --format 'RGB 8 4 2 0/1' "$cards.pcapng"
says 'inspect a stream: where no such format is' 1 '' 'st2110: format 3 BadRate
  at --format; wanted N and D from 1 to 1000000, and N/D from 1 to 300'
run inspect --format RGB "$cards.pcapng"
misworded 'inspect a stream: words that are no format' "invalid value 'RGB' for '--format <S B W H N/D>': sampling, depth, width, height and rate, as YCbCr-4:2:2 10 1920 1080 60000/1001" -
run inspect --sdp "$cards.sdp" --a 500x4 "$cards.pcapng"
says 'inspect a stream: no flow' 1 '' 'st2110: import 2 BadFlow'
head -c 16777217 /dev/zero >huge.sdp
run inspect --sdp huge.sdp "$cards.pcapng"
says 'inspect a stream: a long SDP' 1 '' 'st2110: receive 3 SdpTooLong'
rm -f huge.sdp
# What a file lacks: a format, or flows.
run inspect old.cap
says 'inspect a stream: a capture without a text' 1 '' 'st2110: receive 4 NoSdp'
run inspect "$cards.pcapng" lossy.cap
says 'inspect a stream: a recording before a capture' 1 '' 'st2110: receive 4 NoSdp'
run inspect lossy.cap "$cards.pcapng"
says 'inspect a stream: a capture before a recording' 1 '' 'st2110: receive 4 NoSdp'
run inspect --a 5004 "$cards.pcapng"
says 'inspect a stream: flows without a format' 1 '' 'st2110: receive 4 NoSdp'
run inspect -v --format 'YCbCr-4:2:2 8 32 18 25' "$cards.pcapng"
says 'inspect a stream: a format without flows' 1 '' "st2110: receive 4 NoSdp
  at $cards.pcapng, octet 4; wanted --a or --b, for a recording"
run inspect -v old.cap
says 'inspect a stream: what a capture lacks' 1 '' 'st2110: receive 4 NoSdp
  at old.cap, octet 8; wanted an SDP in the capture, or --sdp'
# Files that aren't there, and that are none.
run inspect --sdp "$cards.sdp" no-such-file
says 'inspect a stream: no such file' 3 '' 'st2110: device'
run inspect --sdp no-such-file "$cards.pcapng"
says 'inspect a stream: no such SDP' 3 '' 'st2110: device'
run inspect lossy.cap no-such-file
if [ "$status" = 3 ] && [ "$(cat err)" = 'st2110: device' ]; then
    pass 'inspect a stream: no such file behind a capture'
else
    fail 'inspect a stream: no such file behind a capture' "status $status: $(cat err)"
fi
mkdir folder
run inspect lossy.cap folder
if [ "$status" = 3 ] && [ "$(cat err)" = 'st2110: device' ] && [ "$(tail -n 1 out)" = '' ]; then
    pass 'inspect a stream: a folder behind a capture'
else
    fail 'inspect a stream: a folder behind a capture' "status $status: $(cat out err)"
fi
"$program" inspect lossy.cap >/dev/full 2>err
status=$?
: >out
says 'inspect a stream: a full device' 3 '' 'st2110: device'
run inspect --sdp "$cards.sdp" "$cards.sdp"
says 'inspect a stream: no capture' 1 '' 'st2110: capture 3 BadName'
run inspect --sdp "$cards.sdp" "$recordings/loopback.pcap.gz"
says 'inspect a stream: packed' 1 '' 'st2110: capture 3 BadName'

# By hand: packets of a stream, each PATH MOMENT NUMBER TIMESTAMP MARKER, whose octets are 0, of source 7; with the high half of
# the number in the payload header, or 0 where HIGH is 0.
packets() {
    high=$1
    shift
    while [ $# -gt 0 ]; do
        kind=$((32864 + 128 * $5))
        printf '%s %016X 001C %04X%04X %08X 00000007 %04X 0008 0000 0000 0000000000000000 ' \
            "$1" "$2" $kind $(($3 % 65536)) "$4" $((high * ($3 / 65536)))
        shift 5
    done
}
# Three timestamps. By A 65535 and 65538 don't come, and 65536 comes twice; by B 65536 doesn't, and 65537 comes behind 65538.
# Behind them a datagram of payload type 97, one of RTCP and one of five octets. It is told the same whether or not the sender
# says the high halves of its packet numbers.
sent='00 1000 65534 900 0 01 1500 65534 900 0 01 1600 65535 900 0 00 1700 65536 900 0 00 1800 65536 900 0
    01 1900 65538 2400 0 00 2000 65537 900 1 01 2050 65537 900 1 01 3000 65539 3900 0 00 3400 65539 3900 0'
others='00 0000000000000FA0 001C 80610005 00000030 00000007 0000 0008 0000 0000 0000000000000000
    00 0000000000001004 0004 80C80000 01 0000000000001068 0005 0102030405'
for high in 1 0; do
    # shellcheck disable=SC2086
    octets "5332304341503032 $q_length $q_digits $(packets $high $sent) $others" >hand.cap
    run inspect hand.cap
    says "inspect a stream: by hand, high halves $high" 0 'stream of payload type 96 and source 7
  path    datagrams       lowest      highest         lost     repeated         late
  A               5        65534        65539            2            1            0
  B               5        65534        65539            1            0            1
  by A 2 never came, 1 came more than once, 0 came late
  by B 1 never came, 0 came more than once, 1 came late
  A alone would lose 2, B alone 1, both together 0
stream of payload type 97 and source 7
  path    datagrams       lowest      highest         lost     repeated         late
  A               1            5            5            0            0            0
  B               0            -            -            0            0            0
  nothing came by B
  A alone would lose 0, B alone 1, both together 0
timestamps of payload type 96
       source    timestamp         by A         by B       marker        ticks skew of B in nanoseconds
            7          900            4            3          yes            - 500
            7         2400            0            1           no         1500 -
            7         3900            1            1           no         1500 -400
skew of B in nanoseconds: least -400, middle -400, greatest 500, of 2 timestamps
refused 1 ShortHeader 1
refused 5 WrongPayloadType 1
RTCP 1
window 900,2400,3900' ''
    run inspect --json hand.cap
    says "inspect --json: a stream by hand, high halves $high" 0 '{"kind":"path","payload_type":96,"ssrc":7,"path":"A","datagrams":5,"lowest":65534,"highest":65539,"lost":2,"repeated":1,"late":0}
{"kind":"path","payload_type":96,"ssrc":7,"path":"B","datagrams":5,"lowest":65534,"highest":65539,"lost":1,"repeated":0,"late":1}
{"kind":"together","payload_type":96,"ssrc":7,"both":3,"lost_by_a":2,"lost_by_b":1,"lost_by_both":0}
{"kind":"path","payload_type":97,"ssrc":7,"path":"A","datagrams":1,"lowest":5,"highest":5,"lost":0,"repeated":0,"late":0}
{"kind":"path","payload_type":97,"ssrc":7,"path":"B","datagrams":0,"lowest":null,"highest":null,"lost":0,"repeated":0,"late":0}
{"kind":"together","payload_type":97,"ssrc":7,"both":0,"lost_by_a":0,"lost_by_b":1,"lost_by_both":0}
{"kind":"timestamp","payload_type":96,"ssrc":7,"timestamp":900,"a":4,"b":3,"marker":true,"ticks":null,"skew":500}
{"kind":"timestamp","payload_type":96,"ssrc":7,"timestamp":2400,"a":0,"b":1,"marker":false,"ticks":1500,"skew":null}
{"kind":"timestamp","payload_type":96,"ssrc":7,"timestamp":3900,"a":1,"b":1,"marker":false,"ticks":1500,"skew":-400}
{"kind":"skew","timestamps":2,"least":-400,"middle":-400,"greatest":500}
{"kind":"refused","number":1,"name":"ShortHeader","datagrams":1}
{"kind":"refused","number":5,"name":"WrongPayloadType","datagrams":1}
{"kind":"rtcp","datagrams":1}
{"kind":"window","timestamps":[900,2400,3900]}' ''
done
# The paths one after the other, a capture each: B's numbers are those of A, however far A has come meanwhile. By A 65534 and
# 200000 came, by B 65534; its second record is cut. Nothing is known of moments.
octets "5332304341503032 0000 $(packets 1 00 0 65534 900 0 00 0 200000 2400 0)" >by-a.cap
octets "5332304341503032 0000 $(packets 1 01 0 65534 900 0 01 0 200000 2400 0)" | head -c 79 >by-b.cap
run inspect --json --sdp q.sdp by-a.cap by-b.cap
says 'inspect --json: paths one after the other' 1 '{"kind":"path","payload_type":96,"ssrc":7,"path":"A","datagrams":2,"lowest":65534,"highest":200000,"lost":134465,"repeated":0,"late":0}
{"kind":"path","payload_type":96,"ssrc":7,"path":"B","datagrams":1,"lowest":65534,"highest":65534,"lost":0,"repeated":0,"late":0}
{"kind":"together","payload_type":96,"ssrc":7,"both":1,"lost_by_a":134465,"lost_by_b":134466,"lost_by_both":134465}
{"kind":"timestamp","payload_type":96,"ssrc":7,"timestamp":900,"a":1,"b":1,"marker":false,"ticks":null,"skew":null}
{"kind":"timestamp","payload_type":96,"ssrc":7,"timestamp":2400,"a":1,"b":0,"marker":false,"ticks":1500,"skew":null}
{"kind":"skew","timestamps":0,"least":null,"middle":null,"greatest":null}
{"kind":"window","timestamps":[900,2400]}' 'st2110: capture 5 Truncated'
run inspect by-a.cap by-b.cap
says 'inspect a stream: captures without a text' 1 '' 'st2110: receive 4 NoSdp'
# Two senders by A: source 7 leaves the high halves 0, source 8 says that its packets are 65535 and 200000.
octets "5332304341503032 $q_length $q_digits $(packets 0 00 0 65535 900 0 00 0 65536 900 0)
    $(packets 1 00 0 65535 900 0 00 0 200000 900 0 | sed 's/00000007/00000008/g')" >senders.cap
run inspect --json senders.cap
says 'inspect --json: two senders' 0 '{"kind":"path","payload_type":96,"ssrc":7,"path":"A","datagrams":2,"lowest":65535,"highest":65536,"lost":0,"repeated":0,"late":0}
{"kind":"path","payload_type":96,"ssrc":7,"path":"B","datagrams":0,"lowest":null,"highest":null,"lost":0,"repeated":0,"late":0}
{"kind":"together","payload_type":96,"ssrc":7,"both":0,"lost_by_a":0,"lost_by_b":2,"lost_by_both":0}
{"kind":"path","payload_type":96,"ssrc":8,"path":"A","datagrams":2,"lowest":65535,"highest":200000,"lost":134464,"repeated":0,"late":0}
{"kind":"path","payload_type":96,"ssrc":8,"path":"B","datagrams":0,"lowest":null,"highest":null,"lost":0,"repeated":0,"late":0}
{"kind":"together","payload_type":96,"ssrc":8,"both":0,"lost_by_a":134464,"lost_by_b":134466,"lost_by_both":134464}
{"kind":"timestamp","payload_type":96,"ssrc":7,"timestamp":900,"a":2,"b":0,"marker":false,"ticks":null,"skew":null}
{"kind":"timestamp","payload_type":96,"ssrc":8,"timestamp":900,"a":2,"b":0,"marker":false,"ticks":null,"skew":null}
{"kind":"skew","timestamps":0,"least":null,"middle":null,"greatest":null}
{"kind":"window","timestamps":[900]}' ''
# 65571 numbers from 65530 on, across two wraps of their low half, of which A lost 4, B 3, and both 65536; 131080 comes twice
# by A, and by B 131090 behind 131091. By B the lowest one is 65531, and 2 of those above it never came. Of timestamp 900, which
# more packets have than a round of 16 bits, are 65540 numbers: 3 didn't come by A, 2 not by B. Its first one is 65530, which
# didn't come by B; 131066 has the same low half, and comes by both. B comes 250 nanoseconds behind A. It wants python3, as the
# kit's rt does.
cat >rounds.py <<'END_OF_ROUNDS'
import pathlib
import struct

TEXT = pathlib.Path("q.sdp").read_bytes()
LOST = ({65535, 65536, 100000, 131071}, {65530, 65536, 131072})


def record(path, number, high):
    kind = 0x8060 | 0x80 * (number in (131069, 131100))
    stamp = 900 if number <= 131069 else 2400
    moment = 1000 * number + 250 * path
    head = struct.pack(">BQHHHII", path, moment, 28, kind, number % 65536, stamp, 7)
    return head + struct.pack(">HHHH", high * (number >> 16), 8, 0, 0) + bytes(8)


for high in (0, 1):
    records = []
    for number in range(65530, 131101):
        if number not in LOST[0]:
            records += [record(0, number, high)] * (1 + (number == 131080))
        if number not in LOST[1] and number != 131090:
            records.append(record(1, number, high))
        if number == 131091:
            records.append(record(1, 131090, high))
    front = b"S20CAP02" + struct.pack(">H", len(TEXT)) + TEXT
    pathlib.Path(f"rounds-{high}.cap").write_bytes(front + b"".join(records))
END_OF_ROUNDS
if command -v python3 >python3.path && python3 rounds.py 2>rounds.err; then
    for high in 0 1; do
        run inspect --json rounds-$high.cap
        says "inspect --json: two rounds of packet numbers, high halves $high" 0 '{"kind":"path","payload_type":96,"ssrc":7,"path":"A","datagrams":65568,"lowest":65530,"highest":131100,"lost":4,"repeated":1,"late":0}
{"kind":"path","payload_type":96,"ssrc":7,"path":"B","datagrams":65568,"lowest":65531,"highest":131100,"lost":2,"repeated":0,"late":1}
{"kind":"together","payload_type":96,"ssrc":7,"both":65565,"lost_by_a":4,"lost_by_b":3,"lost_by_both":1}
{"kind":"timestamp","payload_type":96,"ssrc":7,"timestamp":900,"a":65537,"b":65538,"marker":true,"ticks":null,"skew":null}
{"kind":"timestamp","payload_type":96,"ssrc":7,"timestamp":2400,"a":31,"b":30,"marker":true,"ticks":1500,"skew":250}
{"kind":"skew","timestamps":1,"least":250,"middle":250,"greatest":250}
{"kind":"window","timestamps":[900,2400]}' ''
    done
    rm -f rounds-0.cap rounds-1.cap
else
    fail 'inspect --json: two rounds of packet numbers' "python3: $(cat rounds.err 2>&1)"
fi
# Recordings by their flows: three datagrams that are too short for a header, among a packet of TCP and a datagram of another
# flow; and a second one that is cut within its first packet.
octets 'A1B2C3D4 0002 0004 00000000 00000000 00040000 00000065
    0000000000000005 0000001F 0000001F 4500001F 00004000 40110000 C0000201 C0000202 138C138E 000B0000 070809
    0000000000000005 00000014 00000014 45000014 00004000 40060000 C0000201 C0000202
    0000000000000006 0000001D 0000001D 4500001D 00004000 40110000 C0000201 C0000202 138C138C 00090000 06
    0000000100000007 0000001C 0000001C 4500001C 00004000 40110000 C0000201 C0000202 138C1390 00080000
    0000000100000007 0000001E 0000001E 4500001E 00004000 40110000 C0000201 C0000202 138C138E 000A0000 0405' >short.pcap
head -c 70 short.pcap >cut.pcap
short='{"kind":"skew","timestamps":0,"least":null,"middle":null,"greatest":null}
{"kind":"refused","number":1,"name":"ShortHeader","datagrams":3}
{"kind":"nothing","payload_type":96}'
run inspect --json --sdp q.sdp --a 5004 --b 5006 short.pcap
untold
says 'inspect --json: a recording of no stream' 0 "$short" ''
run inspect --json --sdp q.sdp --a 5004 --b 5006 short.pcap cut.pcap
untold
says 'inspect --json: a second recording cut short' 1 "$short" 'st2110: recording 2 Truncated'
