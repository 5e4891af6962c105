# Packets and recordings that are built by hand, octet by octet: the datagram that each packet is, or why it is none; the
# first fault of a recording; and what is told of flows. RFC 791, 768, 8200 and 3550, IEEE 802.3 and 802.1Q, the registry of
# link-layer header types, and the drafts of pcap and pcapng.

# recorded LINK DIGITS: hand.recording is a file of pcap of one packet at 5 microseconds, of a link layer by its number.
recorded() {
    size=$(printf '%08X' $((${#2} / 2)))
    head="A1B2C3D4 0002 0004 00000000 00000000 00040000 $(printf '%08X' "$1")"
    octets "$head 00000000 00000005 $size $size $2" >hand.recording
}
# Rows LINK|ANSWER|DIGITS: the datagram's place and octets, or the reason. Ethernet with padding, with two tags, with a third,
# and cut within the second; cooked, of both versions, and the second cut; link layers without a header, and one that isn't
# read. Octets of the packet of IPv4 changed one after the other, so that each reason comes before those above it; and of one
# of IPv6 behind null or loop, with two headers of options.
place=0
while IFS='|' read -r link answer digits; do
    place=$((place + 1))
    recorded "$link" "$digits"
    run inspect hand.recording
    case $answer in
        *:*)
            payload=${answer#* }
            [ "$payload" != "$answer" ] || payload=
            says "packets: $place" 0 "flow ${answer%% *}
  datagrams 1, octets $((${#payload} / 2)), RTP 0
  from 0.000005000 to 0.000005000
flows 1" ''
            run import --sdp q.sdp --a 5006 --out hand.cap hand.recording
            tail -c +$((11 + $(wc -c <q.sdp))) hand.cap >hand.record
            size=$(printf '%04X' $((${#payload} / 2)))
            holds "packets: $place: its octets" hand.record "00 0000000000001388 $size $payload"
            ;;
        *) says "packets: $place" 0 "flows 0
left out 1 $answer" '' ;;
    esac
done <<'END'
1|192.0.2.2:5006 070809|00000000000000000000000008004500001f0001400040110000c0000201c0000202138c138e000b0000070809000000000000000000000000000000
1|192.0.2.2:5006 070809|00000000000000000000000088a800008100000008004500001f0001400040110000c0000201c0000202138c138e000b0000070809
1|NotIp|00000000000000000000000088a800008100000081004500001f0001400040110000c0000201c0000202138c138e000b0000070809
1|CutShort|00000000000000000000000088a80000810000
113|192.0.2.2:5006 070809|000000000000000000000000000008004500001f0001400040110000c0000201c0000202138c138e000b0000070809
276|192.0.2.2:5006 070809|08000000000000000000000000000000000000004500001f0001400040110000c0000201c0000202138c138e000b0000070809
276|CutShort|08000000000000000000000000000000000000
101|192.0.2.2:5006 070809|4500001f0001400040110000c0000201c0000202138c138e000b0000070809
228|192.0.2.2:5006 070809|4500001f0001400040110000c0000201c0000202138c138e000b0000070809
229|CutShort|4500001f0001400040110000c0000201c0000202138c138e000b0000070809
101|CutShort|4500001f0001400040110000c0000201c0000202138c138e000b00000708
101|NotIp|
147|NotIp|4500001f0001400040110000c0000201c0000202138c138e000b0000070809
101|192.0.2.2:5006|4500001f0001400040110000c0000201c0000202138c138e00080000070809
101|BadUdpLength|4500001f0001400040110000c0000201c0000202138c138e00070000070809
101|BadUdpLength|4500001f0001400040110000c0000201c0000202138c138e00000000070809
101|BadUdpLength|4500001f0001400040110000c0000201c0000202138c138e000c0000070809
101|Fragment|4500001f0001400140110000c0000201c0000202138c138e000c0000070809
101|Fragment|4500001f0001200140110000c0000201c0000202138c138e000c0000070809
101|NotUdp|4500001f0001200140060000c0000201c0000202138c138e000c0000070809
101|CutShort|450000200001200140060000c0000201c0000202138c138e000c0000070809
101|BadIpHeader|440000200001200140060000c0000201c0000202138c138e000c0000070809
101|NotIp|540000200001200140060000c0000201c0000202138c138e000c0000070809
0|[ff02::1]:5006 070809|1e000000600000000023004020010db8000000000000000000000001ff0200000000000000000000000000013c000104000000001101010c000000000000000000000000138c138e000b0000070809
0|NotIp|00000000600000000023004020010db8000000000000000000000001ff0200000000000000000000000000013c000104000000001101010c000000000000000000000000138c138e000b0000070809
0|[ff02::1]:5006 070809|0000001e600000000023004020010db8000000000000000000000001ff0200000000000000000000000000013c000104000000001101010c000000000000000000000000138c138e000b0000070809
108|[ff02::1]:5006 070809|0000001e600000000023004020010db8000000000000000000000001ff0200000000000000000000000000013c000104000000001101010c000000000000000000000000138c138e000b0000070809
108|BadIpHeader|0000001e600000000023004020010db8000000000000000000000001ff0200000000000000000000000000013c000104000000001104010c000000000000000000000000138c138e000b0000070809
108|Fragment|0000001e600000000023004020010db8000000000000000000000001ff0200000000000000000000000000012c000104000000001104010c000000000000000000000000138c138e000b0000070809
108|NotUdp|0000001e600000000023004020010db8000000000000000000000001ff0200000000000000000000000000013b000104000000001104010c000000000000000000000000138c138e000b0000070809
108|CutShort|0000001e600000000024004020010db8000000000000000000000001ff0200000000000000000000000000013b000104000000001104010c000000000000000000000000138c138e000b0000070809
108|BadIpHeader|0000001e500000000024004020010db8000000000000000000000001ff0200000000000000000000000000013b000104000000001104010c000000000000000000000000138c138e000b0000070809
END

# Blocks, least significant octet first: a section, an interface of milliseconds and one second, a block of another kind, an
# enhanced packet of it with two octets, and a simple packet with one; and a file of pcap of nanoseconds with a packet.
blocks='0a0d0d0a1c0000004d3c2b1a01000000ffffffffffffffff1c000000 010000002c000000650000000100000009000100030000000e000800
    0100000000000000000000002c000000 050000000c0000000c000000 06000000240000000000000000000000070000000200000003000000
    0809000024000000 0300000014000000050000000600000014000000'
record='a1b23c4d000200040000000000000000000400000000000100000000000000000000000900000000010203040506070809'
# with DIGITS PLACE OCTET..: the digits with other octets at some places.
with() {
    digits=$(printf '%s' "$1" | tr -d ' \n')
    shift
    while [ $# -gt 0 ]; do
        rest=$(printf '%s' "$digits" | cut -c $((2 * $1 + 3))-)
        digits=$([ "$1" = 0 ] || printf '%s' "$digits" | cut -c "1-$((2 * $1))")$2$rest
        shift 2
    done
    printf '%s' "$digits"
}
# Rows FAULT|FILE|PLACES, `-` where there is no fault. A length of four billion, one of no multiple of 4, and one that is not
# the same again; another interface, and more octets than the block has; a resolution of 10^-20 seconds, and a time before
# 1970. Of an obsolete packet block the first two octets are the interface, and the next two count lost packets.
while IFS='|' read -r fault file places; do
    case $file in
        blocks) whole_file=$blocks ;;
        *) whole_file=$record ;;
    esac
    # shellcheck disable=SC2086
    octets "$(with "$whole_file" $places)" >whole.recording
    size=$(wc -c <whole.recording)
    [ "$file" != cut ] || size=$((size - 1))
    head -c $size whole.recording >hand.recording
    run inspect hand.recording
    wanted="1 st2110: recording $fault"
    [ "$fault" != - ] || wanted='0 '
    if [ "$status $(cat err)" = "$wanted" ]; then
        pass "packets: $file with $places: $fault"
    else
        fail "packets: $file with $places: $fault" "$status $(cat out err)"
    fi
done <<'END'
-|blocks|16 00
3 BadMagic|blocks|0 00
3 BadMagic|blocks|8 00
4 BadVersion|blocks|12 02
-|blocks|14 02
5 BadBlock|blocks|79 FF
5 BadBlock|blocks|76 0D
5 BadBlock|blocks|80 10
6 BadInterface|blocks|92 01
6 BadInterface|blocks|94 01
5 BadBlock|blocks|104 05
6 BadInterface|blocks|48 14
8 BadTime|blocks|63 FF
2 Truncated|blocks|124 18
6 BadInterface|blocks|84 02 92 01
-|blocks|84 02 94 01
5 BadBlock|blocks|84 02 104 05
8 BadTime|blocks|84 02 63 FF
-|record|35 09
2 Truncated|cut|35 09
9 PacketTooLong|record|32 FF
4 BadVersion|record|5 03
3 BadMagic|record|3 00
10 Packed|record|0 1F 1 8B
3 BadMagic|record|0 1F 1 8A
END

# The front of a capture cut at each octet, behind which there is no record; and fronts that are none.
octets '5332304341503032 0003 763D30' >whole.cap
cut=0
wrong=
while [ $cut -lt 13 ]; do
    head -c $cut whole.cap >cut.cap
    run import --sdp q.sdp --out no-import.cap cut.cap
    [ "$status $(cat err)" = '1 st2110: capture 5 Truncated' ] || wrong="$wrong $cut: $status $(cat err);"
    cut=$((cut + 1))
done
run import --sdp q.sdp --out no-import.cap whole.cap
if [ -z "$wrong" ] && [ "$status $(head -n 1 out)" = '0 recorded A 0 B 0 left out 0' ]; then
    pass 'packets: the front of a capture cut at each octet'
else
    fail 'packets: the front of a capture cut at each octet' "$wrong whole: $status $(cat out err)"
fi
while IFS='|' read -r fault digits; do
    octets "$digits" >none.cap
    run import --sdp q.sdp --out no-import.cap none.cap
    says "packets: the front of a capture: $digits" 1 '' "st2110: capture $fault"
done <<'END'
5 Truncated|5332304341503031 72657374
4 BadVersion|5332304341503033 0000
3 BadName|5332305049433032 0000
3 BadName|5332304341513032 0000
END

# Packets of IPv4 from 192.0.2.1 to 239.20.0.1, and of IPv6, of a port and of data; and blocks of pcapng, most significant
# octet first, in nanoseconds: a packet of a time, of which the high and the low half are given, or of none.
four() {
    size=$((${#2} / 2))
    printf '4500%04X 00004000 40110000 C0000201 EF140001 138C%04X%04X0000%s' $((size + 28)) "$1" $((size + 8)) "$2"
}
six() {
    size=$((${#3} / 2))
    printf '60000000%04X1140 20010DB8000000000000000000000001 %s 138C%04X%04X0000%s' $((size + 8)) "$1" "$2" $((size + 8)) "$3"
}
block() {
    body=$(printf '%s' "$2" | tr -d ' \n')
    while [ $((${#body} % 8)) != 0 ]; do body=${body}00; done
    printf '%s%08X%s%08X ' "$1" $((${#body} / 2 + 12)) "$body" $((${#body} / 2 + 12))
}
timed() {
    packet=$(printf '%s' "$3" | tr -d ' \n')
    size=$(printf '%08X' $((${#packet} / 2)))
    block 00000006 "00000000 $1 $2 $size $size $packet"
}
untimed() {
    packet=$(printf '%s' "$1" | tr -d ' \n')
    block 00000003 "$(printf '%08X' $((${#packet} / 2))) $packet"
}
begin=$(block 0A0D0D0A '1A2B3C4D 0001 0000 FFFFFFFFFFFFFFFF')
section="$begin $(block 00000001 '0065 0000 00000000 0009 0001 09000000')"
# inspected NAME BLOCKS OUTPUT [WORDS]: whether inspect tells this of a file of the section and these blocks.
inspected() {
    octets "$section $2" >hand.recording
    # shellcheck disable=SC2086
    run inspect $4 hand.recording
    says "packets: $1" 0 "$3" ''
}
# An interface of milliseconds and one second more: an enhanced packet and an obsolete one at 7, and a simple one.
datagram='4500001F 00014000 40110000 C0000201 C0000202 138C138E 000B0000 070809'
octets "$begin $(block 00000001 '0065 0000 00000000 0009 0001 03000000 000E 0008 0000000000000001') $(block 00000005 '')
    $(timed 00000000 00000007 "$datagram")
    $(block 00000002 "0000 0001 00000000 00000007 0000001F 0000001F $datagram") $(untimed "$datagram")" >hand.recording
run inspect hand.recording
says 'packets: blocks in turn' 0 'flow 192.0.2.2:5006
  datagrams 3, octets 9, RTP 0
  from 1.007000000 to 1.007000000
flows 1' ''
# Three flows. Of the first the time of the second datagram is less than that of the first. RTP of payload type 96 and of 97,
# of which one has nothing behind the header, a sender's report of RTCP, which would read as RTP of payload type 72 with the
# marker (RFC 3550, 6.4.1), and a receiver's report, which has fewer octets than a header of RTP. 88 octets in a microsecond
# are 704 Mbit/s.
video=80600001000000021A2B3C4D0102030405060708
empty=80610001FFFFFF0000000007
flows="$(timed 180B6E85 31D781F4 "$(four 5004 $video)")
    $(untimed "$(six FF3E0000000000000000000000000001 5006 010203)")
    $(timed 00000000 00000001 "$(four 5006 $empty)")
    $(timed 180B6E85 31D78000 "$(four 5004 $video)")
    $(timed 180B6E85 31D783E8 "$(four 5004 $empty)")
    $(untimed "$(four 5004 80C80006000000070000000000000000000000000000000000000000)")
    $(untimed "$(four 5004 80C9000100000007)")"
inspected 'three flows' "$flows" 'flow 239.20.0.1:5004
  datagrams 5, octets 88, RTP 3, RTCP 2
  payload type 96, source 439041101: datagrams 2, timestamps 2 to 2
  payload type 97, source 7: datagrams 1, timestamps 4294967040 to 4294967040
  from 1732600000.000000000 to 1732600000.000001000, 704.00 Mbit/s
flow [ff3e::1]:5006
  datagrams 1, octets 3, RTP 0
flow 239.20.0.1:5006
  datagrams 1, octets 12, RTP 1
  payload type 97, source 7: datagrams 1, timestamps 4294967040 to 4294967040
  from 0.000000001 to 0.000000001
flows 3'
inspected 'three flows, as JSON' "$flows" '{"flow":"239.20.0.1:5004","datagrams":5,"octets":88,"rtp":3,"rtcp":2,"streams":[{"payload_type":96,"source":439041101,"datagrams":2,"first_timestamp":2,"last_timestamp":2},{"payload_type":97,"source":7,"datagrams":1,"first_timestamp":4294967040,"last_timestamp":4294967040}],"other_streams":false,"first":1732600000.000000000,"last":1732600000.000001000,"mbit_per_second":704.00}
{"flow":"[ff3e::1]:5006","datagrams":1,"octets":3,"rtp":0,"rtcp":0,"streams":[],"other_streams":false,"first":null,"last":null,"mbit_per_second":null}
{"flow":"239.20.0.1:5006","datagrams":1,"octets":12,"rtp":1,"rtcp":0,"streams":[{"payload_type":97,"source":7,"datagrams":1,"first_timestamp":4294967040,"last_timestamp":4294967040}],"other_streams":false,"first":0.000000001,"last":0.000000001,"mbit_per_second":null}
{"flows":3,"left_out":{"CutShort":0,"NotIp":0,"BadIpHeader":0,"NotUdp":0,"Fragment":0,"BadUdpLength":0}}' --json
# A recording that is cut within its last packet is told as far as it goes.
octets "$section $(untimed "$(four 5004 $video)") $(untimed "$(four 5006 $video)")" | head -c -1 >hand.recording
run inspect hand.recording
says 'packets: cut within the last packet' 1 'flow 239.20.0.1:5004
  datagrams 1, octets 20, RTP 1
  payload type 96, source 439041101: datagrams 1, timestamps 2 to 2
flows 1' 'st2110: recording 2 Truncated'
# Payload types 71 and 77 with the marker are none of RTCP; nor are other versions.
inspected 'beside RTCP' "$(untimed "$(four 5004 80C700010000000200000007)") $(untimed "$(four 5004 80CD00010000000200000007)")
    $(untimed "$(four 5004 40C800010000000200000007)")" 'flow 239.20.0.1:5004
  datagrams 3, octets 36, RTP 2
  payload type 71, source 7: datagrams 1, timestamps 2 to 2
  payload type 77, source 7: datagrams 1, timestamps 2 to 2
flows 1'
# Timestamps count across the wrap: rows of the earliest and the latest, and then all of them.
while read -r earliest latest stamps; do
    packets=
    count=0
    for stamp in $stamps; do
        packets="$packets $(untimed "$(four 5004 "80600001$(printf '%08X' "$stamp")00000007")")"
        count=$((count + 1))
    done
    inspected "timestamps $stamps" "$packets" "flow 239.20.0.1:5004
  datagrams $count, octets $((12 * count)), RTP $count
  payload type 96, source 7: datagrams $count, timestamps $earliest to $latest
flows 1"
done <<'END'
900 8100 900 4500 8100
900 8100 4500 900 8100 4500
4294967000 6904 4294967000 3304 6904
4294967000 3304 3304 4294967000
0 2147483648 0 2147483647 2147483648
END
# Sixteen streams are kept, and of others it is told that there are such.
packets=
streams=
number=1
while [ $number -le 17 ]; do
    packets="$packets $(untimed "$(four 5004 "8060000100000002$(printf '%08X' $number)")")"
    [ $number = 17 ] || streams="$streams
  payload type 96, source $number: datagrams 1, timestamps 2 to 2"
    number=$((number + 1))
done
inspected 'seventeen streams' "$packets" "flow 239.20.0.1:5004
  datagrams 17, octets 204, RTP 17$streams
  and others
flows 1"
# Addresses of IPv6 as RFC 5952 (4 to 6) writes them.
while read -r address text; do
    inspected "the address $text" "$(untimed "$(six "$address" 5004 '')")" "flow [$text]:5004
  datagrams 1, octets 0, RTP 0
flows 1"
done <<'END'
20010db8000000000001000000000001 2001:db8::1:0:0:1
20010db8000000010001000100010001 2001:db8:0:1:1:1:1:1
20010000000000010000000000000001 2001:0:0:1::1
00000000000000000000000000000000 ::
ff020000000000000000000000000000 ff02::
00000000000000000000ffffc0000280 ::ffff:192.0.2.128
fedcfedcfedcfedcfedcfedcfedcfedc fedc:fedc:fedc:fedc:fedc:fedc:fedc:fedc
END
# Sources that send to one group and port: from 192.0.2.1, .2 and .3 comes the octet 1, 2 and 3. Rows A B RECORDS, each of
# which is its path and its octet.
sent() {
    untimed "4500001D 00004000 40110000 C000020$1 EF010101 138C138C 0009 0000 0$1"
}
octets "$section $(sent 1) $(sent 2) $(sent 3)" >hand.recording
while read -r a b records; do
    digits=
    for record in $records; do
        digits="$digits 0${record%.*} 0000000000000000 0001 0${record#*.}"
    done
    run import --sdp q.sdp --a "$a" --b "$b" --out hand.cap hand.recording
    tail -c +$((11 + $(wc -c <q.sdp))) hand.cap >hand.record
    holds "packets: sources by $a and $b" hand.record "$digits"
done <<'END'
192.0.2.1>239.1.1.1:5004 192.0.2.2>239.1.1.1:5004 0.1 1.2
192.0.2.3>5004 5004 1.1 1.2 0.3
239.1.1.1:5004 192.0.2.1>239.1.1.1:5004 0.1 0.2 0.3
239.1.1.1>5004 [2001:db8::1]>5004
END
# Interfaces of one group and port: eth0 and eth1 are in import.sh, and here a name of 65 octets, which is none, not even by its
# first 64, and names beside one that there is.
name=65656565656565656565656565656565
octets "$begin $(block 00000001 "0065 0000 00000000 0002 0041 $name$name$name$name 65000000") $(block 00000001 '0065 0000 00000000
    0002 0004 65746830') $(timed 00000000 00000005 "$(four 5004 01)") $(timed 00000000 00000006 "$(four 5004 02)" |
    sed 's/^\(........\)\(........\)00000000/\1\200000001/')" >hand.recording
while read -r a b counts; do
    run import --sdp q.sdp --a "$a" --b "$b" --out hand.cap hand.recording
    if [ "$status $(head -n 1 out)" = "0 recorded $counts" ]; then
        pass "packets: interfaces by $a and $b"
    else
        fail "packets: interfaces by $a and $b" "$status $(cat out err)"
    fi
done <<'END'
eeeeeeeeeeeeeeeeeeeeeeeeeeeeeeeeeeeeeeeeeeeeeeeeeeeeeeeeeeeeeeee@5004 eth0@5004 A 0 B 1 left out 1
eth0@5004 5004 A 1 B 1 left out 0
eth@5004 eth00@5004 A 0 B 0 left out 2
END
