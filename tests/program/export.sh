# export: what was imported comes back, octet for octet and to the nanosecond, by both paths or by one.
run import --sdp "$recordings/two-cards.sdp" --out again.cap "$recordings/two-cards.pcapng"
run export --a 239.1.1.1:5004 --b 239.1.1.2:5006 --out exported.pcap again.cap
says 'export: both paths' 0 'exported 16 left out 0' ''
run import --sdp "$recordings/two-cards.sdp" --out back.cap exported.pcap
says 'export, and import again' 0 'recorded A 8 B 8 left out 0' ''
alike 'export, and import again: the capture' back.cap again.cap
run sdp --write 'YCbCr-4:2:2 8 32 18 25' --a 239.1.1.1:5004 --b 239.1.1.2:5006
cp out written.sdp
run import --sdp written.sdp --out back.cap exported.pcap
says 'export, and import again by an SDP that is written' 0 'recorded A 8 B 8 left out 0' ''
run export --a 239.1.1.1:5004 --out exported.pcap again.cap
says 'export: path A alone' 0 'exported 8 left out 8' ''
# To IPv6, both paths or one of them, and from two sources to one place: what comes back is the same capture.
while read -r a b; do
    run export --a "$a" --b "$b" --out exported.pcap again.cap
    says "export: to $a and $b" 0 'exported 16 left out 0' ''
    run import --sdp "$recordings/two-cards.sdp" --a "$a" --b "$b" --out back.cap exported.pcap
    says "export to $a and $b, and import again" 0 'recorded A 8 B 8 left out 0' ''
    alike "export to $a and $b, and import again: the capture" back.cap again.cap
done <<END
[ff3e::1]:5004 [ff3e::2]:5006
239.1.1.1:5004 [2001:db8::5]:5004
[ff3e::1]:5004 239.1.1.1:5004
198.51.100.1>239.1.1.1:5004 198.51.100.2>239.1.1.1:5004
[2001:db8::a]>[ff3e::1]:5004 [2001:db8::b]>[ff3e::1]:5004
END
# Two sources to one address and port, told by the SDP alone, in its sections or in one and for the session; by --a alone; and
# by neither.
run export --a '198.51.100.1>239.1.1.1:5004' --b '198.51.100.2>239.1.1.1:5004' --out exported.pcap again.cap
filter='a=source-filter: incl IN IP4'
sed "s|^c=.*|c=IN IP4 239.1.1.1/8|; s|5006|5004|" "$recordings/two-cards.sdp" >one-place.sdp
awk -v filter="$filter" '
    { print }
    /^c=/ { print filter (++section == 1 ? " 239.1.1.1 198.51.100.1" : " * 198.51.100.2") }
' one-place.sdp >both-sections.sdp
awk -v filter="$filter" '
    /^t=/ { print filter " 239.1.1.1 198.51.100.2" }
    { print }
    /^c=/ && ++section == 1 { print filter " 239.1.1.1 198.51.100.1" }
' one-place.sdp >session.sdp
for text in both-sections session; do
    run import --sdp $text.sdp --out back.cap exported.pcap
    says "export, and import again by the sources of an SDP: $text" 0 'recorded A 8 B 8 left out 0' ''
    tail -c +$((11 + $(wc -c <$text.sdp))) back.cap >back.records
    tail -c +$((11 + $(wc -c <"$recordings/two-cards.sdp"))) again.cap >again.records
    alike "export, and import again by the sources of an SDP: $text: the records" back.records again.records
done
run import --sdp one-place.sdp --a '198.51.100.2>5004' --out back.cap exported.pcap
says 'import: one source of two' 0 'recorded A 8 B 0 left out 8' ''
run import --sdp one-place.sdp --a '198.51.100.2>5004' --b 5004 --out back.cap exported.pcap
says 'import: one source, and the rest' 0 'recorded A 8 B 8 left out 0' ''
run import --sdp one-place.sdp --out no-import.cap exported.pcap
says 'import: no source tells the paths' 1 '' 'st2110: import 3 OnePlace'
run import --sdp one-place.sdp --a '198.51.100.2>5004' --b '198.51.100.2>5004' --out no-import.cap exported.pcap
says 'import: one source of both paths' 1 '' 'st2110: import 3 OnePlace'
# The longest datagrams that a packet has room for: 65,507 octets over IPv4, and 65,527 over IPv6.
octets "5332304341503032 0000" >long.cap
for size in 65507 65508 65527 65528; do
    octets "00 0000000000000000 $(printf %04X $size)" >>long.cap
    head -c $size /dev/zero >>long.cap
done
run export --a 239.1.1.1:5004 --out exported.pcap long.cap
says 'export: the longest datagram' 0 'exported 1 left out 3' ''
run export --a '[ff3e::1]:5004' --out exported.pcap long.cap
says 'export: the longest datagram over IPv6' 0 'exported 3 left out 1' ''
for words in '--a 5004' '--a ff3e::1:5004' '--a [ff3e::1]:5004 --b 5004' '--a 239.1.1.1:5004 --b 239.1.1.2' \
    '--a [fe80::1]>239.1.1.1:5004' '--a 192.0.2.1>5004' '--a eth0@239.1.1.1:5004' '--a 239.1.1.1:5004 --b eth0@239.1.1.1:5004'; do
    # shellcheck disable=SC2086
    run export $words --out no-export.pcap again.cap
    says "export: $words" 1 '' 'st2110: export 1 BadFlow'
done
# --paced: at 25 frames a second the active time is 38,400,000 ns, so two packets of a frame lie 19,200,000 apart, and three
# 12,800,000; the frame 3,600 ticks on begins 40,000,000 on, and that 1,801 ticks on 20,011,111 on, rounded down. Times are
# seconds and nanoseconds in eight digits each.
cat >paced.sdp <<'END'
v=0
m=video 5004 RTP/AVP 96
a=rtpmap:96 raw/90000
a=fmtp:96 sampling=YCbCr-4:2:2; width=4; height=2; exactframerate=25; depth=8; colorimetry=BT709; PM=2110GPM; SSN=ST2110-20:2017
END
# paced_record PATH TIMESTAMP: a record whose moment has no meaning.
paced_record() {
    printf '%s' "$1 00000000000000FF 000C 80E00000 $2 00000001"
}
paced_front="5332304341503032 $(printf %04x "$(wc -c <paced.sdp)") $(od -An -v -tx1 paced.sdp | tr -d ' \n')"
octets "$paced_front $(paced_record 00 FFFFFF00) $(paced_record 01 FFFFFF00) $(paced_record 00 FFFFFF00)
    $(paced_record 00 00000D10) $(paced_record 01 FFFFFF00) $(paced_record 00 00000609) $(paced_record 01 FFFFFF00)
    01 0000000000000000 0002 8060" >paced.cap
# moments NAME FILE TIMES: whether a recording's packets have these times.
moments() {
    came=$(od -An -v -tx1 -w1 "$2" | tr -d ' ' | awk '
        { octet[NR - 1] = $1 }
        END {
            for (at = 24; at < NR; at += 16 + length_at) {
                line = ""
                for (i = 0; i < 8; i++) line = line octet[at + i]
                printf "%s ", line
                length_at = 0
                for (i = 8; i < 12; i++)
                    length_at = 256 * length_at + 16 * digit(substr(octet[at + i], 1, 1)) + digit(substr(octet[at + i], 2))
            }
        }
        function digit(text) { return index("0123456789abcdef", text) - 1 }')
    if [ "$came" = "$3" ]; then
        pass "$1"
    else
        fail "$1" "$came in place of $3"
    fi
}
# From 5 seconds: 0; 0; 19,200,000; 40,000,000; 12,800,000; 20,011,111; 25,600,000. The last datagram has no octets 4 to 7, so its
# timestamp is 0: 256 ticks on, 2,844,444.
run export --paced --start 5 --a 239.1.1.1:5004 --b 239.1.1.2:5004 --out paced.pcap paced.cap
says 'export --paced' 0 'exported 8 left out 0' ''
moments 'export --paced: the times' paced.pcap \
    '0000000500000000 0000000500000000 000000050124f800 0000000502625a00 0000000500c35000 0000000501315867 000000050186a000 00000005002b671c '
run inspect paced.pcap
if grep -q 'from 5.000000000 to 5.040000000,' out; then
    pass 'export --paced: what inspect tells'
else
    fail 'export --paced: what inspect tells' "$(cat out)"
fi
run export --paced --start 1.5 --a 239.1.1.1:5004 --out paced.pcap paced.cap
says 'export --paced: path A alone, from half a second on' 0 'exported 4 left out 4' ''
moments 'export --paced: its times' paced.pcap \
    '000000011dcd6500 000000011ef25d00 00000001202fbf00 000000011efebd67 '
run export --paced --a 239.1.1.1:5004 --out paced.pcap paced.cap
says 'export --paced: without a start' 0 'exported 4 left out 4' ''
moments 'export --paced: its times from 0' paced.pcap \
    '0000000000000000 000000000124f800 0000000002625a00 0000000001315867 '
run export --paced --start 4294967295.98 --a 239.1.1.1:5004 --out paced.pcap paced.cap
says 'export --paced: where pcap has no more seconds' 0 'exported 2 left out 6' ''
run export --paced --a 239.1.1.1:5004 --out no-export.pcap old.cap
says 'export --paced: a capture without a text' 1 '' 'st2110: sdp 2 NoVideo'
run export --paced --a 239.1.1 --out no-export.pcap old.cap
says 'export --paced: no flow' 1 '' 'st2110: export 1 BadFlow'
head -c -1 paced.cap >cut.cap
run export --paced --a 239.1.1.1:5004 --out no-export.pcap cut.cap
says 'export --paced: a capture that is cut' 1 '' 'st2110: capture 5 Truncated'
none 'export --paced: nothing is written after a refusal' no-export.pcap
none 'export --paced: nor a part' no-export.pcap.partial
run export --paced --a 239.1.1.1:5004 --out no-export.pcap no-such-file
says 'export --paced: no such file' 3 '' 'st2110: device'
cat paced.cap | "$program" export --paced --a 239.1.1.1:5004 --out no-export.pcap /dev/stdin >out 2>err
status=$?
says 'export --paced: a pipe' 2 '' 'error: --paced reads the capture twice, so it has to be a plain file'
cp paced.cap same.cap
run export --paced --a 239.1.1.1:5004 --out same.cap same.cap
says 'export --paced: the output is the input' 1 '' 'st2110: export 2 OutputIsInput'
alike 'export --paced: the input stays' same.cap paced.cap
run export --a 239.1.1.1:5004 --out no-export.pcap "$recordings/two-cards.pcapng"
says 'export: no capture' 1 '' 'st2110: capture 3 BadName'
none 'export: nothing is written after a refusal' no-export.pcap

# Records by hand, and the moment of each: 1700000000.123456789 seconds over IPv4, and seven nanoseconds over IPv6 to a group on
# the sender's link. The checksums of IPv4 and UDP are sums of RFC 1071: of IPv6 those of 2001, db8, 1; ff02, 1, 203, 405; b, 11;
# 138c, 138c, b; 6162 and 6300, which is 21e66, that of ones' complements 1e68, and what is sent e197.
octets "5332304341503032 0000 00 17979CFE3D85CD15 0003 616263" >abc.cap
run export --a 192.0.2.2:5006 --out abc.pcap abc.cap
says 'export: a record of IPv4' 0 'exported 1 left out 0' ''
holds 'export: a record of IPv4: the file' abc.pcap 'A1B23C4D 0002 0004 00000000 00000000 00040000 00000001
    6553F100 075BCD15 0000002D 0000002D 000000000000 000000000000 0800
    4500001F 00004000 4011B6CA C0000201 C0000202 138E138E 000B9055 616263'
octets "5332304341503032 0000 00 0000000000000007 0003 616263" >abc.cap
run export --a '[ff02::1:203:405]:5004' --out abc.pcap abc.cap
says 'export: a record of IPv6' 0 'exported 1 left out 0' ''
holds 'export: a record of IPv6: the file' abc.pcap 'A1B23C4D 0002 0004 00000000 00000000 00040000 00000001
    00000000 00000007 00000041 00000041 333302030405 000000000000 86DD
    60000000 000B1140 20010DB8000000000000000000000001 FF020000000000000000000102030405 138C138C 000BE197 616263'
# Two paths, of which A's record has two octets at 1.000000001 seconds, and B's none: a packet of 58 octets behind A's of 60.
octets '5332304341503032 0000 00 000000003B9ACA01 0002 0102 01 0000000000000000 0000' >two.cap
first_packet='A1B23C4D 0002 0004 00000000 00000000 00040000 00000001
    00000001 00000001 0000002C 0000002C 01005E010101 000000000000 0800
    4500001E 00004000 401188CB C0000201 EF010101 138C138C 000A25BC 0102'
run export --a 239.1.1.1:5004 --out two.pcap two.cap
says 'export: a record by hand' 0 'exported 1 left out 1' ''
holds 'export: a record by hand: the file' two.pcap "$first_packet"
run export --a 239.1.1.1:5004 --b 239.1.1.2:5004 --out two.pcap two.cap
says 'export: two records by hand' 0 'exported 2 left out 0' ''
[ "$(wc -c <two.pcap)" = $((24 + 60 + 58)) ] || fail 'export: two records by hand' "$(wc -c <two.pcap) octets"
head -c 84 two.pcap >front.pcap
holds 'export: two records by hand: the first' front.pcap "$first_packet"
# The Ethernet address that a frame is for, by the address of IPv4 (RFC 1112, 6.4).
while read -r address ethernet; do
    run export --a "$address:5004" --out to.pcap two.cap
    tail -c +41 to.pcap | head -c 6 >to.address
    holds "export: the frame to $address" to.address "$ethernet"
done <<'END'
239.129.2.3 01005E010203
224.127.255.254 01005E7FFFFE
223.1.2.3 000000000000
240.1.2.3 000000000000
192.0.2.2 000000000000
END
