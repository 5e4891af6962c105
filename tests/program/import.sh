# import: recordings of real senders by real recorders, as examples/recordings/README.md tells them. Wanted is what tshark
# says of each (NAME.txt) and what follows from how the streams were made. RECORDINGS names another folder of them.

# wanted SDP A B TEXT..: `want.cap` is the capture of the datagrams in tshark's texts that go to A or B, each ADDRESS,PORT,
# or -, or FILE where the first text is of A and the second of B; those of several texts joined by time. `left` is how many
# packets are none of these, `counts` what import says then. A datagram's octets are as many as UDP says, and it is neither
# quoted by ICMP nor cut short.
wanted() {
    text=$1
    a=$2
    b=$3
    shift 3
    number=0
    for name; do
        number=$((number + 1))
        told=$recordings/$name.txt
        [ -e "$told" ] || told=$name.txt
        awk -v number="$number" '{ print number "\t" $0 }' "$told"
    done >said.lines
    [ $# = 1 ] || LC_ALL=C sort -s -t "$(printf '\t')" -k 2,2 -o said.lines said.lines
    awk -F '\t' -v a="$a" -v b="$b" '
        # A decimal number as hexadecimal digits.
        function digits(number, width,    out, place, rest, next_number) {
            for (out = ""; width > 0; width--) {
                next_number = ""
                rest = 0
                for (place = 1; place <= length(number); place++) {
                    rest = 10 * rest + substr(number, place, 1)
                    next_number = next_number int(rest / 16)
                    rest %= 16
                }
                out = substr("0123456789ABCDEF", rest + 1, 1) out
                number = next_number
            }
            return out
        }
        {
            to = ($6 == "" ? $7 : $6) "," $8
            path = ""
            if ($5 !~ /:icmp/ && $9 != "" && length($10) == 2 * ($9 - 8))
                path = to == a || a == "FILE" && $1 == 1 ? "A" : to == b || b == "FILE" && $1 == 2 ? "B" : ""
            if (path == "") {
                left++
                next
            }
            sub(/[.]/, "", $2)
            count[path]++
            print (path == "A" ? "00" : "01") digits($2, 16) digits($9 - 8, 4) $10 >"said.records"
        }
        BEGIN { printf "" >"said.records" }
        END { printf "recorded A %d B %d left out %d\n", count["A"], count["B"], left }
    ' said.lines >said.counts
    counts=$(cat said.counts)
    {
        octets "5332304341503032$(printf %04X "$(wc -c <"$recordings/$text.sdp")")"
        cat "$recordings/$text.sdp"
        octets "$(cat said.records)"
    } >want.cap
}

# comes A B SDP TO_A TO_B RECORDING..: whether import makes of recordings just the capture that tshark's texts of them
# come to, with so many records by A and by B; `options` stand before them.
options=
comes() {
    by_a=$1
    by_b=$2
    sdp=$3
    to_a=$4
    to_b=$5
    shift 5
    texts=
    files=
    for recording; do
        texts="$texts ${recording%%.*}"
        files="$files $recordings/$recording"
    done
    # shellcheck disable=SC2086
    wanted "$sdp" "$to_a" "$to_b" $texts
    said="import: $options $*"
    case $counts in
        "recorded A $by_a B $by_b left out "*) pass "$said: tshark's text" ;;
        *) fail "$said: tshark's text" "it comes to '$counts' in place of A $by_a, B $by_b" ;;
    esac
    # shellcheck disable=SC2086
    run import --sdp "$recordings/$sdp.sdp" $options --out recorded.cap $files
    says "$said" 0 "$counts" ''
    alike "$said: the capture" recorded.cap want.cap
}

# gives NAME WINDOW LINES: whether receive prints this of the last capture; and of the recordings themselves, the last ones
# that import read, of which it writes the same receiver. Where `files` is empty it is given none.
files=
gives() {
    run receive --window "$2" --state recorded.rcv --refusals recorded.cap
    untold
    says "received: $1" 0 "$3" ''
    [ -n "$files" ] || return 0
    # shellcheck disable=SC2086
    run receive --sdp "$recordings/$sdp.sdp" $options --window "$2" --state direct.rcv --refusals $files
    untold
    says "received without import: $1" 0 "$3" ''
    alike "received without import: $1: the receiver" direct.rcv recorded.rcv
}

# What a picture of 8 by 8 comes to, of two components for a pixel and of three.
two_values='frame 900 present 128 missing 0 contested 0
frame 4500 present 128 missing 0 contested 0'
three_values='frame 900 present 192 missing 0 contested 0
frame 4500 present 192 missing 0 contested 0'

# Pcap in microseconds and in nanoseconds. A frame at 30000/1001 has 3003 ticks, and GStreamer sends 3002.
comes 6 0 loopback 127.0.0.1,5004 - loopback.pcap
gives 'microseconds' 900,4500 "delivered 6
$two_values"
comes 6 0 nanoseconds 127.0.0.1,5004 - nanoseconds.pcap
gives 'nanoseconds' 900,3902 'delivered 6
frame 900 present 128 missing 0 contested 0
frame 3902 present 128 missing 0 contested 0'

# Pcapng of two cards, in which each one's packets stand in runs. Each path lacks four packets of twelve, of 192 samples,
# and never the same: the frames are whole, and GStreamer's own.
cards='frame 900 present 1152 missing 0 contested 0
frame 4500 present 1152 missing 0 contested 0'
comes 8 8 two-cards 239.1.1.1,5004 239.1.1.2,5006 two-cards.pcapng
gives 'two cards' 900,4500 "delivered 16
$cards"
picture() {
    od -An -v -tx1 "$recordings/two-cards.raw" | tr -d ' \n' | cut -c "$1" | sed 's/......../01&/g'
}
holds "received: two cards: GStreamer's pictures" recorded.rcv "5332305243563031 0008002000120000001900000001 60 00 00000000
    02 00000384 $(picture 1-2304) 00001194 $(picture 2305-4608)"
options='--a 239.1.1.1:5004'
comes 8 0 two-cards 239.1.1.1,5004 - two-cards.pcapng
gives 'path A alone' 900,4500 'delivered 8
frame 900 present 768 missing 384 contested 0
frame 4500 present 768 missing 384 contested 0'
options='--b 5006'
comes 0 8 two-cards - 239.1.1.2,5006 two-cards.pcapng
gives 'path B alone' 900,4500 'delivered 8
frame 900 present 768 missing 384 contested 0
frame 4500 present 768 missing 384 contested 0'
options='--b 239.1.1.1:5004 --a 239.1.1.2:5006'
comes 8 8 two-cards 239.1.1.2,5006 239.1.1.1,5004 two-cards.pcapng
gives 'the paths exchanged' 900,4500 "delivered 16
$cards"
options='--a a1@5004 --b b1@239.1.1.2:5006'
comes 8 8 two-cards 239.1.1.1,5004 239.1.1.2,5006 two-cards.pcapng
gives 'two cards by their interfaces' 900,4500 "delivered 16
$cards"
options='--a b1@239.1.1.1:5004 --b 5006'
comes 0 8 two-cards - 239.1.1.2,5006 two-cards.pcapng
options=

# The same where path B goes to A's group and port: the interfaces alone tell the paths.
octets "$(od -An -v -tx1 "$recordings/two-cards.pcapng" | tr -d ' \n' | sed 's/ef010102\(....\)138e/ef010101\1138c/g')" \
    >one-place.pcapng
run import --sdp "$recordings/two-cards.sdp" --out want.cap "$recordings/two-cards.pcapng"
for words in '--a a1@239.1.1.1:5004 --b b1@239.1.1.1:5004' '--a a1@5004 --b 5004'; do
    # shellcheck disable=SC2086
    run import --sdp "$recordings/two-cards.sdp" $words --out named.cap one-place.pcapng
    says "import: one group and port: $words" 0 'recorded A 8 B 8 left out 0' ''
    alike "import: one group and port: $words: the capture" named.cap want.cap
    # shellcheck disable=SC2086
    run receive --sdp "$recordings/two-cards.sdp" $words --window 900,4500 --state named.rcv one-place.pcapng
    untold
    says "receive: one group and port: $words" 0 "delivered 16
$cards" ''
done
run import --sdp "$recordings/two-cards.sdp" --a 5004 --b b1@5004 --out named.cap one-place.pcapng
says 'import: one group and port: an interface of packets that A has' 0 'recorded A 16 B 0 left out 0' ''
run import --sdp "$recordings/two-cards.sdp" --a 5004 --b 5004 --out no-import.cap one-place.pcapng
says 'import: one group and port' 1 '' 'st2110: import 3 OnePlace'
run import --sdp "$recordings/two-cards.sdp" --a a1@5004 --b a1@5004 --out no-import.cap one-place.pcapng
says 'import: one interface, group and port' 1 '' 'st2110: import 3 OnePlace'

# By hand, the least significant octet first: interfaces eth0, eth1 with a zero behind, and one without a name. At each a
# datagram of one octet comes to 239.1.1.1:5004, at 5, 6 and 7 microseconds, and last at eth1 one to 239.1.1.2:5006.
section='0A0D0D0A 1C000000 4D3C2B1A 01000000 FFFFFFFF FFFFFFFF 1C000000'
named_so='01000000 1C000000 65000000 00000000 02000400 65746830 1C000000'
ended_so='01000000 20000000 65000000 00000000 02000500 65746831 00000000 20000000'
unnamed='01000000 14000000 65000000 00000000 14000000'
# at INTERFACE MOMENT PLACE OCTET: a packet at the interface of this number.
at() {
    printf '%s' "06000000 40000000 0${1}000000 00000000 0${2}000000 1D000000 1D000000
        4500001D 00004000 40110000 C0000201 $3 00090000 0$4 000000 40000000"
}
one='EF010101 138C 138C'
octets "$section $named_so $ended_so $unnamed" "$(at 0 5 "$one" 1)" "$(at 1 6 "$one" 2)" "$(at 2 7 "$one" 3)" \
    "$(at 1 8 'EF010102 138C 138E' 4)" >interfaces.pcapng
for words in '--a eth0@239.1.1.1:5004 --b eth1@239.1.1.1:5004' '--a eth0@192.0.2.1>5004 --b eth1@5004'; do
    # shellcheck disable=SC2086
    run import --sdp "$recordings/two-cards.sdp" $words --out named.cap interfaces.pcapng
    says "import: interfaces: $words" 0 'recorded A 1 B 1 left out 2' ''
    tail -c 24 named.cap >named.records
    holds "import: interfaces: $words: the records" named.records '00 0000000000001388 0001 01 01 0000000000001770 0001 02'
done
run import --sdp "$recordings/two-cards.sdp" --a eth1@239.1.1.1:5004 --b 239.1.1.1:5004 --out named.cap interfaces.pcapng
says 'import: an interface, and any' 0 'recorded A 1 B 2 left out 1' ''
tail -c 36 named.cap >named.records
holds 'import: an interface, and any: the records' named.records '01 0000000000001388 0001 01
    00 0000000000001770 0001 02 01 0000000000001B58 0001 03'

# A recording for each path, joined by time; that of B begins with the third frame. A in microseconds, B in
# nanoseconds. Then both of them merged into one, whose cards have units of time of their own.
for recording in 'late-a.pcap late-b.pcap' 'late-b.pcap late-a.pcap' merged.pcapng; do
    # shellcheck disable=SC2086
    comes 10 4 late 239.1.1.1,5004 239.1.1.2,5004 $recording
    gives "$recording" 900,4500,8100,11700 "delivered 14
$two_values
frame 8100 present 128 missing 0 contested 0
frame 11700 present 128 missing 0 contested 0"
done
comes 10 0 late 239.1.1.1,5004 239.1.1.2,5004 late-a.pcap
gives 'late-a.pcap' 8100,11700 'delivered 10
outside 6
frame 8100 present 80 missing 48 contested 0
frame 11700 present 80 missing 48 contested 0'

# Both paths have one address and port: the first recording is of A.
comes 5 5 alike FILE FILE alike-a.pcap alike-b.pcap
gives 'one address and port' 900,4500 "delivered 10
$two_values"
comes 5 5 alike FILE FILE alike-b.pcap alike-a.pcap
rm -f one-place.cap
run import --sdp "$recordings/alike.sdp" --out one-place.cap "$recordings/alike-a.pcap"
says 'import: one address and port, one recording' 1 '' 'st2110: import 3 OnePlace'
run import --sdp "$recordings/alike.sdp" --out one-place.cap "$recordings/alike-a.pcap" "$recordings/alike-b.pcap" \
    "$recordings/alike-a.pcap"
says 'import: one address and port, three recordings' 1 '' 'st2110: import 3 OnePlace'
none 'import: one address and port, no capture' one-place.cap

# A capture beside a recording, in either order and of standard input: the same records as of both recordings, of which the
# capture's have no packets left out. Its text is passed over.
run import --sdp "$recordings/loopback.sdp" --a 239.1.1.1:5004 --b 239.1.1.2:5004 --out late-a.cap "$recordings/late-a.pcap"
says 'import: a capture to be joined' 0 "$(cat out)" ''
wanted late 239.1.1.1,5004 239.1.1.2,5004 late-b
left=${counts##* }
# joined COMMAND..: whether import says the counts of late-a.cap and late-b.pcap and makes of them what both recordings come to.
joined() {
    says "import: $1" 0 "recorded A 10 B 4 left out $left" ''
    alike "import: $1: the capture" recorded.cap want.cap
}
wanted late 239.1.1.1,5004 239.1.1.2,5004 late-a late-b
run import --sdp "$recordings/late.sdp" --out recorded.cap late-a.cap "$recordings/late-b.pcap"
joined 'a capture and a recording'
"$program" import --sdp "$recordings/late.sdp" --out recorded.cap - "$recordings/late-b.pcap" <late-a.cap >out 2>err
status=$?
joined 'a capture of standard input and a recording'
wanted late 239.1.1.1,5004 239.1.1.2,5004 late-b late-a
run import --sdp "$recordings/late.sdp" --out recorded.cap "$recordings/late-b.pcap" late-a.cap
joined 'a recording and a capture'
# Captures need no flows of their own: three of them, where both paths have one address and port; and none has a record.
run import --sdp "$recordings/alike.sdp" --out recorded.cap late-a.cap late-a.cap late-a.cap
says 'import: three captures' 0 'recorded A 30 B 0 left out 0' ''
octets '5332304341503032 0000' >empty.cap
run import --sdp "$recordings/alike.sdp" --out recorded.cap empty.cap empty.cap empty.cap
says 'import: captures without a record' 0 'recorded A 0 B 0 left out 0' ''
# Where a capture's last record isn't whole, all records before it are recorded.
head -c $(($(wc -c <late-a.cap) - 1)) late-a.cap >cut.cap
run import --sdp "$recordings/late.sdp" --out recorded.cap cut.cap
says 'import: a capture cut short' 1 '' 'st2110: capture 5 Truncated'
mv -f recorded.cap.partial part.cap
run import --sdp "$recordings/late.sdp" --out recorded.cap late-a.cap
head -c "$(wc -c <part.cap)" recorded.cap >front.cap
alike 'import: a capture cut short: the capture' part.cap front.cap
[ "$(wc -c <part.cap)" -gt "$(($(wc -c <recorded.cap) - 100))" ] || fail 'import: a capture cut short' 'too little is recorded'

# Of all devices at once, with both headers of Linux; in the second each packet is there twice.
comes 6 0 group 239.1.1.1,5004 - cooked.pcap
gives 'cooked' 900,4500 "delivered 6
$two_values"
comes 12 0 group 239.1.1.1,5004 - cooked2.pcap
gives 'cooked, version 2' 900,4500 "delivered 12
$two_values"

# One tag of IEEE 802.1Q by path A and two by path B.
comes 5 5 tagged 239.1.1.1,5004 239.1.1.2,5006 tagged.pcap
gives 'tags' 900,4500 "delivered 10
$two_values"

# IPv6, and a device without a link layer.
comes 6 0 ipv6 ff3e::8000:1,5004 - ipv6.pcap
gives 'IPv6' 900,4500 "delivered 6
$three_values"
options='--a [FF3E:0::8000:1]:5004'
comes 6 0 ipv6 ff3e::8000:1,5004 - ipv6.pcap
options=
comes 6 0 raw 192.0.2.18,5004 - raw.pcap
gives 'no link layer' 900,4500 "delivered 6
$two_values"

# Of each frame two packets are cut short, or come in fragments; the last, of two rows, is whole.
for recording in snapped fragments; do
    comes 2 0 group 239.1.1.1,5004 - $recording.pcap
    gives "$recording" 900,4500 'delivered 2
frame 900 present 32 missing 96 contested 0
frame 4500 present 32 missing 96 contested 0'
done

# ARP, DNS, TCP, another stream, ICMP that quotes this one; among it an empty datagram, which is a record. The connection of
# the sound is not that of the session.
comes 7 0 foreign 192.0.2.2,5004 - foreign.pcapng
gives 'others' 900,4500 "delivered 7
refused 1 ShortHeader 1
$three_values"

# FFmpeg, whose timestamps begin anywhere, and a packet of RTCP to the same port.
comes 7 0 ffmpeg 127.0.0.1,5004 - ffmpeg.pcap
began=$(awk -F '\t' '$4 !~ /rtcp/ { print "0x" substr($9, 9, 8); exit }' "$recordings/ffmpeg.txt")
gives 'FFmpeg' "$((began)),$(((began + 3600) % 4294967296))" "delivered 7
refused 5 WrongPayloadType 1
frame $((began)) present 256 missing 0 contested 0
frame $(((began + 3600) % 4294967296)) present 256 missing 0 contested 0"

# From standard input, unpacked.
wanted loopback 127.0.0.1,5004 - loopback
gzip -d -c "$recordings/loopback.pcap.gz" >unpacked.recording
"$program" import --sdp "$recordings/loopback.sdp" --out recorded.cap - <unpacked.recording >out 2>err
status=$?
says 'import: standard input' 0 "$counts" ''
alike 'import: standard input: the capture' recorded.cap want.cap

# Two recordings of blocks, one behind the other: the first interface of each section has a unit of time of its own.
cat "$recordings/foreign.pcapng" "$recordings/merged.pcapng" >sections.recording
cat "$recordings/foreign.txt" "$recordings/merged.txt" >sections.txt
wanted foreign 192.0.2.2,5004 239.1.1.1,5004 sections
run import --sdp "$recordings/foreign.sdp" --a 192.0.2.2:5004 --b 239.1.1.1:5004 --out recorded.cap sections.recording
says 'import: two sections' 0 "$counts" ''
alike 'import: two sections: the capture' recorded.cap want.cap

# Captures and recordings, one after the other, standard input among them.
comes 6 0 loopback 127.0.0.1,5004 - loopback.pcap
"$program" receive --sdp "$recordings/loopback.sdp" --window 900,4500 --state direct.rcv recorded.cap \
    "$recordings/loopback.pcap" - <unpacked.recording >out 2>err
status=$?
says 'received: captures and recordings' 0 "delivered 18
$two_values" ''

# What is refused: one that is cut short, or packed; one without flows or without an SDP; flows that don't tell the paths.
refuses_recording() {
    name=$1
    fault=$2
    shift 2
    rm -f refused.rcv
    run receive --window 900 --state refused.rcv "$@"
    says "received: $name" 1 '' "st2110: $fault"
    none "received: $name: no receiver" refused.rcv
}
refuses_recording 'cut short' 'recording 2 Truncated' --sdp "$recordings/loopback.sdp" "$recordings/cut.pcap"
refuses_recording 'a block cut short' 'recording 2 Truncated' --sdp "$recordings/two-cards.sdp" "$recordings/cut-block.pcapng"
head -c 23 "$recordings/loopback.pcap" >short.recording
refuses_recording 'a short head' 'recording 2 Truncated' --sdp "$recordings/loopback.sdp" short.recording
head -c 3 "$recordings/loopback.pcap" >short.recording
refuses_recording 'three octets' 'capture 5 Truncated' --sdp "$recordings/loopback.sdp" short.recording
refuses_recording 'packed' 'capture 3 BadName' --sdp "$recordings/loopback.sdp" "$recordings/loopback.pcap.gz"
refuses_recording 'no flows' 'receive 4 NoSdp' "$recordings/loopback.pcap"
refuses_recording 'no SDP' 'receive 4 NoSdp' --a 5004 "$recordings/loopback.pcap"
refuses_recording 'a flow that is none' 'import 2 BadFlow' --sdp "$recordings/loopback.sdp" --a 127.0.0.1 \
    "$recordings/loopback.pcap"
refuses_recording 'one place, one recording' 'import 3 OnePlace' --sdp "$recordings/alike.sdp" "$recordings/alike-a.pcap"

# Where the last packet isn't whole, what came before it is recorded.
files=
for recording in cut.pcap cut-block.pcapng; do
    case $recording in
        cut.pcap) wanted loopback 127.0.0.1,5004 - cut ;;
        *) wanted two-cards 239.1.1.1,5004 239.1.1.2,5006 cut-block ;;
    esac
    run import --sdp "$recordings/$text.sdp" --out recorded.cap "$recordings/$recording"
    says "import: $recording" 1 '' 'st2110: recording 2 Truncated'
    mv -f recorded.cap.partial recorded.cap
    alike "import: $recording: the capture" recorded.cap want.cap
    [ $recording = cut-block.pcapng ] || gives 'cut.pcap' 900,4500 'delivered 5
frame 900 present 128 missing 0 contested 0
frame 4500 present 96 missing 32 contested 0'
done

# A recording cut at each octet of its first part: where a packet or block ends it is whole, else Truncated; either way what
# came before is recorded. `bounds` has where it may end, and how many datagrams then came.
cut_at_each() {
    wanted "$2" "$3" "$4" "${1%%.*}"
    whole_to=
    came=
    cut=0
    wrong=
    front=$((10 + $(wc -c <"$recordings/$2.sdp")))
    while read -r next further; do
        # Up to the end of the next packet or block.
        while [ "$cut" -lt "$next" ]; do
            head -c "$cut" "$recordings/$1" >cut.recording
            : >recorded.cap
            run import --sdp "$recordings/$2.sdp" --out recorded.cap cut.recording
            [ ! -e recorded.cap.partial ] || mv -f recorded.cap.partial recorded.cap
            line=
            read -r line <out
            fault=
            read -r fault <err
            case "$status $line $fault" in
                "0 recorded $came left out 0 ") [ "$cut" = "$whole_to" ] || wrong="$wrong $cut: status 0;" ;;
                '1  st2110: recording 2 Truncated') [ "$cut" -ge 4 ] && [ "$cut" != "$whole_to" ] || wrong="$wrong $cut: it is whole;" ;;
                # Before the first four octets it may be a capture.
                '1  st2110: capture 5 Truncated') [ "$cut" -lt 4 ] || wrong="$wrong $cut: it is a recording;" ;;
                *) wrong="$wrong $cut: $status $line $fault;" ;;
            esac
            # Before the first datagram there may be no capture yet.
            [ -z "$whole_to" ] || cmp -s part.cap recorded.cap || { [ "$had" = 0 ] && [ ! -s recorded.cap ]; } ||
                wrong="$wrong $cut: its capture;"
            cut=$((cut + 1))
        done
        whole_to=$next
        had=${further%% *}
        came=${further#* }
        head -c "$((front + had))" want.cap >part.cap
    done <"$5"
    if [ -z "$wrong" ] && [ "$cut" -gt 500 ]; then
        pass "import: $1 cut at each of $cut octets"
    else
        fail "import: $1 cut at each of $cut octets" "$(printf '%s' "$wrong" | head -c 300)"
    fi
}
# The head has 24 octets, and each packet's 16. A record of a capture has 11 before the datagram's.
awk -F '\t' '
    BEGIN { place = 24; print place, 0, "A 0 B 0" }
    { place += 16 + $2; octets += 11 + $8 - 8; print place, octets, "A " NR " B 0" }
' "$recordings/loopback.txt" >bounds
cut_at_each loopback.pcap loopback 127.0.0.1,5004 - bounds
# A block says its length behind its type, least octet first as this recorder wrote it; packets are blocks of type 6.
place=0
number=0
: >blocks
while [ "$place" -lt 1000 ]; do
    # shellcheck disable=SC2046
    set -- $(od -An -v -tu1 -j "$place" -N 8 "$recordings/two-cards.pcapng")
    [ "$1" != 6 ] || number=$((number + 1))
    place=$((place + $5 + 256 * $6))
    echo "$place $number" >>blocks
done
awk -F '\t' '
    NR == FNR { octets[NR] = octets[NR - 1] + 11 + $8 - 8; a[NR] = a[NR - 1] + ($5 == "239.1.1.1"); next }
    { split($0, block, " "); n = block[2]; print block[1], octets[n] + 0, "A " a[n] + 0 " B " n - a[n] }
' "$recordings/two-cards.txt" blocks >bounds
[ $number -ge 1 ] || fail 'two-cards.pcapng' 'no packet is among its first octets'
cut_at_each two-cards.pcapng two-cards 239.1.1.1,5004 239.1.1.2,5006 bounds

# What is no recording. A section, an interface of Ethernet, a packet without octets; a head of pcap.
section='0A0D0D0A 0000001C 1A2B3C4D 0001 0000 FFFFFFFFFFFFFFFF 0000001C'
interface='00000001 00000014 0001 0000 00000000 00000014'
packet='00000006 00000020 00000000 00000000 00000000 00000000 00000000 00000020'
pcap_head='A1B2C3D4 0002 0004 00000000 00000000 00040000 00000001'
i=0
many=
while [ $i -lt 64 ]; do
    many="$many $interface"
    i=$((i + 1))
done
while IFS='|' read -r fault digits; do
    octets "$digits" >hand.recording
    run import --sdp "$recordings/loopback.sdp" --out no-import.cap hand.recording
    says "import: $fault: $(printf '%s' "$digits" | head -c 60)" 1 '' "st2110: $fault"
done <<END
capture 5 Truncated|
capture 5 Truncated|A1B2C3
recording 2 Truncated|$pcap_head 00000000 00000000 00000001 00000001
recording 2 Truncated|$section 00000006
capture 3 BadName|A1B2C3D5 0002 0004 00000000 00000000 00040000 00000001
recording 3 BadMagic|0A0D0D0A 0000001C 1A2B3C4E 0001 0000 FFFFFFFFFFFFFFFF 0000001C
recording 4 BadVersion|A1B2C3D4 0002 0003 00000000 00000000 00040000 00000001
recording 4 BadVersion|0A0D0D0A 0000001C 1A2B3C4D 0002 0000 FFFFFFFFFFFFFFFF 0000001C
recording 5 BadBlock|0A0D0D0A 0000001C 1A2B3C4D 0001 0000 FFFFFFFFFFFFFFFF 00000020
recording 5 BadBlock|$section 00000005 FFFFFFFC
recording 6 BadInterface|$section $packet
recording 7 TooManyInterfaces|$section $many $interface
recording 8 BadTime|$section 00000001 00000024 0001 0000 00000000 000E 0008 FFFFFFFFFFFFFFFF 0000 0000 00000024 $packet
recording 9 PacketTooLong|$pcap_head 00000000 00000000 FFFFFFFF FFFFFFFF
capture 5 Truncated|1F8B0800
capture 4 BadVersion|5332304341503033
capture 5 Truncated|5332304341503031 00
capture 6 BadField|5332304341503031 02 0000000000000000 0000
END
# The last of 64 interfaces has an empty datagram to the stream's port, at 2^32 microseconds.
octets "$section $many 00000006 0000004C 0000003F 00000001 00000000 0000002A 0000002A 000000000000 000000000000 0800
    4500001C 00004000 40110000 7F000001 7F000001 1388 138C 0008 0000 0000 0000004C" >hand.recording
run import --sdp "$recordings/loopback.sdp" --out recorded.cap hand.recording
says 'import: 64 interfaces' 0 'recorded A 1 B 0 left out 0' ''
{
    octets "5332304341503032$(printf %04X "$(wc -c <"$recordings/loopback.sdp")")"
    cat "$recordings/loopback.sdp"
    octets '00 000003E800000000 0000'
} >want.cap
alike 'import: 64 interfaces: the capture' recorded.cap want.cap
for recording in loopback.pcap.gz loopback.sdp; do
    run import --sdp "$recordings/loopback.sdp" --out no-import.cap "$recordings/$recording"
    says "import: $recording" 1 '' 'st2110: capture 3 BadName'
done

# Where nothing was recorded, import tells the flows that there are; not of standard input, which it has read.
run inspect "$recordings/two-cards.pcapng"
cp out flows.said
run import --sdp "$recordings/two-cards.sdp" --a 239.1.1.1:5006 --out none.cap "$recordings/two-cards.pcapng"
says 'import: nothing is recorded' 0 "recorded A 0 B 0 left out 16
$(cat flows.said)" '  left out 16 of another flow'
"$program" import --sdp "$recordings/two-cards.sdp" --a 239.1.1.1:5006 --out none.cap - \
    <"$recordings/two-cards.pcapng" >out 2>err
status=$?
says 'import: nothing is recorded of standard input' 0 "recorded A 0 B 0 left out 16
$read_once" '  left out 16 of another flow'
"$program" import --sdp "$recordings/two-cards.sdp" --a 239.1.1.1:5006 --out none.cap - \
    "$recordings/two-cards.pcapng" <"$recordings/loopback.pcap" >out 2>err
status=$?
says 'import: nothing is recorded of standard input and a file' 0 "recorded A 0 B 0 left out 22
$read_once
$(cat flows.said)" '  left out 22 of another flow'
run import --sdp "$recordings/two-cards.sdp" --a 239.1.1.1:5006 --out - "$recordings/two-cards.pcapng"
alike 'import: nothing is recorded to standard output: the capture' out none.cap
: >out
says 'import: nothing is recorded to standard output' 0 '' "recorded A 0 B 0 left out 16
  left out 16 of another flow
$(cat flows.said)"

# import of standard input, words that are refused, and an SDP that is.
"$program" import --sdp "$recordings/two-cards.sdp" --out piped.cap - <"$recordings/two-cards.pcapng" >out 2>err
status=$?
says 'import: standard input' 0 'recorded A 8 B 8 left out 0' ''
run import --sdp "$recordings/two-cards.sdp" --out again.cap "$recordings/two-cards.pcapng"
alike 'import: standard input, the capture' piped.cap again.cap
for words in '--a 500x4' '--b 239.1.1.256:5006' '--a 239.1.1.1' '--b 65536' '--a >5004' '--a 192.0.2.1>239.1.1.1' \
    '--b studio>5004' '--a @5004' '--b eth0@' '--a eth0@eth1@5004' '--b 192.0.2.1>eth0@5004'; do
    # shellcheck disable=SC2086
    run import --sdp "$recordings/two-cards.sdp" $words --out no-import.cap "$recordings/two-cards.pcapng"
    says "import: $words" 1 '' 'st2110: import 2 BadFlow'
done
head -c 65536 /dev/zero >long.sdp
run import --sdp long.sdp --out no-import.cap "$recordings/two-cards.pcapng"
says 'import: a long SDP' 1 '' 'st2110: import 1 SdpTooLong'
none 'import: nothing is written after a refusal' no-import.cap
