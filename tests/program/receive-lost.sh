# receive where little or nothing is kept, and where a file is at fault behind what is sound.
head='00000384 00000001 0000'
other_type="80E40001 $head 0008 0000 0000 $u"
outside="80E00001 00000385 00000001 0000 0008 0000 0000 $u"

# records DIGITS..: a capture of version 01 with these datagrams by path A.
records() {
    octets 5332304341503031
    for digits; do
        digits=$(printf '%s' "$digits" | tr -d ' ')
        octets "00 0000000000000000 $(printf '%04X' $((${#digits} / 2))) $digits"
    done
}

# lost NAME DELIVERED FRAME TOLD CAPTURE: whether receive ends well, and tells this of what came to nothing.
lost() {
    run receive --state lost.rcv --sdp q.sdp --window 900 "$5"
    says "lost: $1" 0 "delivered $2
$3" "$4"
}

records >lost.cap
lost 'no datagram' 0 "$blank" '  kept 0 of 0 datagrams' lost.cap
records "$other_type" >lost.cap
lost 'another payload type' 1 "$blank" '  kept 0 of 1 datagrams; refused 1 (1 WrongPayloadType)' lost.cap
records "$outside" "$outside" >lost.cap
lost 'another timestamp' 2 "$blank" '  kept 0 of 2 datagrams; outside the window 2' lost.cap
records "$d1" "$outside" >lost.cap
lost 'as many as are kept' 2 "$frame" '' lost.cap
records "$d1" "$outside" "$other_type" >lost.cap
lost 'more than are kept' 3 "$frame" '  kept 1 of 3 datagrams; outside the window 1; refused 1 (1 WrongPayloadType)' lost.cap
# The three refusals that came most often, of equally many the first by number.
short="80E00001 $head 0004 0002 0000 80108011"
data="80E00001 $head 0008 0000 0000 80108011801280"
records "$data" '' "$other_type" "$short" '' "$data" '' "$d1" >lost.cap
lost 'of four refusals' 8 "$frame" \
    '  kept 1 of 8 datagrams; refused 7 (3 ShortHeader, 2 ShortData, 1 WrongPayloadType)' lost.cap

# Recordings: packets that are left out, with their reasons; and where a flow is missing, those that there are.
two=$recordings/two-cards
run inspect "$two.pcapng"
cp out flows.said
run receive --state lost.rcv --sdp "$two.sdp" --a 239.1.1.1:5006 --window 900 "$two.pcapng"
says 'lost: a port that nothing is sent to' 0 "delivered 0
frame 900 present 0 missing 1152 contested 0" "  kept 0 of 0 datagrams; left out 16 packets (16 of another flow)
$(cat flows.said)"
"$program" receive --state lost.rcv --sdp "$two.sdp" --a 239.1.1.1:5006 --window 900 - <"$two.pcapng" >out 2>err
status=$?
says 'lost: a port that nothing on standard input is sent to' 0 "delivered 0
frame 900 present 0 missing 1152 contested 0" "  kept 0 of 0 datagrams; left out 16 packets (16 of another flow)
$read_once"
run import --sdp "$two.sdp" --a 239.1.1.1:5004 --out path-a.cap "$two.pcapng"
run receive --state lost.rcv --window 900,4500 path-a.cap
cp out path-a.out
run receive --state lost.rcv --sdp "$two.sdp" --a 239.1.1.1:5004 --b 239.1.1.2:5007 --window 900,4500 "$two.pcapng"
says 'lost: one of two flows' 0 "$(cat path-a.out)" "$(cat flows.said)"
# (Each of two files has one flow alone, and none is missing.)
run receive --state lost.rcv --sdp "$recordings/late.sdp" --window 900,4500 "$recordings/late-a.pcap" "$recordings/late-b.pcap"
grep '^flow' err >lost.err
: >want.err
alike 'lost: no flow is missing of a file for each' lost.err want.err
# What was left out is told where that is asked for, also where more is kept: two packets of IGMP.
for word in '' -v; do
    # shellcheck disable=SC2086
    run receive $word --state lost.rcv --sdp "$recordings/group.sdp" --window 900,4500 "$recordings/cooked.pcap"
    says "lost: less than is kept, $word" 0 'delivered 6
frame 900 present 128 missing 0 contested 0
frame 4500 present 128 missing 0 contested 0' "${word:+  left out 2 NotUdp}"
done
run receive --state - --sdp "$two.sdp" --a 239.1.1.1:5006 --window 900 "$two.pcapng"
cp err lost.err
run receive --state lost.rcv --sdp "$two.sdp" --a 239.1.1.1:5006 --window 900 "$two.pcapng"
cat out err >want.err
alike 'lost: the receiver on standard output' lost.err want.err

# sound NAME STATUS OUTPUT FAULTS SAME WORDS..: receive --sound ends so, and has written the receiver that it writes of the
# capture SAME without it.
sound() {
    name=$1
    wanted_status=$2
    wanted_out=$3
    wanted_err=$4
    same=$5
    shift 5
    run receive --state same.rcv --sdp q.sdp --window 900 "$same"
    rm -f sound.rcv
    run receive --sound --state sound.rcv --sdp q.sdp --window 900 "$@"
    says "sound: $name" "$wanted_status" "$wanted_out" "$wanted_err"
    alike "sound: $name, the receiver" sound.rcv same.rcv
    none "sound: $name, no part" sound.rcv.partial
}

octets 5332304341503031 "$record_a" "$d1" >first.cap
{
    cat first.cap
    octets "$record_b" "$l"
} | head -c 60 >cut.cap
sound 'a capture that is cut short' 1 "delivered 1
$frame" 'st2110: capture 5 Truncated' first.cap cut.cap
records "$other_type" >other.cap
{
    cat first.cap
    octets "00 0000000000000000 $(printf '%04X' 28) $(printf '%s' "$other_type" | tr -d ' ')"
} >both.cap
sound 'behind a whole one' 1 "delivered 2
$frame" 'st2110: capture 5 Truncated' both.cap other.cap cut.cap first.cap
records >empty.cap
sound 'a third path' 1 "delivered 0
$blank" 'st2110: capture 6 BadField
  kept 0 of 0 datagrams' empty.cap path.cap
sound 'no capture' 1 "delivered 1
$frame" 'st2110: capture 3 BadName' first.cap first.cap name.cap
sound 'whole captures' 0 "delivered 1
$frame" '' first.cap first.cap
rm -f sound.rcv
run receive --sound --state sound.rcv --window 900 name.cap
says 'sound: no receiver' 1 '' 'st2110: capture 3 BadName'
none 'sound: no receiver, no file' sound.rcv
run receive --sound --state sound.rcv --sdp q.sdp --window 900 first.cap no-such-file
says 'sound: a file that is not there' 3 "delivered 1
$frame" 'st2110: device'
run receive --state same.rcv --sdp q.sdp --window 900 first.cap
alike 'sound: a file that is not there, the receiver' sound.rcv same.rcv
"$program" receive --sound --state full.rcv --sdp q.sdp --window 900 cut.cap >/dev/full 2>err
status=$?
: >out
says 'sound: a full output' 3 '' 'st2110: device'
none 'sound: a full output, no receiver' full.rcv

# A recording that is cut short: what import has of it.
run import --sdp "$recordings/loopback.sdp" --out cut-import.cap "$recordings/cut.pcap"
run receive --state same.rcv --window 900,4500 cut-import.cap.partial
cp out same.out
run receive --sound --sdp "$recordings/loopback.sdp" --state sound.rcv --window 900,4500 "$recordings/cut.pcap"
says 'sound: a recording that is cut short' 1 "$(cat same.out)" 'st2110: recording 2 Truncated'
alike 'sound: a recording that is cut short, the receiver' sound.rcv same.rcv
rm -f cut-import.cap.partial

# What --verbose says of it, and of files of other kinds.
run receive -v --state v.rcv --sdp q.sdp --window 900 cut.cap
says 'sound: what to do' 1 '' 'st2110: capture 5 Truncated
  at cut.cap, octet 60; wanted more octets: the file ends before it is whole; --sound saves what came before that'
run receive -v --sound --state v.rcv --sdp q.sdp --window 900 cut.cap
says 'sound: what was done' 1 "delivered 1
$frame" 'st2110: capture 5 Truncated
  at cut.cap, octet 60; wanted more octets: the file ends before it is whole; what came before that is saved'
run receive -v --sound --state /dev/full --sdp q.sdp --window 900 cut.cap
says 'sound: what could not be saved' 3 "delivered 1
$frame" 'st2110: capture 5 Truncated
  at cut.cap, octet 60; wanted more octets: the file ends before it is whole
st2110: device
  at /dev/full; wanted to write there: No space left on device (os error 28)'

# Where the first timestamps are looked for, what comes before a fault is saved if they were found there.
for word in '' --sound; do
    # shellcheck disable=SC2086
    run receive -v $word --state none.rcv --sdp q.sdp --window all cut.cap
    says "sound: no sixteen timestamps before a fault, $word" 1 '' 'st2110: capture 5 Truncated
  at cut.cap, octet 60; wanted more octets: the file ends before it is whole'
    none "sound: no sixteen timestamps before a fault, $word, no receiver" none.rcv
done
run receive --sound --state sound.rcv --sdp q.sdp --window first:1 cut.cap
says 'sound: a timestamp before a fault' 1 "delivered 1
$frame" 'st2110: capture 5 Truncated'
run receive --state same.rcv --sdp q.sdp --window 900 first.cap
alike 'sound: a timestamp before a fault, the receiver' sound.rcv same.rcv

# Want of memory for frames: a row of 1920 pgroups of 5 octets and two more for each, and 2160 rows. The format is said by
# --sdp, or by the first capture.
run sdp --write 'YCbCr-4:2:2 10 3840 2160 60' --a 239.1.1.1:5004
cp out large.sdp
{
    octets "5332304341503032$(printf '%04X' "$(wc -c <large.sdp)")"
    cat large.sdp
} >large.cap
for words in '--sdp large.sdp' ''; do
    (
        ulimit -v 200000
        # shellcheck disable=SC2086
        "$program" receive -v $words --window 1,2,3,4,5,6,7,8,9,10,11,12,13,14,15,16 --state large.rcv large.cap \
            >out 2>err </dev/null
    )
    status=$?
    says "no memory for sixteen frames, $words" 4 '' 'st2110: memory
  at --window; wanted 464 MB of memory for 16 frames of 29030400 octets each'
done
rm -f large.cap
