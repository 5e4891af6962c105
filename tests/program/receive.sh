# receive: the datagrams of captures, taken into one receiver.
run receive --state g.rcv --sdp q.sdp --window 900 old.cap
says received-capture 0 "delivered 1
$frame" ''
holds 'received-capture: the receiver' g.rcv "$opened 00 00000000 01 00000384 $known"
run receive --state own.rcv --window 900 new.cap
says 'received-capture: by its own text' 0 "delivered 1
$frame" ''
holds 'received-capture: the receiver, by its own text' own.rcv "$opened 00 00000000 01 00000384 $known"
run receive --state none.rcv --window 900 old.cap
says 'received-capture: no SDP' 1 '' 'st2110: receive 4 NoSdp'
none 'received-capture: no SDP, no receiver' none.rcv
run receive --state g.rcv --window 900 new.cap second.cap
says 'two captures' 0 "delivered 2
$whole" ''
run receive --state g.rcv --sdp q.sdp --window 900 --ssrc 1 second.cap old.cap new.cap
says 'three captures, in another order, of one source' 0 "delivered 3
$whole" ''
holds 'three captures: the receiver' g.rcv "$opened 01 00000001 01 00000384 01 80108011 01 80128013 01 80148015 01 80168017"
run receive --state g.rcv --sdp q.sdp --window 901,900 second.cap
says 'two timestamps' 0 'delivered 1
frame 901 present 0 missing 16 contested 0
frame 900 present 8 missing 8 contested 0' ''
holds 'two timestamps: the receiver' g.rcv "$opened 00 00000000 02 00000385 00 00 00 00 00000384 00 00 01 80148015 01 80168017"
run receive --state g.rcv --sdp q.sdp --window 900 --ssrc 2 old.cap
says 'another source' 0 'delivered 1
frame 900 present 0 missing 16 contested 0' '  kept 0 of 1 datagrams; refused 1 (1 WrongSource)'
octets 5332304341503031 >none.cap
run receive --state g.rcv --sdp q.sdp --window 900 none.cap
says 'a capture of no records' 0 'delivered 0
frame 900 present 0 missing 16 contested 0' '  kept 0 of 0 datagrams'

# Two values for the first luma sample.
octets 5332304341503031 "$record_a" "$d1" "$record_b" "80E00001000003840000000100000008000000008020801180128013" >differ.cap
run receive --state g.rcv --sdp q.sdp --window 900 differ.cap
says 'a contested sample' 0 'delivered 2
frame 900 present 7 missing 8 contested 1' ''
holds 'a contested sample: the receiver' g.rcv "$opened 00 00000000 01 00000384 02 0002 80008011 01 80128013 00 00"

# Refusals: one of version 1, two of a bad length, one of another timestamp, and one that is kept.
short=80E00001000003840000000100000006000000008010801180128013
other=80E00001000003850000000100000008000000008010801180128013
octets 5332304341503031 "$record_a" "40${d1#80}" "$record_a" "$short" "$record_a" "$other" "$record_a" "$d1" \
    "$record_b" "$short" "$record_b" "$d1" >bad.cap
run receive --state g.rcv --sdp q.sdp --window 900 --refusals bad.cap
says 'refusals' 0 "delivered 6
refused 2 BadVersion 1
refused 10 BadLength 2
outside 1
$frame" '  kept 2 of 6 datagrams; outside the window 1; refused 3 (2 BadLength, 1 BadVersion)'
run receive --state g.rcv --sdp q.sdp --window 900 bad.cap
says 'refusals that are not asked for' 0 "delivered 6
$frame" '  kept 2 of 6 datagrams; outside the window 1; refused 3 (2 BadLength, 1 BadVersion)'
run receive --state g.rcv --sdp q.sdp --window 900 --refusals old.cap
says 'no refusals' 0 "delivered 1
$frame" ''
i=0
octets 5332304341503031 >many.cap
octets "$record_a" "$short" >one.rec
while [ $i -lt 100 ]; do
    cat one.rec >>many.cap
    i=$((i + 1))
done
run receive --state g.rcv --sdp q.sdp --window 900 --refusals many.cap
says 'a hundred refusals, which is more than are kept' 0 'delivered 100
refused 10 BadLength 100
frame 900 present 0 missing 16 contested 0' '  kept 0 of 100 datagrams; refused 100 (100 BadLength)'

# Words that are refused before any file is read.
run receive --state g.rcv --sdp no-such-file --window - no-such-file
says 'a window of no timestamps' 1 '' 'st2110: receive 1 BadWindowText'
run receive --state g.rcv --sdp no-such-file --window 900, --ssrc x no-such-file
says 'a window that ends by a comma' 1 '' 'st2110: receive 1 BadWindowText'
run receive --state g.rcv --sdp no-such-file --window 4294967296 no-such-file
says 'a timestamp of 33 bits' 1 '' 'st2110: receive 1 BadWindowText'
run receive --state g.rcv --sdp no-such-file --window 900 --ssrc x no-such-file
says 'a source that is no number' 1 '' 'st2110: receive 2 BadSource'
run receive --state g.rcv --sdp q.sdp --window 900,900 no-such-file
says 'a timestamp twice' 1 '' 'st2110: open 3 DoubleTimestamp'
run receive --state g.rcv --sdp q.sdp --window 1,2,3,4,5,6,7,8,9,10,11,12,13,14,15,16,17 no-such-file
says 'seventeen timestamps' 1 '' 'st2110: open 2 BadWindow'

# Files that are refused, and devices that fail.
head -c 16777217 /dev/zero >huge.sdp
run receive --state g.rcv --sdp huge.sdp --window 900 old.cap
says 'an SDP of 16,777,217 octets' 1 '' 'st2110: receive 3 SdpTooLong'
rm -f huge.sdp
run receive --state g.rcv --sdp empty --window 900 old.cap
says 'receive: an empty SDP' 1 '' 'st2110: sdp 2 NoVideo'
run receive --state g.rcv --sdp no-such-file --window 900 old.cap
says 'receive: no such SDP' 3 '' 'st2110: device'
run receive --state g.rcv --sdp q.sdp --window 900 old.cap no-such-file
says 'receive: no such capture' 3 '' 'st2110: device'
run receive --state g.rcv --sdp q.sdp --window 900 .
says 'receive: a folder' 3 '' 'st2110: device'
run receive --state g.rcv --sdp q.sdp --window 900 empty
says 'receive: an empty capture' 1 '' 'st2110: capture 5 Truncated'
head -c 85 both.cap >cut.cap
run receive --state none.rcv --sdp q.sdp --window 900 cut.cap
says cut-capture 1 '' 'st2110: capture 5 Truncated'
none 'cut-capture: no receiver' none.rcv
run receive --state g.rcv --sdp q.sdp --window 900 both.cap
says 'a whole capture of both paths' 0 "delivered 2
$frame" ''
# cuts NAME CAPTURE ENDS..: a capture that is cut at any octet is Truncated, but at these, where its front or a record
# ends, and so many records are delivered.
cuts() {
    capture=$2
    cut="$1, cut at each octet"
    size=$(wc -c <"$capture")
    shift 2
    n=0
    records=0
    amiss=
    while [ $n -le "$size" ]; do
        head -c $n "$capture" >cut.cap
        run receive --state cut.rcv --sdp q.sdp --window 900 cut.cap
        if [ "$n" != "${1:-}" ]; then
            [ "$status" = 1 ] && [ ! -s out ] && [ "$(cat err)" = 'st2110: capture 5 Truncated' ] || amiss="$amiss $n"
        else
            shown=$frame
            told=
            [ $records != 0 ] || {
                shown=$blank
                told='  kept 0 of 0 datagrams'
            }
            says "$cut: $n octets" 0 "delivered $records
$shown" "$told"
            records=$((records + 1))
            shift
        fi
        n=$((n + 1))
    done
    if [ -z "$amiss" ] && [ $# = 0 ]; then
        pass "$cut"
    else
        fail "$cut" "not Truncated at$amiss"
    fi
}
cuts 'a capture of both paths' both.cap 8 47 86
octets "5332304341503032 0000 $record_a" "$d1" >one.cap
cuts 'a capture of version 02' one.cap 10 49
cuts 'a capture with a text' new.cap $((0x$q_length + 10)) $((0x$q_length + 49))
run receive --state g.rcv --sdp q.sdp --window 900 path.cap
says 'receive: a third path' 1 '' 'st2110: capture 6 BadField'
run receive --state g.rcv --sdp q.sdp --window 900 name.cap
says 'receive: another name' 1 '' 'st2110: capture 3 BadName'
cat old.cap | "$program" receive --state g.rcv --sdp q.sdp --window 900 /dev/stdin >out 2>err
status=$?
says 'receive: a pipe' 0 "delivered 1
$frame" ''
"$program" receive --state g.rcv --sdp q.sdp --window 900 old.cap >/dev/full 2>err
status=$?
: >out
says 'receive: a full output' 3 '' 'st2110: device'
run receive --state /dev/full --sdp q.sdp --window 900 old.cap
says 'receive: a full receiver file' 3 "delivered 1
$frame" 'st2110: device'
run receive --state no-such-folder/g.rcv --sdp q.sdp --window 900 old.cap
says 'receive: a receiver file that cannot be made' 3 '' 'st2110: device'
run receive --sdp q.sdp --window 900 old.cap
misworded 'receive: without --state' "$missing\n  --state <FILE>" \
    'receive --window <TS[,TS..]|all|first:N> --state <FILE> --sdp <FILE> <RECORDING>...'
