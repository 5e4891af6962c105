# merge: receivers' files as one.
run receive --state g.rcv --sdp q.sdp --window 900 old.cap
run merge --state h.rcv g.rcv g.rcv
says 'received-capture: merged with itself' 0 "$frame" ''
holds 'received-capture: merged with itself, the receiver' h.rcv "$opened 00 00000000 01 00000384 $known"
run receive --state second.rcv --sdp q.sdp --window 900 second.cap
run merge --state h.rcv g.rcv second.rcv
says merge-two-halves 0 "$whole" ''
holds 'merge-two-halves: the receiver' h.rcv "$opened 00 00000000 01 00000384 01 80108011 01 80128013 01 80148015 01 80168017"
run merge --state g.rcv g.rcv second.rcv
says 'merge-two-halves: into its own file' 0 "$whole" ''
holds 'merge-two-halves: into its own file, the receiver' g.rcv "$opened 00 00000000 01 00000384 01 80108011 01 80128013 01 80148015 01 80168017"
run receive --state g.rcv --sdp q.sdp --window 900 old.cap
octets 5332304341503031 "$record_a" "$d1" "$record_b" "80E00001000003840000000100000008000000008020801180128013" >differ.cap
run receive --state differ.rcv --sdp q.sdp --window 900 differ.cap
holds contested-state-file differ.rcv "$opened 00 00000000 01 00000384 02 0002 80008011 01 80128013 00 00"
octets 5332304341503031 "$record_a" "80E00001000003840000000100000008000000008020801180128013" "$record_b" "$d1" >otherwise.cap
run receive --state otherwise.rcv --sdp q.sdp --window 900 otherwise.cap
alike 'contested-state-file: in the other order' otherwise.rcv differ.rcv
run merge --state h.rcv g.rcv differ.rcv
says 'a contested sample stays so' 0 'frame 900 present 7 missing 8 contested 1' ''

# The round trip: what two lossy captures give each by itself and then merged is what both give one receiver.
round_trip
run receive --state lossy.rcv --window 900 lossy3.cap lossy4.cap
run receive --state lossy3.rcv --window 900 lossy3.cap
run receive --state lossy4.rcv --window 900 lossy4.cap
run merge --state merged.rcv lossy3.rcv lossy4.rcv
says 'a round trip: merged' 0 "$whole" ''
if cmp -s merged.rcv lossy.rcv; then
    pass 'a round trip: merged, the receiver'
else
    fail 'a round trip: merged, the receiver' 'it differs from that of both captures'
fi

# Receivers that were opened unlike: another window, another source.
run receive --state other.rcv --sdp q.sdp --window 901 old.cap
run merge --state no-merge.rcv g.rcv other.rcv
says 'another window' 1 '' 'st2110: merge 1 OpenedUnlike'
run receive --state other.rcv --sdp q.sdp --window 900 --ssrc 1 old.cap
run merge --state no-merge.rcv g.rcv other.rcv
says 'another source' 1 '' 'st2110: merge 1 OpenedUnlike'

# Files that are refused, and devices that fail.
state="$opened 00 00000000 01 00000384"
refuse_state() {
    octets "$2" >bad.rcv
    run merge --state no-merge.rcv bad.rcv g.rcv
    says "merge: $1, left" 1 '' "st2110: state $3"
    run merge --state no-merge.rcv g.rcv bad.rcv
    says "merge: $1, right" 1 '' "st2110: state $3"
}
refuse_state 'a cut receiver' "$state 01 80108011 01 80128013 00" '5 Truncated'
refuse_state 'an empty file' '' '5 Truncated'
refuse_state 'a picture' "5332305049433031 0008000400020000003C00000001 $u$l" '3 BadName'
refuse_state 'version 02' "5332305243563032 0008000400020000003C00000001 60 00 00000000 01 00000384 00 00 00 00" '4 BadVersion'
refuse_state 'a state of 3' "$state 03 80108011 01 80128013 00 00" '6 BadField'
refuse_state 'a timestamp twice' "$opened 00 00000000 02 00000384 00 00 00 00 00000384 00 00 00 00" '6 BadField'
refuse_state 'a mask of 0' "$state 02 0000 80008011 01 80128013 00 00" '8 MixedGroup'
refuse_state 'an octet more' "$state 00 00 00 00 00" '7 TrailingBytes'
run merge --state no-merge.rcv no-such-file g.rcv
says 'merge: no such file' 3 '' 'st2110: device'
run merge --state no-merge.rcv g.rcv .
says 'merge: a folder' 3 '' 'st2110: device'
none 'merge: nothing is written after a refusal' no-merge.rcv
run merge --state /dev/full g.rcv g.rcv
says 'merge: a full file' 3 "$frame" 'st2110: device'
run merge --state no-such-folder/h.rcv g.rcv g.rcv
says 'merge: a file that cannot be made' 3 '' 'st2110: device'
cat g.rcv | "$program" merge --state h.rcv /dev/stdin g.rcv >out 2>err
status=$?
says 'merge: a pipe' 0 "$frame" ''
run merge --state h.rcv g.rcv
misworded 'merge: one file alone' "$missing\n  <RIGHT>" 'merge --state <FILE> <LEFT> <RIGHT> [MORE]...'

# Any number of receivers: what they give two by two.
run merge --state h.rcv g.rcv second.rcv
run merge --state by-hand.rcv h.rcv differ.rcv
contested='frame 900 present 15 missing 0 contested 1'
says 'three receivers, by hand' 0 "$contested" ''
run merge --state h.rcv g.rcv second.rcv differ.rcv
says 'three receivers' 0 "$contested" ''
alike 'three receivers: the receiver' h.rcv by-hand.rcv
run merge --state h.rcv differ.rcv second.rcv g.rcv
says 'three receivers, the last first' 0 "$contested" ''
cp differ.rcv third.rcv
run merge --state third.rcv g.rcv second.rcv third.rcv
says 'three receivers: into the third' 0 "$contested" ''
alike 'three receivers: into the third, the receiver' third.rcv by-hand.rcv
joined=
lines=
window=900,901,902,903,904
for at in 900 901 902 903 904; do
    run send --sdp "$root/examples/four-by-two.sdp" --base "$at" --max 40 --out "of-$at.cap" "$root/examples/four-by-two.pic"
    run receive --window "$window" --state "of-$at.rcv" "of-$at.cap"
    if [ -z "$joined" ]; then
        cp "of-$at.rcv" by-hand.rcv
    else
        run merge --state by-hand.rcv by-hand.rcv "of-$at.rcv"
    fi
    joined="$joined of-$at.rcv"
    lines="$lines${lines:+
}frame $at present 16 missing 0 contested 0"
done
says 'five receivers, by hand' 0 "$lines" ''
# shellcheck disable=SC2086
run merge --state five.rcv $joined
says 'five receivers' 0 "$lines" ''
alike 'five receivers: the receiver' five.rcv by-hand.rcv
run receive --window "$window" --state five.rcv of-900.cap of-901.cap of-902.cap of-903.cap of-904.cap
alike 'five receivers: what their captures give one' five.rcv by-hand.rcv

# Of more than two the first that is refused is told, its file before its opening.
octets "$state 01 80108011 01 80128013 00" >cut.rcv
run merge --state no-merge.rcv g.rcv second.rcv other.rcv
says 'the third is opened unlike' 1 '' 'st2110: merge 1 OpenedUnlike'
run merge --state no-merge.rcv g.rcv second.rcv cut.rcv
says 'the third is cut' 1 '' 'st2110: state 5 Truncated'
run merge --state no-merge.rcv g.rcv second.rcv other.rcv cut.rcv
says 'the third is opened unlike, and the fourth is cut' 1 '' 'st2110: merge 1 OpenedUnlike'
run merge --state no-merge.rcv g.rcv second.rcv cut.rcv other.rcv
says 'the third is cut, and the fourth is opened unlike' 1 '' 'st2110: state 5 Truncated'
run merge --state no-merge.rcv g.rcv other.rcv g.rcv no-such-file
says 'the second is opened unlike, and the fourth is missing' 1 '' 'st2110: merge 1 OpenedUnlike'
run merge --state no-merge.rcv g.rcv second.rcv no-such-file
says 'the third is missing' 3 '' 'st2110: device'
none 'nothing is written where one of three is refused' no-merge.rcv

# Ten receivers of a large frame take about the memory of two.
sed 's/width=4; height=2/width=1920; height=1080/' q.sdp >large.sdp
large='frame 900 present 8 missing 4147192 contested 0'
run receive --state large.rcv --sdp large.sdp --window 900 old.cap
says 'a large frame' 0 "delivered 1
$large" ''
# within KIB FILE..: merges the files in so much memory.
within() {
    limit=$1
    shift
    status=$( (ulimit -v "$limit"; "$program" merge --state ten.rcv "$@" >out 2>err </dev/null; echo $?) 2>/dev/null)
}
room_of_two=4000
within "$room_of_two" large.rcv large.rcv
while [ "$status" != 0 ] && [ "$room_of_two" -lt 200000 ]; do
    room_of_two=$((room_of_two + 1000))
    within "$room_of_two" large.rcv large.rcv
done
says 'two large receivers' 0 "$large" ''
within "$((room_of_two * 5 / 4))" large.rcv large.rcv large.rcv large.rcv large.rcv large.rcv large.rcv \
    large.rcv large.rcv large.rcv
says 'ten large receivers, in the memory of two' 0 "$large" ''
within "$((room_of_two * 2 / 3))" large.rcv large.rcv
says 'two large receivers, in too little memory' 4 '' 'st2110: memory'
rm -f large.rcv ten.rcv

# The README's two captures, of which each has one of a picture's two datagrams.
run receive --window 900 --state a.rcv "$root/examples/path-a.cap"
says 'the first of two datagrams by A' 0 'delivered 1
frame 900 present 12 missing 4 contested 0' ''
run receive --window 900 --state b.rcv "$root/examples/path-b.cap"
says 'the second of two datagrams by B' 0 'delivered 1
frame 900 present 4 missing 12 contested 0' ''
run merge --state merged.rcv a.rcv b.rcv
says 'one datagram of each path' 0 "$whole" ''
holds 'one datagram of each path: the receiver' merged.rcv "$opened 00 00000000 01 00000384 01 80108011 01 80128013 01 80148015 01 80168017"

# What the README shows of these, and of the capture that has both.
run send --sdp "$root/examples/four-by-two.sdp" --base 900 --max 40 --paths both --out sent.cap "$root/examples/four-by-two.pic"
says 'the README: sent' 0 'sent 2' ''
run receive --window 900 --state sent.rcv sent.cap
says 'the README: received' 0 "delivered 4
$whole" ''
if cmp -s merged.rcv sent.rcv; then
    pass 'the README: the merged receiver is that of the capture, octet for octet'
else
    fail 'the README: the merged receiver is that of the capture, octet for octet' 'they differ'
fi
run report a.rcv
says 'the README: what the first lacks' 0 'receiver YCbCr-4:2:2 8 4 2 60/1 pt 96 ssrc any
frame 900 present 12 missing 4 contested 0
missing row 1 columns 2 to 3
end' ''
run report merged.rcv
says 'the README: the merged one lacks nothing' 0 'receiver YCbCr-4:2:2 8 4 2 60/1 pt 96 ssrc any
frame 900 present 16 missing 0 contested 0
end' ''
run process --job gain:4096 --ts 900 --fill 16,128,128 --base 900 --out gained.cap merged.rcv
says 'the README: processed' 0 'sent 1' ''

# packed-marks: a pgroup of twelve samples, of which one is contested, Y of column 1. Its bit stands in the mask, its value is 0.
marked='5332305243563031 010A000400010000003C00000001 60 00 00000000 01 00000384'
octets "$marked 01 800408020010200800408020010200" >marked.rcv
octets "$marked 01 800408020010600800408020010200" >differing.rcv
run merge --state both.rcv marked.rcv differing.rcv
says 'merge: packed-marks' 0 'frame 900 present 11 missing 0 contested 1' ''
holds 'merge: packed-marks, the file' both.rcv "$marked 02 0010 800408020000200800408020010200"
