# send: pictures as captures of datagrams.
sent="80E00000 00000000 00000001 0000 0008 0000 8000 0008 0001 0000 $u$l"
one="5332304341503032 0000 00 0000000000000000 002A $sent"

run send --out f.cap --max 42 p.pic
says sent-capture 0 'sent 1' ''
holds 'sent-capture: the file' f.cap "$one"
run send --out f.cap --max 42 --paths both p.pic
says 'sent-capture: both paths' 0 'sent 1' ''
holds 'sent-capture: both paths, the file' f.cap "$one 01 0000000000000001 002A $sent"
run send --out f.cap --max 42 --paths b p.pic
says 'sent-capture: path B' 0 'sent 1' ''
holds 'sent-capture: path B, the file' f.cap "5332304341503032 0000 01 0000000000000000 002A $sent"
run send --out unlike.cap --max 42 p.pic row.pic
says 'sent-capture: a picture of 4 by 1' 1 '' 'st2110: send 1 FormatsDiffer'
holds 'sent-capture: a picture of 4 by 1, what was sent' unlike.cap.partial "$one"

# Numbers and timestamps run on, and the stamp's other fields are as they were asked for.
behind="0008 0000 8000 0008 0001 0000 $u$l"
run send --out f.cap --pt 97 --first 65535 --base 900 --ssrc 7 p.pic p.pic
says 'two pictures' 0 'sent 2' ''
holds 'two pictures: the file' f.cap "5332304341503032 0000 00 0000000000000000 002A 80E1FFFF 00000384 00000007 0000 $behind \
    00 0000000000000001 002A 80E10000 00000960 00000007 0001 $behind"
run send --out f.cap --first 4294967295 --base 4294967295 p.pic p.pic
says 'numbers and timestamps begin anew' 0 'sent 2' ''
holds 'numbers and timestamps begin anew: the file' f.cap "5332304341503032 0000 00 0000000000000000 002A 80E0FFFF FFFFFFFF 00000001 FFFF $behind \
    00 0000000000000001 002A 80E00000 000005DB 00000001 0000 $behind"

# Three pictures of two packets each, 1500 ticks apart.
x=8020802180228023
y=8024802580268027
raster='0008000400020000003C00000001'
octets "5332305049433031 $raster $l$u" >swapped.pic
octets "5332305049433031 $raster $x$y" >third.pic
run send --out three.cap --max 40 --first 5 --base 900 p.pic swapped.pic third.pic
says 'three pictures' 0 'sent 6' ''
split='00000001 0000 0008 0000 8000 0004 0001 0000'
rest='00000001 0000 0004 0001 0002'
holds 'three pictures: the file' three.cap "5332304341503032 0000
    00 0000000000000000 0026 80600005 00000384 $split $u 80148015
    00 0000000000000001 0018 80E00006 00000384 $rest 80168017
    00 0000000000000002 0026 80600007 00000960 $split $l 80108011
    00 0000000000000003 0018 80E00008 00000960 $rest 80128013
    00 0000000000000004 0026 80600009 00000F3C $split $x 80248025
    00 0000000000000005 0018 80E0000A 00000F3C $rest 80268027"

# Five pictures at 60000/1001: 0, 1501, 3003, 4504 and 6006 ticks behind the first. With the third
# timestamps and numbers begin anew. One receiver has all five.
sed 's/exactframerate=60/&000\/1001/' q.sdp >five.sdp
raster='0008000400020000EA60000003E9'
set -- "$u$l" "$l$u" "$x$y" "$y$x" "$u$x"
for rows in "$@"; do
    octets "5332305049433031 $raster $rows" >"$rows.pic"
done
window=4294964296,4294965797,3,1504,3006
run send --out five.cap --sdp five.sdp --max 42 --first 4294967294 --base 4294964296 \
    "$1.pic" "$2.pic" "$3.pic" "$4.pic" "$5.pic"
says 'five pictures' 0 'sent 5' ''
both='0008 0000 8000 0008 0001 0000'
{
    octets 5332304341503032 "$(printf '%04X' "$(wc -c <five.sdp)")"
    cat five.sdp
    octets "00 0000000000000000 002A 80E0FFFE FFFFF448 00000001 FFFF $both $1
        00 0000000000000001 002A 80E0FFFF FFFFFA25 00000001 FFFF $both $2
        00 0000000000000002 002A 80E00000 00000003 00000001 0000 $both $3
        00 0000000000000003 002A 80E00001 000005E0 00000001 0000 $both $4
        00 0000000000000004 002A 80E00002 00000BBE 00000001 0000 $both $5"
} >want.cap
alike 'five pictures: the file' five.cap want.cap
run receive --window $window --state five.rcv five.cap
says 'five pictures: received' 0 'delivered 5
frame 4294964296 present 16 missing 0 contested 0
frame 4294965797 present 16 missing 0 contested 0
frame 3 present 16 missing 0 contested 0
frame 1504 present 16 missing 0 contested 0
frame 3006 present 16 missing 0 contested 0' ''
# Four pgroups of a picture, with the state of each.
pgroups() {
    printf '%s' "$1" | sed 's/.\{8\}/01&/g'
}
holds 'five pictures: the receiver' five.rcv "5332305243563031 $raster 60 00 00000000 05
    FFFFF448 $(pgroups "$1") FFFFFA25 $(pgroups "$2") 00000003 $(pgroups "$3")
    000005E0 $(pgroups "$4") 00000BBE $(pgroups "$5")"

# A round trip: the capture's text opens the receiver, and what is known of the frame is the picture.
round_trip
run receive --state trip.rcv --window 900 trip.cap
says 'a round trip: received' 0 "delivered 8
$whole" ''
holds 'a round trip: the receiver' trip.rcv "$opened 00 00000000 01 00000384 01 80108011 01 80128013 01 80148015 01 80168017"
run receive --state lossy.rcv --window 900 lossy3.cap lossy4.cap
says 'a round trip: what two captures lack' 0 "delivered 12
$whole" ''
if cmp -s lossy.rcv trip.rcv; then
    pass 'a round trip: what two captures lack, the receiver'
else
    fail 'a round trip: what two captures lack, the receiver' 'it differs'
fi
run send --out text.cap --sdp q.sdp --max 42 p.pic
says 'a capture with a text' 0 'sent 1' ''
holds 'a capture with a text: the file' text.cap "5332304341503032 $q_length $q_digits 00 0000000000000000 002A $sent"

# What is refused before a picture is read, and then nothing is written.
run send --out no-send.cap --sdp no-such-file $(words 10001)
says 'ten thousand pictures and one' 1 '' 'st2110: send 2 TooManyPictures'
run send --out no-send.cap $(words 10000)
says 'ten thousand pictures that are not there' 3 '' 'st2110: device'
head -c 65536 /dev/zero >long.sdp
run send --out no-send.cap --sdp long.sdp no-such-file
says 'send: a long SDP' 1 '' 'st2110: send 3 SdpTooLong'
head -c 65535 /dev/zero >long.sdp
run send --out no-send.cap --sdp long.sdp no-such-file
says 'send: an SDP of 65,535 octets' 1 '' 'st2110: sdp 2 NoVideo'
run send --out no-send.cap --sdp no-such-file p.pic
says 'send: no such SDP' 3 '' 'st2110: device'
run send --out no-send.cap --max 23 p.pic
says 'send: small packets' 1 '' 'st2110: plan 2 BadPacketSize'
run send --out no-send.cap --max 9001 p.pic
says 'send: large packets' 1 '' 'st2110: plan 2 BadPacketSize'

# Pictures that are refused, and devices that fail.
run send --out no-send.cap no-such-file
says 'send: no such picture' 3 '' 'st2110: device'
run send --out no-send.cap .
says 'send: a folder' 3 '' 'st2110: device'
run send --out no-send.cap empty
says 'send: an empty picture' 1 '' 'st2110: picture 5 Truncated'
head -c 37 p.pic >bad.pic
run send --out no-send.cap bad.pic
says 'send: a cut picture' 1 '' 'st2110: picture 5 Truncated'
octets "$picture 00" >bad.pic
run send --out no-send.cap bad.pic
says 'send: a picture with an octet more' 1 '' 'st2110: picture 7 TrailingBytes'
octets "5332305049433032 0008000400020000003C00000001 $u$l" >bad.pic
run send --out no-send.cap bad.pic
says 'send: a picture of version 02' 1 '' 'st2110: picture 4 BadVersion'
run send --out no-send.cap old.cap
says 'send: a capture' 1 '' 'st2110: picture 3 BadName'
octets "5332305049433031 000E000400020000003C00000001 $u$l" >bad.pic
run send --out no-send.cap bad.pic
says 'send: a depth of 14 bits' 1 '' 'st2110: picture 6 BadField'
none 'send: nothing is written after a refusal' no-send.cap
run send --out fewer.cap --max 42 p.pic no-such-file
says 'send: no such second picture' 3 '' 'st2110: device'
holds 'send: no such second picture, what was sent' fewer.cap.partial "$one"
run send --out /dev/full p.pic
says 'send: a full file' 3 'sent 1' 'st2110: device'
run send --out no-such-folder/f.cap p.pic
says 'send: a file that cannot be made' 3 '' 'st2110: device'
"$program" send --out f.cap p.pic >/dev/full 2>err
status=$?
: >out
says 'send: a full output' 3 '' 'st2110: device'
cat p.pic | "$program" send --out f.cap --max 42 /dev/stdin >out 2>err
status=$?
says 'send: a pipe' 0 'sent 1' ''
holds 'send: a pipe, the file' f.cap "$one"

# The payload type that the SDP says, 100 here (and the marker with it: E4), and what it says otherwise.
cat >typed.sdp <<'END'
v=0
m=video 5004 RTP/AVP 100
a=rtpmap:100 raw/90000
a=fmtp:100 sampling=YCbCr-4:2:2; width=4; height=2; exactframerate=60; depth=8; colorimetry=BT709; PM=2110GPM; SSN=ST2110-20:2017
END
typed=$(od -An -v -tx1 typed.sdp | tr -d ' \n')
head="5332304341503032 $(printf %04x "$(wc -c <typed.sdp)") $typed 00 0000000000000000 002A"
body="00000000 00000001 0000 0008 0000 8000 0008 0001 0000 $u$l"
run send --sdp typed.sdp --pt sdp --out f.cap p.pic
says 'send: the payload type of the SDP' 0 'sent 1' ''
holds 'send: the payload type of the SDP, the capture' f.cap "$head 80E40000 $body"
run send --verbose --sdp typed.sdp --pt sdp --out f.cap p.pic
says 'send: nothing is otherwise' 0 'sent 1' ''
run send --verbose --sdp typed.sdp --out f.cap p.pic
says 'send: another payload type than the SDP says' 0 'sent 1' \
    '  the SDP says YCbCr-4:2:2 8 4 2 60 pt 100, sent was YCbCr-4:2:2 8 4 2 60 pt 96'
holds 'send: another payload type, the capture' f.cap "$head 80E00000 $body"
sed 's/depth=8/depth=10/; s/exactframerate=60/exactframerate=30000\/1001/' typed.sdp >other.sdp
run send --verbose --sdp other.sdp --pt sdp --out f.cap p.pic
says 'send: another format than the SDP says' 0 'sent 1' \
    '  the SDP says YCbCr-4:2:2 10 4 2 30000/1001 pt 100, sent was YCbCr-4:2:2 8 4 2 60 pt 100'
run send --sdp other.sdp --out f.cap p.pic
says 'send: that is told where faults are explained' 0 'sent 1' ''
run send --verbose --sdp typed.sdp --out /dev/full p.pic
if [ "$status" = 3 ] && ! grep -q 'the SDP says' err; then
    pass 'send: nor behind a fault'
else
    fail 'send: nor behind a fault' "status $status: $(cat err)"
fi
printf 'v=0\n' >none.sdp
run send --sdp none.sdp --pt sdp --out no-send.cap no-such-file
says 'send: the payload type of a text that is no SDP' 1 '' 'st2110: sdp 2 NoVideo'
none 'send: nothing is written for such a text' no-send.cap

# A stream of pictures sends what their files do. Its planes are Y, Cb and Cr; other words of its lines say nothing.
grey='80808080 80808080'
{
    printf 'YUV4MPEG2 W4 H2 F60:1 Ip A1:1 C422 XYSCSS=422\nFRAME\n'
    octets "1011121314151617 $grey"
    printf 'FRAME Ip XNOTHING\n'
    octets "1415161710111213 $grey"
    printf 'FRAME\n'
    octets "2021222324252627 $grey"
} >three.y4m
run send --out stream.cap --max 40 --first 5 --base 900 three.y4m
says 'a stream' 0 'sent 6' ''
alike 'a stream: the file' stream.cap three.cap
"$program" send --out stream.cap --max 40 --first 5 --base 900 - <three.y4m >out 2>err
status=$?
says 'a stream on standard input' 0 'sent 6' ''
alike 'a stream on standard input: the file' stream.cap three.cap
cat three.y4m | "$program" send --out - --max 40 --first 5 --base 900 - 2>err >stream.cap
alike 'a stream in a pipe of both sides: the file' stream.cap three.cap
while read -r asked; do
    # shellcheck disable=SC2086
    run send $asked --out files.cap p.pic swapped.pic third.pic
    mv out files.out
    # shellcheck disable=SC2086
    run send $asked --out stream.cap three.y4m
    says "a stream, $asked" 0 "$(cat files.out)" ''
    alike "a stream, $asked: the file" stream.cap files.cap
done <<'END'
--sdp typed.sdp --pt sdp --paths both
--sdp other.sdp --pt 97 --ssrc 4294967295 --paths b
--max 24 --first 4294967295 --base 4294967295
END
run send --verbose --sdp other.sdp --pt sdp --out stream.cap three.y4m
says 'a stream of another format than the SDP says' 0 'sent 3' \
    '  the SDP says YCbCr-4:2:2 10 4 2 30000/1001 pt 100, sent was YCbCr-4:2:2 8 4 2 60 pt 100'
# Of 10 bits a stream has two octets for a sample, the low one first: Cb 155, Y 040, Cr 2AA, Y 3AC.
octets '5332305049433031 000A000200010000EA60000003E9 55440AABAC' >ten.pic
{
    printf 'YUV4MPEG2 W2 H1 F60000:1001 C422p10\nFRAME\n'
    octets '4000AC03 5501 AA02'
    printf 'FRAME\n'
    octets '4000AC03 5501 AA02'
} >ten.y4m
run send --out files.cap ten.pic ten.pic
run send --out stream.cap ten.y4m
says 'a stream of 10 bits' 0 'sent 2' ''
alike 'a stream of 10 bits: the file' stream.cap files.cap
# A head and no frame.
head -c 46 three.y4m >front.y4m
run send --out front.cap front.y4m
says 'a stream without pictures' 0 'sent 0' ''
none 'a stream without pictures: nothing is written' front.cap

# Faults of streams: what was sent before stays.
head -c 75 three.y4m >cut.y4m
run send --out cut.cap --max 42 cut.y4m
says 'send: a stream that is cut' 1 '' 'st2110: form 7 Truncated'
holds 'send: a stream that is cut, what was sent' cut.cap.partial "$one"
rm -f cut.cap.partial
run send --verbose --out cut.cap --max 42 cut.y4m
says 'send: a stream that is cut, where' 1 '' 'st2110: form 7 Truncated
  at cut.y4m, octet 75; wanted more octets: the file ends before it is whole; what was written stays as cut.cap.partial'
{
    head -c 68 three.y4m
    printf 'FRAMES\n'
} >bad.y4m
run send --out bad.cap --max 42 bad.y4m
says 'send: no second frame' 1 '' 'st2110: form 4 BadHeader'
holds 'send: no second frame, what was sent' bad.cap.partial "$one"
cp p.pic pic.y4m
printf 'YUV4MPEG2 W4 H2 F25:1 Ip A0:0 C420jpeg XYSCSS=420JPEG\n' >yellow.y4m
printf 'YUV4MPEG2 W3 H2 F60:1 C422\n' >odd.y4m
while read -r fault asked; do
    # shellcheck disable=SC2086
    run send --out no-send.cap $asked
    says "send: $asked" 1 '' "st2110: $(printf '%s' "$fault" | tr _ ' ')"
done <<'END'
form_3_BadMagic pic.y4m
form_5_UnsupportedForm yellow.y4m
form_6_BadFormat odd.y4m
form_3_BadMagic --max 23 pic.y4m
plan_2_BadPacketSize --max 23 three.y4m
sdp_2_NoVideo --sdp none.sdp pic.y4m
END
none 'send: nothing is written after a stream is refused' no-send.cap
run send --out three.y4m three.y4m
says 'send: a stream is the output' 1 '' 'st2110: send 4 OutputIsInput'
run send --out no-send.cap no-such.y4m
says 'send: no such stream' 3 '' 'st2110: device'
for beside in p.pic three.y4m -; do
    run send --out no-send.cap three.y4m $beside
    misworded "send: a stream, and $beside" \
        "invalid value 'three.y4m' for '<PICTURE>...': a stream of pictures is sent alone" -
done
run send --out no-send.cap p.pic -
misworded 'send: a picture, and standard input' "invalid value '-' for '<PICTURE>...': a stream of pictures is sent alone" -

# Words that the command line refuses.
run send p.pic
misworded 'send: without --out' "$missing\n  --out <FILE>" 'send --out <FILE> <PICTURE>...'
run send --out f.cap
misworded 'send: without pictures' "$missing\n  <PICTURE>..." 'send --out <FILE> <PICTURE>...'
run send --out f.cap --pt 128 p.pic
misworded 'send: a payload type of 128' "invalid value '128' for '--pt <N>': 128 is not in 0..=127" -
run send --out f.cap --first 4294967296 p.pic
misworded 'send: a number of 33 bits' \
    "invalid value '4294967296' for '--first <N>': 4294967296 is not in 0..=4294967295" -
run send --out f.cap --paths c p.pic
misworded 'send: a path C' "invalid value 'c' for '--paths <PATHS>'\n  [possible values: a, b, both]" -

# The commands of README's first page, and a migrated capture that is received.
run send --sdp "$root/examples/four-by-two.sdp" --base 900 --max 40 --paths both --out sent.cap "$root/examples/four-by-two.pic"
says 'README: send' 0 'sent 2' ''
run receive --window 900 --state sent.rcv sent.cap
says 'README: receive' 0 "delivered 4
$whole" ''
run migrate --sdp "$root/examples/four-by-two.sdp" --out new.cap "$root/examples/one-record-01.cap"
says 'migrate: a capture that is received' 0 'records 1' ''
run receive --window 900 --state new.rcv new.cap
says 'README: receive what was migrated' 0 "delivered 1
$frame" ''
