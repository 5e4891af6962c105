# process: a job on frames of receivers, and its picture as a capture.
run receive --state first.rcv --sdp q.sdp --window 900 old.cap
run receive --state second.rcv --sdp q.sdp --window 900 second.cap
run merge --state both.rcv first.rcv second.rcv
sent="80E00001 00000384 00000001 0000 0008 0000 8000 0008 0001 0000"
one="5332304341503032 0000 00 0000000000000000 002A"
processed='--ts 900 --fill 16,128,128 --max 42 --first 1 --base 900 --out j.cap'
black='8010801080108010'
: >empty.rcv
# Receivers of R'G'B' and of 4:4:4 that lack every sample.
lacking='08000400020000003C00000001 60 00 00000000 01 00000384 0000000000000000'
octets "5332305243563031 02 $lacking" >rgb.rcv
octets "5332305243563031 01 $lacking" >ycc444.rcv

# made NAME CAPTURE WORDS..: whether a job on receivers sends one datagram, and the capture is this.
made() {
    name=$1
    capture=$2
    shift 2
    rm -f j.cap
    # shellcheck disable=SC2086
    run process --job "$1" $processed $2
    says "$name" 0 'sent 1' ''
    holds "$name, the capture" j.cap "$one $capture"
}
made processed "$sent $u$l" gain:4096 both.rcv
made 'processed: a frame that lacks a row' "$sent $u $black" gain:4096 first.rcv
# The held picture's values are those of the first frame's missing samples, whatever the fill. The
# second frame keeps the fill: a wipe at column 0 shows it alone, one at column 4 only the first.
made held "$sent $u$l" gain:4096 '--hold p.pic first.rcv'
made 'held: the second keeps the fill' "$sent $u $black" wipe:columns:0:0 '--hold p.pic first.rcv first.rcv'
made 'held: the first alone' "$sent $u$l" wipe:columns:4:0 '--hold p.pic first.rcv first.rcv'
made 'a wipe by rows' "$sent $u $black" wipe:rows:1:0 'both.rcv first.rcv'
made 'nominal range' "$sent 8010801180128013 8014801580168017" limit:nominal both.rcv
made 'video data, with payload type and source' "80E10001 00000384 00000007 0000 0008 0000 8000 0008 0001 0000 $u$l" \
    limit:video '--pt 97 --ssrc 7 both.rcv'
made 'no gain' "$sent $black $black" gain:0 both.rcv
# A key of luma 16 to 23 shows the first picture where it is 16, and there the two are alike.
# shellcheck disable=SC2086
run process --job key $processed both.rcv both.rcv both.rcv
says 'a key' 0 'sent 1' ''
holds 'a key: the capture' j.cap "$one $sent $u$l"
# White is white in 4:4:4 (ITU-R BT.709), in groups of a pixel; and black of 4:4:4 is black in 4:2:2.
run process --job ycc444 --ts 900 --fill 235,235,235 --max 50 --first 1 --base 900 --out j.cap rgb.rcv
says 'to 4:4:4' 0 'sent 1' ''
white='80EB80 80EB80 80EB80 80EB80'
holds 'to 4:4:4: the capture' j.cap "5332304341503032 0000 00 0000000000000000 0032
    80E00001 00000384 00000001 0000 000C 0000 8000 000C 0001 0000 $white $white"
made 'to 4:2:2' "$sent $black $black" ycc422 ycc444.rcv
run process --job gain:4096 --ts 900 --fill 0,0,0 --out j.cap --max 40 --first 4294967295 both.rcv
says 'numbers begin anew' 0 'sent 2' ''
run process --job gain:4096 --ts 900 --fill 0,0,0 --out j.cap both.rcv
says 'with defaults' 0 'sent 1' ''
holds 'with defaults: the capture' j.cap "$one 80E00000 00000000 00000001 0000 0008 0000 8000 0008 0001 0000 $u$l"

# With an SDP the capture has its text; it is read behind the job, and before the receivers' files.
text=$(od -An -v -tx1 q.sdp | tr -d ' \n')
# shellcheck disable=SC2086
run process --job gain:4096 $processed --sdp q.sdp both.rcv
says 'with an SDP' 0 'sent 1' ''
holds 'with an SDP: the capture' j.cap "5332304341503032 $(printf %04x "$(wc -c <q.sdp)") $text
    00 0000000000000000 002A $sent $u$l"
rm -f j.cap
head -c 65536 /dev/zero >long.sdp
printf 'v=0\n' >none.sdp
while IFS='|' read -r fault words; do
    # shellcheck disable=SC2086
    run process $processed $words
    says "refused: $words" 1 '' "st2110: $fault"
done <<'END'
process 1 BadJob|--job gains:1 --sdp none.sdp both.rcv
send 3 SdpTooLong|--job gain:4096 --sdp long.sdp no-such-file
sdp 2 NoVideo|--job gain:4096 --sdp none.sdp no-such-file
state 5 Truncated|--job gain:4096 --sdp q.sdp empty.rcv
END
none 'with an SDP: nothing is written' j.cap
cp q.sdp same.sdp
run process --job gain:4096 --ts 900 --fill 0,0,0 --sdp same.sdp --out same.sdp both.rcv
says 'with an SDP that is the output' 1 '' 'st2110: process 5 OutputIsInput'
alike 'with an SDP that is the output: the SDP' same.sdp q.sdp

# Refusals, and nothing is written: FAULT|WORDS.
rm -f j.cap
while IFS='|' read -r fault words; do
    # shellcheck disable=SC2086
    run process $words
    says "process $words" 1 '' "st2110: $fault"
done <<END
process 1 BadJob|--job gain $processed both.rcv
process 1 BadJob|--job gain: $processed both.rcv
process 1 BadJob|--job gain:x $processed both.rcv
process 1 BadJob|--job gain:4294967296 $processed both.rcv
process 1 BadJob|--job Gain:1 $processed both.rcv
process 1 BadJob|--job limit $processed both.rcv
process 1 BadJob|--job limit:full $processed both.rcv
process 1 BadJob|--job ycc420 $processed both.rcv
process 1 BadJob|--job wipe:columns:1 $processed both.rcv both.rcv
process 1 BadJob|--job wipe:columns:1:2:3 $processed both.rcv both.rcv
process 1 BadJob|--job wipe:lines:1:2 $processed both.rcv both.rcv
process 1 BadJob|--job keys $processed both.rcv
process 1 BadJob|--job no --ts 900 --fill x --out j.cap no-such-file
process 2 NoFrame|--job gain:4096 --ts 901 --fill 16,128,128 --out j.cap both.rcv
process 2 NoFrame|--job key --ts 901 --fill x --hold row.pic --out j.cap both.rcv
process 3 BadFill|--job gain:4096 --ts 900 --fill 256,0,0 --out j.cap both.rcv
process 3 BadFill|--job gain:4096 --ts 900 --fill 0,0,256 --out j.cap both.rcv
process 3 BadFill|--job gain:4096 --ts 900 --fill 65552,0,0 --out j.cap both.rcv
process 3 BadFill|--job gain:4096 --ts 900 --fill 1,2 --out j.cap both.rcv
process 3 BadFill|--job gain:4096 --ts 900 --fill 1,2,3,4 --out j.cap both.rcv
process 3 BadFill|--job gain:4096 --ts 900 --fill 1,2, --out j.cap both.rcv
process 3 BadFill|--job key --ts 900 --fill a,b,c --hold row.pic --out j.cap both.rcv
process 4 HoldDiffers|--job gain:4096 $processed --hold row.pic both.rcv
process 4 HoldDiffers|--job key $processed --hold row.pic both.rcv
job 7 WrongInputCount|--job key $processed both.rcv
job 7 WrongInputCount|--job key $processed both.rcv both.rcv
job 7 WrongInputCount|--job gain:16385 $processed both.rcv both.rcv
job 8 BadGain|--job gain:16385 $processed both.rcv
job 2 FormatsDiffer|--job wipe:columns:1:1 $processed both.rcv rgb.rcv
job 2 FormatsDiffer|--job key $processed both.rcv rgb.rcv both.rcv
job 3 KeyNotYcc|--job key $processed both.rcv both.rcv rgb.rcv
job 4 BadWipe|--job wipe:columns:5:0 $processed both.rcv both.rcv
job 4 BadWipe|--job wipe:rows:0:3 $processed both.rcv both.rcv
job 5 NotRgb|--job ycc444 $processed both.rcv
job 6 NotYcc444|--job ycc422 --ts 900 --fill 0,0,0 --max 23 --out j.cap both.rcv
plan 2 BadPacketSize|--job gain:4096 --ts 900 --fill 0,0,0 --max 23 --out j.cap both.rcv
plan 2 BadPacketSize|--job gain:4096 --ts 900 --fill 0,0,0 --max 9001 --out j.cap both.rcv
state 5 Truncated|--job gain:4096 $processed --hold old.cap both.rcv empty.rcv
state 3 BadName|--job gain:4096 $processed p.pic
picture 3 BadName|--job gain:4096 $processed --hold both.rcv both.rcv
END
none 'process: nothing is written after a refusal' j.cap

# Devices that fail.
while read -r words; do
    # shellcheck disable=SC2086
    run process --job gain:4096 --ts 900 --fill 0,0,0 $words
    says "process $words" 3 '' 'st2110: device'
done <<END
--out j.cap no-such-file
--out j.cap both.rcv .
--out j.cap --hold no-such-file both.rcv
--out no-such-folder/j.cap both.rcv
END
none 'process: nothing is written where a file is not there' j.cap
run process --job gain:4096 --ts 900 --fill 0,0,0 --out /dev/full both.rcv
says 'process: a full file' 3 'sent 1' 'st2110: device'
"$program" process --job gain:4096 --ts 900 --fill 0,0,0 --out j.cap both.rcv >/dev/full 2>err
status=$?
: >out
says 'process: a full output' 3 '' 'st2110: device'
