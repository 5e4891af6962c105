# --verbose: behind the line of a fault one more says where it is, and what was wanted there.

# adds NAME STATUS OUTPUT FAULT PLACE: whether the last run ended so, with a line for the place behind the fault's.
adds() {
    says "verbose: $1" "$2" "$3" "st2110: $4
  at $5"
}
here='standard input, line'

# Scripts: FAULT|LINE AND ITS TEXT|WANTED|SCRIPT, without output before the fault.
places() {
    while IFS='|' read -r fault place wanted script; do
        printf '%b' "$script" >in
        "$program" "$1" --verbose <in >out 2>err
        status=$?
        adds "$1: $script" 1 '' "$fault" "$here $place; wanted $wanted"
    done
}
head_form='format S B W H N/D'
datagram_form='A HEX or B HEX, two digits for each of at most 65535 octets, or -'
line_forms='A HEX, B HEX, slide TS, cell TS ROW COL COMP or numbers FIRST COUNT'
places trace <<END
script 1|1, ''|$head_form|
script 3|3, ''|$head_form|\n\r\n
script 1|1, 'formats'|$head_form|formats
script 2|2, ''|open PT SSRC WINDOW|$format\n
script 4|4, 'A -'|open PT SSRC WINDOW|\n$format\n\nA -\n
script 3|3, 'A 8G'|$datagram_form|$open\nA 8G
script 3|3, 'B'|$datagram_form|$open\nB\n
script 3|3, 'slide x'|slide TS|$open\nslide x\n
script 3|3, 'cell 900 0 0'|cell TS ROW COL COMP|$open\ncell 900 0 0\n
script 4|4, 'numbers 1 2'|numbers FIRST COUNT, once|$open\nnumbers 1 2\nnumbers 1 2\n
script 3|3, 'send'|$line_forms|$open\nsend\n
script 3|3, 'A\t8\'\xff'|$line_forms|$open\nA\t8'\0377\n
script 3|3, 'A 000000000000000000000000000000000000000000000000000000000 '|$datagram_form|$open\nA 000000000000000000000000000000000000000000000000000000000 \n
script 3|3, 'A 0000000000000000000000000000000000000000000000000000000000..'|$datagram_form|$open\nA 00000000000000000000000000000000000000000000000000000000000\n
format 1 BadWidth|2, 'format RGB 8 3 2 60/1'|an even width from 2 to 8192, of whole pgroups|\nformat RGB 8 3 2 60/1\n$format\n
format 2 BadHeight|1, 'format RGB 8 4 0 60/1'|a height from 1 to 8192|format RGB 8 4 0 60/1\n
format 3 BadRate|1, 'format RGB 8 4 2 0/1'|N and D from 1 to 1000000, and N/D from 1 to 300|format RGB 8 4 2 0/1
open 2 BadWindow|3, 'open 96 any -'|1 to 16 timestamps|$format\n\nopen 96 any -\nA -\n
open 3 DoubleTimestamp|2, 'open 96 any 9,9'|each timestamp once|$format\nopen 96 any 9,9\n
numbers 2 BadCount|3, 'numbers 5 0'|a COUNT from 1 to 1048576|$open\nnumbers 5 0\nnumbers 5 0\n
END
event_forms='send, arrive R A I, arrive R B I, slide R TS or merge R S'
begun="$format\nstamp 96 0 0 1\nmax 40\nwindow 0\nreceivers 2\n"
shown="picture $u$l"
places rehearse <<END
script 2|2, 'max 40'|stamp PT FIRST TIMESTAMP SSRC|$format\nmax 40\n
script 3|3, 'max'|max OCTETS|$format\nstamp 96 0 0 1\nmax\n
script 4|4, 'window'|window WINDOW|$format\nstamp 96 0 0 1\nmax 40\nwindow
script 5|5, 'receivers 256'|receivers N|$format\nstamp 96 0 0 1\nmax 40\nwindow 0\nreceivers 256\n
script 6|6, 'picture 80'|picture HEX, two digits for each of its octets|${begun}picture 80\n
script 6|6, 'A -'|picture HEX, $event_forms|${begun}A -\n
script 7|7, 'picture 80'|$event_forms|${begun}send\npicture 80\n
script 7|7, 'arrive 0 C 0'|arrive R A I or arrive R B I|${begun}send\narrive 0 C 0\n
script 6|6, 'slide 0'|slide R TS|${begun}slide 0\n
script 6|6, 'merge 0'|merge R S|${begun}merge 0\n
format 2 BadHeight|1, 'format RGB 8 4 0 60/1'|a height from 1 to 8192|format RGB 8 4 0 60/1\n
plan 2 BadPacketSize|3, 'max 23'|20 octets and a pgroup at least, and at most 9000|$format\nstamp 96 0 0 1\nmax 23\nwindow 0\nreceivers 2\n$shown
play 2 BadEvent 1|10, 'send'|an event that can happen after those before it|$format\nstamp 96 0 0 1\nmax 42\nwindow 0\nreceivers 2\n\n$shown\nsend\n\nsend\nsend\n
play 3 BadWindow|4, 'window -'|1 to 16 timestamps|$format\nstamp 96 0 0 1\nmax 40\nwindow -\nreceivers 2\n
play 4 DoubleTimestamp|4, 'window 7,7'|each timestamp once|$format\nstamp 96 0 0 1\nmax 40\nwindow 7,7\nreceivers 2\n
play 6 BadReceivers|5, 'receivers 9'|1 to 8 receivers|$format\nstamp 96 0 0 1\nmax 40\nwindow 0\nreceivers 9\n
END
pictures 10001 >in
"$program" rehearse -v <in >out 2>err
status=$?
adds 'ten thousand pictures and one' 1 '' 'play 5 BadPictures' \
    "$here 10006, 'picture 80108011'; wanted at most 10000 pictures"
{ printf '%b\n' "$open\ncell 900 0 0 0"; printf 'A '; zeros 16777216; } >in
"$program" trace -v <in >out 2>err
status=$?
adds 'a script that is too long' 1 missing 'script 4' \
    "$here 4, 'A 0000000000000000000000000000000000000000000000000000000000..'; wanted a script of at most 16777216 octets"
zeros 16777217 >in
"$program" sdp -v <in >out 2>err
status=$?
adds 'an SDP text that is too long' 1 '' 'script 1' \
    'standard input, octet 16777217; wanted at most 16777216 octets'
printf '%b\n' "$open\nA $d1\nA 8" >in
"$program" -v <in >out 2>err
status=$?
adds 'without a command' 1 'kept 1' 'script 4' "$here 4, 'A 8'; wanted $datagram_form"
printf '%b\n' "$open\nA $d1" >in
"$program" --verbose trace <in >out 2>err
status=$?
says 'verbose: without a fault nothing is told' 0 "kept 1
$frame" ''

# SDP texts: of the camera's text, or of one of its sections, the line or the item at fault, and what was wanted.
# A text without video has no such line.
sdp_places() {
    while IFS='|' read -r fault old new place wanted; do
        turn "$2" "$old" "$new"
        printf '%b' "$1$turned" >in
        "$program" sdp -v <in >out 2>err
        status=$?
        adds "sdp: $fault, $new" 1 '' "sdp $fault" "$here $place; wanted $wanted"
    done
}
bad_item='in a=fmtp:PT items NAME=VALUE, each value of its form'
fmtp_front='9, '"'"'a=fmtp:112 sampling=YCbCr-4:2:2; width='
sdp_places '' "$camera" <<END
4 BadMediaLine|5004 RTP|65536 RTP|6, 'm=video 65536 RTP/AVP 112'|m=video PORT RTP/AVP PT, PORT to 65535 and PT to 127
5 NoRtpmap|a=rtpmap:112|a=rtpmap:113|6, 'm=video 5004 RTP/AVP 112'|a=rtpmap:PT for the payload type of the line m=video
6 NotRaw90000|raw/90000|raw/48000|8, 'a=rtpmap:112 raw/48000'|raw/90000 in a=rtpmap:PT
6 NotRaw90000| raw/90000\n|  raw/1 \r\n|8, 'a=rtpmap:112  raw/1 '|raw/90000 in a=rtpmap:PT
7 NoFmtp|a=fmtp:112|a=fmtp:113|6, 'm=video 5004 RTP/AVP 112'|a=fmtp:PT for the payload type of the line m=video
8 BadParameter|width=1920|width=|9, 'width='|$bad_item
8 BadParameter|width=1920|width=1920; =1|9, '=1'|$bad_item
8 BadParameter|60000/1001|60000 / 1001|9, 'exactframerate=60000 / 1001'|$bad_item
8 BadParameter|BT709|BT 709|9, 'colorimetry=BT 709'|$bad_item
8 BadParameter|TCS=SDR|RANGE=full|9, 'RANGE=full'|$bad_item
8 BadParameter|TCS=SDR|\theight = \t|9, 'height ='|$bad_item
9 DoubleParameter|TCS=SDR|TP=SDR|9, 'TP=2110TPN'|in a=fmtp:PT each name once
10 MissingParameter|PM=2110GPM; ||${fmtp_front}1920; height=1080; ex..'|PM in a=fmtp:PT
10 MissingParameter|depth=10; TCS=SDR; |TCS; |${fmtp_front}1920; height=1080; ex..'|depth in a=fmtp:PT
10 MissingParameter| colorimetry=BT709; PM=2110GPM; SSN=ST2110-20:2017;| depths=8; colorimetry = BT709; p; |${fmtp_front}1920; height=1080; ex..'|PM and SSN in a=fmtp:PT
10 MissingParameter|sampling=YCbCr-4:2:2; width=1920; height=1080; exactframerate=60000/1001; depth=10;|depth\t=10;|9, 'a=fmtp:112 depth\t=10; TCS=SDR; colorimetry=BT709; PM=2110GPM..'|sampling, width, height and exactframerate in a=fmtp:PT
11 UnsupportedSampling|sampling=YCbCr-4:2:2|sampling=KEY|9, 'sampling=KEY'|sampling=YCbCr-4:2:2, YCbCr-4:4:4 or RGB
12 UnsupportedDepth|depth=10|depth=9|9, 'depth=9'|depth=8, 10, 12 or 16
13 Interlaced|TCS=SDR|interlace|9, 'interlace'|neither interlace nor segmented
13 Interlaced|TCS=SDR|segmented=0|9, 'segmented=0'|neither interlace nor segmented
14 UnsupportedPacking|PM=2110GPM|PM=2110BPM|9, 'PM=2110BPM'|PM=2110GPM
15 BadSsn|SSN=ST2110-20:2017|SSN=1|9, 'SSN=1'|SSN=ST2110-20: and a year
16 BadFormat|width=1920|width=1921|${fmtp_front}1921; height=1080; ex..'|width, height and exactframerate of a format
END
sdp_places "$session$first" "$second" <<'END'
6 NotRaw90000|raw/90000|raw/48000|13, 'a=rtpmap:112 raw/48000'|raw/90000 in a=rtpmap:PT
7 NoFmtp|a=fmtp:112|a=fmtp:113|11, 'm=video 5006 RTP/AVP 112'|a=fmtp:PT for the payload type of the line m=video
9 DoubleParameter|TCS=SDR|TP=SDR|14, 'TP=2110TPN'|in a=fmtp:PT each name once
11 UnsupportedSampling|sampling=YCbCr-4:2:2|sampling=KEY|14, 'sampling=KEY'|sampling=YCbCr-4:2:2, YCbCr-4:4:4 or RGB
17 LegsDiffer|width=1920|width=1280|11, 'm=video 5006 RTP/AVP 112'|two sections with one payload type, format, range and colorimetry
END
sdp_places "$camera" "$second" <<'END'
3 TooManyLegs|5006|5008|16, 'm=video 5008 RTP/AVP 112'|at most two sections m=video
END
# Short texts, and an item that has no value behind one of so many octets: it is shown while no more than 4096 octets
# stand before it, and else its line.
media_form='m=video PORT RTP/AVP PT, PORT to 65535 and PT to 127'
nine='m=video 1 RTP/AVP 9\na=rtpmap:9 raw/90000\na=fmtp:9 '
places sdp <<END
sdp 4 BadMediaLine|1, 'm=video x'|$media_form|m=video x
sdp 4 BadMediaLine|1, 'm=video x'|$media_form|m=video x\r
sdp 4 BadMediaLine|4, 'm=video x\r'|$media_form|\r\n\n\rv\nm=video x\r\r\nm=audio\n
sdp 5 NoRtpmap|1, 'm=video 1 RTP/AVP 9'|a=rtpmap:PT for the payload type of the line m=video|m=video 1 RTP/AVP 9\nm=video 2\n
sdp 6 NotRaw90000|3, 'a=rtpmap:09 x'|raw/90000 in a=rtpmap:PT|m=video 1 RTP/AVP 9\na=rtpmap:8 x\na=rtpmap:09 x\na=rtpmap:9 y
sdp 8 BadParameter|3, 'RANGE'|$bad_item|$nine; ;RANGE\n
sdp 9 DoubleParameter|3, 'a=2'|in a=fmtp:PT each name once|${nine}a=1;b;;\ta=2
sdp 10 MissingParameter|3, 'a=fmtp:9 '|sampling, width, height, exactframerate, depth, colorimetry, PM and SSN in a=fmtp:PT|$nine\n\n
END
far_item() {
    { printf '%b' "$nine"; zeros "$1"; printf ';width'; } >in
    "$program" sdp -v <in >out 2>err
    status=$?
    adds "sdp: an item behind $1 octets" 1 '' 'sdp 8 BadParameter' "$here 3, '$2'; wanted $bad_item"
}
far_item 4095 width
far_item 4096 "a=fmtp:9 $(zeros 51).."
printf '%b' "$session" >in
"$program" -v sdp <in >out 2>err
status=$?
adds 'sdp: no video' 1 '' 'sdp 2 NoVideo' \
    "standard input, octet $(($(wc -c <in))); wanted a line that begins m=video and a space"

# Of an SDP that was read well it is told where each path goes, and the edition where that is 2022.
read_line='a=fmtp:112 sampling=YCbCr-4:2:2; width=1920; height=1080; exactframerate=60000/1001; depth=10; colorimetry=BT709; PM=2110GPM; SSN=ST2110-20:2017'
reads_so() {
    printf '%b' "$2" >in
    "$program" sdp --verbose <in >out 2>err
    status=$?
    says "verbose: $1" 0 "$read_line" "$3"
}
reads_so 'two legs' "$camera" '  path A goes to 239.0.0.1:5004
  path B goes to 239.0.0.2:5006'
reads_so 'one leg' "$session$second" '  path A goes to 239.0.0.2:5006'
turn "$second" 'c=IN IP4 239.0.0.2/32' i=
reads_so 'a leg without an address' "$session$first$turned" '  path A goes to 239.0.0.1:5004
  path B goes to port 5006, no address'
turn "$first" 239.0.0.1/32 camera.example
reads_so 'a name in place of an address' "$session$turned" \
    "  where the video goes isn't told: flows 4 BadConnection"
turn "$first" ST2110-20:2017 ST2110-20:2022
reads_so 'the edition of 2022' "$session$turned" '  path A goes to 239.0.0.1:5004
  the text says SSN=ST2110-20:2022'
turn "$first" ST2110-20:2017 ST2110-20:20220
reads_so 'another edition' "$session$turned" '  path A goes to 239.0.0.1:5004'

# An SDP in a file, and one in a capture.
turn "$camera" depth=10 depth=9
printf '%b' "$turned" >depth.sdp
{
    octets 5332304341503032 "$(printf '%04X' "$(wc -c <depth.sdp)")"
    cat depth.sdp
} >depth.cap
run -v sdp depth.sdp
adds 'an SDP in a file, read' 1 '' 'sdp 12 UnsupportedDepth' "depth.sdp, line 9, 'depth=9'; wanted depth=8, 10, 12 or 16"
run -v sdp no-such-file
adds 'an SDP that is not there' 3 '' device \
    'no-such-file, octet 0; wanted to read there: No such file or directory (os error 2)'
run -v sdp --write 'RGB 8 3 2 60' --a 10.0.0.1:5004
adds 'an SDP of no format' 1 '' 'format 1 BadWidth' '--write; wanted an even width from 2 to 8192, of whole pgroups'
run -v send --out v.cap --sdp depth.sdp p.pic
adds 'an SDP in a file' 1 '' 'sdp 12 UnsupportedDepth' 'depth.sdp, line 9; wanted depth=8, 10, 12 or 16'
run -v migrate --sdp depth.sdp --out v.cap old.cap
adds 'an SDP in a file, migrated' 1 '' 'sdp 12 UnsupportedDepth' \
    'depth.sdp, line 9; wanted depth=8, 10, 12 or 16'
run -v receive --state v.rcv --window 900 depth.cap
adds 'an SDP in a capture' 1 '' 'sdp 12 UnsupportedDepth' \
    'depth.cap, line 9 of its SDP; wanted depth=8, 10, 12 or 16'

# Files: COMMAND|STATUS|FAULT|PLACE. What is said of a file is how many of its octets were read.
octets "5332305043503031" >x.pic
octets "5332305243563031 02 08000400020000003C00000001 60 00 00000000 01 00000384 0000000000000000" >rgb.rcv
head -c 37 p.pic >cut.pic
head -c 40 both.cap >cut.cap
octets "$opened 00 00000000 01 00000384 01 80108011" >cut.rcv
octets "$opened 00 00000000 01 00000384 02 0000 80108011 01 80128013 00 00" >mixed.rcv
octets "$opened 00 00000000 01 00000384 01 80108011 02 0000 80108011 01 80128013 00" >later.rcv
octets "$opened 00 00000000 01 00000384 00 01 80108011 03 80128013 00" >state.rcv
# Frames of 7680 groups, 1920 by 8: many whole ones, one of a state that there is not or of a mask
# that is wrong, and some behind; the second with a whole frame before.
wide='5332305243563031 0008078000080000003C00000001 60 00 00000000'
whole() {
    yes 0180108011 | head -n "$1"
}
{
    octets "$wide 01 00000384"
    octets "$(whole 6000)"
    octets "03 $(whole 1679)"
} >wide.rcv
{
    octets "$wide 02 00000384"
    octets "$(whole 7680)"
    octets "00000960 $(whole 5000)"
    octets "02 0000 80108011 $(whole 2679)"
} >second.rcv
while IFS='|' read -r words status_wanted fault place; do
    # shellcheck disable=SC2086
    run $words --verbose
    adds "$words" "$status_wanted" '' "$fault" "$place"
done <<END
send --out v.cap no-such-file|3|device|no-such-file, octet 0; wanted to read there: No such file or directory (os error 2)
send --out v.cap .|3|device|., octet 0; wanted to read there: Is a directory (os error 21)
send --out v.cap --sdp no-such-file p.pic|3|device|no-such-file, octet 0; wanted to read there: No such file or directory (os error 2)
send --out no-folder/v.cap p.pic|3|device|no-folder/v.cap; wanted to write there: No such file or directory (os error 2)
send --out v.cap cut.pic|1|picture 5 Truncated|cut.pic, octet 37; wanted more octets: the file ends before it is whole
send --out v.cap x.pic|1|picture 3 BadName|x.pic, octet 8; wanted a picture, which begins S20PIC
send --out v.cap p.pic row.pic p.pic|1|send 1 FormatsDiffer|row.pic, octet 30; wanted a picture of the first one's format; what was written stays as v.cap.partial
send --out v.cap --max 23 p.pic|1|plan 2 BadPacketSize|--max; wanted 20 octets and a pgroup at least, and at most 9000
send --out v.cap --sdp empty p.pic|1|sdp 2 NoVideo|empty, octet 0; wanted a line that begins m=video and a space
receive --state v.rcv --window - old.cap|1|receive 1 BadWindowText|--window; wanted timestamps with commas between
receive --state v.rcv --window 9 --ssrc x old.cap|1|receive 2 BadSource|--ssrc; wanted a number or any
receive --state v.rcv --window 9 old.cap|1|receive 4 NoSdp|old.cap, octet 8; wanted an SDP in the capture, or --sdp
receive --state v.rcv --window 9,9 --sdp q.sdp old.cap|1|open 3 DoubleTimestamp|--window; wanted each timestamp once
receive --state v.rcv --window 9 --sdp q.sdp old.cap cut.cap old.cap|1|capture 5 Truncated|cut.cap, octet 40; wanted more octets: the file ends before it is whole; --sound saves what came before that
receive --state v.rcv --window 9 --sdp q.sdp old.cap path.cap|1|capture 6 BadField|path.cap, octet 19; wanted a path of 0 or 1; --sound saves what came before that
receive --state v.rcv --window 9 --sdp q.sdp name.cap|1|capture 3 BadName|name.cap, octet 8; wanted a capture, which begins S20CAP, or a recording, which begins as pcap or pcapng
receive --state v.rcv --window 9 --sdp q.sdp empty|1|capture 5 Truncated|empty, octet 0; wanted a capture, which begins S20CAP, or a recording, which begins as pcap or pcapng; the file is empty
merge --state v.rcv empty g.rcv|1|state 5 Truncated|empty, octet 0; wanted a receiver, which begins S20RCV; the file is empty
send --out v.cap empty|1|picture 5 Truncated|empty, octet 0; wanted a picture, which begins S20PIC; the file is empty
receive --state v.rcv --window 9 --sdp q.sdp old.cap no-such-file|3|device|no-such-file, octet 0; wanted to read there: No such file or directory (os error 2)
merge --state v.rcv g.rcv other.rcv|1|merge 1 OpenedUnlike|other.rcv, octet 45; wanted a receiver that was opened as the left one
merge --state v.rcv cut.rcv g.rcv|1|state 5 Truncated|cut.rcv, octet 38; wanted more octets: the file ends before it is whole
merge --state v.rcv g.rcv name.cap|1|state 3 BadName|name.cap, octet 8; wanted a receiver, which begins S20RCV
merge --state v.rcv g.rcv no-such-file|3|device|no-such-file, octet 0; wanted to read there: No such file or directory (os error 2)
merge --state v.rcv mixed.rcv g.rcv|1|state 8 MixedGroup|mixed.rcv, octet 40; wanted a mask of some of the pgroup's samples, each of them 0
merge --state v.rcv later.rcv g.rcv|1|state 8 MixedGroup|later.rcv, octet 45; wanted a mask of some of the pgroup's samples, each of them 0
merge --state v.rcv g.rcv state.rcv|1|state 6 BadField|state.rcv, octet 40; wanted a field with a value that there is
report wide.rcv|1|state 6 BadField|wide.rcv, octet 30034; wanted a field with a value that there is
report second.rcv|1|state 8 MixedGroup|second.rcv, octet 63444; wanted a mask of some of the pgroup's samples, each of them 0
receive --state v.rcv --window 9 --sdp no-such-file old.cap|3|device|no-such-file, octet 0; wanted to read there: No such file or directory (os error 2)
process --job limit --ts 900 --fill 0,0,0 --out v.cap g.rcv|1|process 1 BadJob|--job; wanted limit:nominal, limit:video, gain:G, ycc444, ycc422, wipe:columns:P:S, wipe:rows:P:S or key
process --job gain:1 --ts 901 --fill 0,0,0 --out v.cap g.rcv|1|process 2 NoFrame|--ts; wanted a timestamp of each receiver's window
process --job gain:1 --ts 900 --fill 0,0 --out v.cap g.rcv|1|process 3 BadFill|--fill; wanted three numbers with commas between, none above the greatest value of a frame
process --job gain:1 --ts 900 --fill 0,0,0 --hold row.pic --out v.cap g.rcv|1|process 4 HoldDiffers|row.pic, octet 30; wanted a picture of the first frame's format
process --job wipe:rows:1:0 --ts 900 --fill 0,0,0 --out v.cap g.rcv rgb.rcv|1|job 2 FormatsDiffer|--job; wanted frames of one format, and a key of their size, depth and rate
process --job key --ts 900 --fill 0,0,0 --out v.cap g.rcv g.rcv rgb.rcv|1|job 3 KeyNotYcc|--job; wanted a key of Y, Cb and Cr
process --job wipe:rows:3:0 --ts 900 --fill 0,0,0 --out v.cap g.rcv g.rcv|1|job 4 BadWipe|--job; wanted P and S of at most the width, or for rows the height
process --job ycc444 --ts 900 --fill 0,0,0 --out v.cap g.rcv|1|job 5 NotRgb|--job; wanted a frame of R, G and B
process --job ycc422 --ts 900 --fill 0,0,0 --out v.cap g.rcv|1|job 6 NotYcc444|--job; wanted a frame of Y, Cb and Cr at each column
process --job key --ts 900 --fill 0,0,0 --out v.cap g.rcv|1|job 7 WrongInputCount|--job; wanted one receiver, for a wipe two and for key three
process --job gain:16385 --ts 900 --fill 0,0,0 --out v.cap g.rcv|1|job 8 BadGain|--job; wanted a gain of at most 16384
process --job gain:1 --ts 900 --fill 0,0,0 --max 23 --out v.cap g.rcv|1|plan 2 BadPacketSize|--max; wanted 20 octets and a pgroup at least, and at most 9000
process --job gain:1 --ts 900 --fill 0,0,0 --out v.cap cut.rcv|1|state 5 Truncated|cut.rcv, octet 38; wanted more octets: the file ends before it is whole
process --job gain:1 --ts 900 --fill 0,0,0 --out no-folder/v.cap g.rcv|3|device|no-folder/v.cap; wanted to write there: No such file or directory (os error 2)
picture --ts 901 --out v.pic g.rcv|1|frame 1 NoFrame|--ts; wanted a timestamp of the receiver's window
picture --ts 900 --fill 0,0 --out v.pic g.rcv|1|frame 2 BadFill|--fill; wanted three numbers with commas between, none above the greatest value of a frame
picture --ts 900 --hold row.pic --out v.pic g.rcv|1|frame 3 HoldDiffers|row.pic, octet 30; wanted a picture of the frame's format
picture --ts 900 --out v.ppm g.rcv|1|frame 4 WrongForm|--as; wanted y4m for YCbCr, ppm for RGB, or a form of both: picture or raw
picture --ts 900 --out g.rcv g.rcv|1|frame 5 OutputIsInput|--out; wanted the name of no file that is read
picture --ts 900 --out v.pic cut.rcv|1|state 5 Truncated|cut.rcv, octet 38; wanted more octets: the file ends before it is whole
picture --ts 900 --hold empty --out v.pic g.rcv|1|picture 5 Truncated|empty, octet 0; wanted a picture, which begins S20PIC; the file is empty
picture --ts 900 --out no-folder/v.pic g.rcv|3|device|no-folder/v.pic; wanted to write there: No such file or directory (os error 2)
migrate --sdp q.sdp --out v.cap new.cap|1|capture 4 BadVersion|new.cap, octet 8; wanted version 01, or for receive 01 or 02
migrate --sdp no-such-file --out v.cap old.cap|3|device|no-such-file, octet 0; wanted to read there: No such file or directory (os error 2)
migrate --sdp q.sdp --out no-folder/v.cap old.cap|3|device|no-folder/v.cap; wanted to write there: No such file or directory (os error 2)
convert p.pic v.ppm|1|convert 1 WrongForm|--as; wanted y4m for YCbCr, ppm for RGB, or a form of both: picture or raw
convert p.pic p.pic|1|convert 2 OutputIsInput|OUT; wanted the name of no file that is read
follow --report p.pic p.pic|1|follow 2 OutputIsInput|--out or --report; wanted the name of no file that is read
convert cut.pic v.y4m|1|picture 5 Truncated|cut.pic, octet 37; wanted more octets: the file ends before it is whole
convert --from y4m p.pic v.pic|1|form 3 BadMagic|p.pic, octet 9; wanted YUV4MPEG2 or P6
convert --from ppm empty v.pic|1|form 7 Truncated|empty, octet 0; wanted more octets: the file ends before it is whole
convert no-such-file v.pic|3|device|no-such-file, octet 0; wanted to read there: No such file or directory (os error 2)
END
# shellcheck disable=SC2046
run -v send --out v.cap $(words 10001)
adds 'ten thousand pictures and one, sent' 1 '' 'send 2 TooManyPictures' 'the pictures; wanted at most 10000 pictures, of a stream 4294967295'
head -c 65536 /dev/zero >long.sdp
run migrate -v --sdp long.sdp --out v.cap old.cap
adds 'a long SDP' 1 '' 'migrate 1 SdpTooLong' 'long.sdp, octet 65536; wanted at most 65535 octets'
run send -v --sdp long.sdp --out v.cap p.pic
adds 'a long SDP, sent' 1 '' 'send 3 SdpTooLong' 'long.sdp, octet 65536; wanted at most 65535 octets'
run merge -v --state /dev/full g.rcv g.rcv
adds 'a full file' 3 "$frame" device '/dev/full; wanted to write there: No space left on device (os error 28)'
"$program" sdp -v <q.sdp >/dev/full 2>err
status=$?
: >out
adds 'a full output' 3 '' device 'standard output; wanted to write there: No space left on device (os error 28)'
printf '%b' "$open\nA $d1\ncell 900 0 0 0\nA 8G\n" >in
"$program" trace -v <in >out 2>err
status=$?
adds 'a fault behind what is printed' 1 'kept 1
value 16' 'script 5' "$here 5, 'A 8G'; wanted $datagram_form"
"$program" trace -v <in >/dev/full 2>err
status=$?
: >out
adds 'a full output before a fault' 3 '' device 'standard output; wanted to write there: No space left on device (os error 28)'
"$program" trace -v <. >out 2>err
status=$?
adds 'a folder as input' 3 '' device 'standard input, octet 0; wanted to read there: Is a directory (os error 21)'

# Recordings: the words, the SDP, and the file where it is at fault.
recorded=$root/examples/recordings
run import -v --sdp q.sdp --b 5x --out v.cap "$recorded/loopback.pcap"
adds 'a flow' 1 '' 'import 2 BadFlow' '--a or --b; wanted a port, or an address, a colon and a port'
run import -v --sdp "$recorded/alike.sdp" --out v.cap "$recorded/alike-a.pcap"
adds 'one place' 1 '' 'import 3 OnePlace' 'the recordings; wanted two recordings, the first of path A'
run import -v --sdp long.sdp --out v.cap "$recorded/loopback.pcap"
adds 'a long SDP, imported' 1 '' 'import 1 SdpTooLong' 'long.sdp, octet 65536; wanted at most 65535 octets'
{
    echo 'c=IN IP4 host'
    cat q.sdp
} >host.sdp
run import -v --sdp host.sdp --out v.cap "$recorded/loopback.pcap"
adds "a host's name" 1 '' 'flows 4 BadConnection' \
    "host.sdp, octet $(wc -c <host.sdp); wanted c=IN IP4 ADDRESS or c=IN IP6 ADDRESS"
cp "$recorded/loopback.pcap.gz" packed.pcap.gz
run import -v --sdp q.sdp --out v.cap packed.pcap.gz
adds 'a packed recording' 1 '' 'capture 3 BadName' \
    'packed.pcap.gz, octet 8; wanted a capture, which begins S20CAP, or a recording, which begins as pcap or pcapng; gzip has packed the file, and zcat unpacks it'
run inspect -v packed.pcap.gz
adds 'a packed recording, inspected' 1 '' 'recording 10 Packed' \
    'packed.pcap.gz, octet 4; wanted a recording, which begins as pcap or pcapng; gzip has packed the file, and zcat unpacks it'
run receive -v --sdp q.sdp --window 9 --state v.rcv packed.pcap.gz
adds 'a packed recording, received' 1 '' 'capture 3 BadName' \
    'packed.pcap.gz, octet 8; wanted a capture, which begins S20CAP, or a recording, which begins as pcap or pcapng; gzip has packed the file, and zcat unpacks it'
run report -v packed.pcap.gz
adds 'a packed recording, reported' 1 '' 'state 3 BadName' \
    'packed.pcap.gz, octet 8; wanted a receiver, which begins S20RCV; gzip has packed the file, and zcat unpacks it'
run inspect -v empty
adds 'an empty recording' 1 "$(cat out)" 'recording 2 Truncated' \
    'empty, octet 0; wanted a recording, which begins as pcap or pcapng; the file is empty'
run inspect -v q.sdp
adds 'no recording' 1 '' 'recording 3 BadMagic' \
    'q.sdp, octet 4; wanted a recording, which begins as pcap or pcapng'
cp "$recorded/cut.pcap" cut.pcap
run import -v --sdp q.sdp --out cut-v.cap cut.pcap
adds 'a cut recording' 1 '' 'recording 2 Truncated' \
    "cut.pcap, octet $(wc -c <cut.pcap); wanted more octets: the recording ends before it is whole; what was written stays as cut-v.cap.partial"
# Why packets are left out: of two-cards one card's are another flow's. In the others is what the recordings are of.
run import -v --sdp "$recorded/two-cards.sdp" --a 239.1.1.1:5004 --out v.cap "$recorded/two-cards.pcapng"
says 'verbose: packets of another flow' 0 'recorded A 8 B 0 left out 8' '  left out 8 of another flow'
run import --verbose --sdp "$recorded/two-cards.sdp" --out v.cap "$recorded/two-cards.pcapng"
says 'verbose: no packet is left out' 0 'recorded A 8 B 8 left out 0' ''
run import -v --sdp "$recorded/foreign.sdp" --out v.cap "$recorded/foreign.pcapng"
says 'verbose: packets of other kinds' 0 'recorded A 7 B 0 left out 14' '  left out 2 NotIp
  left out 10 NotUdp
  left out 2 of another flow'
run import -v --sdp "$recorded/group.sdp" --out v.cap "$recorded/snapped.pcap" "$recorded/fragments.pcap"
says 'verbose: packets that are not whole' 0 'recorded A 4 B 0 left out 12' '  left out 4 CutShort
  left out 8 Fragment'
# A header of IPv4 of fewer than five words, and a length of UDP below that of its header.
octets 'A1B2C3D4 0002 0004 00000000 00000000 00040000 00000001
    00000000 00000000 0000002A 0000002A 000000000000 000000000000 0800 4400001C 00004000 40110000 7F000001 7F000001
    1388 138C 0008 0000
    00000000 00000000 0000002A 0000002A 000000000000 000000000000 0800 4500001C 00004000 40110000 7F000001 7F000001
    1388 138C 0007 0000' >bad.pcap
run import -v --sdp "$recorded/loopback.sdp" --out v.cap bad.pcap
says 'verbose: packets with wrong headers' 0 'recorded A 0 B 0 left out 2
flows 0
left out 1 BadIpHeader
left out 1 BadUdpLength' '  left out 1 BadIpHeader
  left out 1 BadUdpLength'
run export -v --a 5004 --out v.pcap old.cap
adds 'a flow without an address' 1 '' 'export 1 BadFlow' \
    '--a or --b; wanted an address, a colon and a port, as 239.1.1.1:5004'

# At a terminal the line comes by itself, and --quiet leaves it out.
if command -v script >/dev/null; then
    # at_terminal COMMAND..: what a command says where standard error is a terminal.
    at_terminal() {
        printf '"%s" %s' "$program" "$*" >command
        said=$(script -q -e -c 'sh ./command </dev/null' /dev/null </dev/null | tr -d '\r')
    }
    for words in '' '--quiet' '-q' '--verbose --quiet'; do
        at_terminal "$words report no-such-file"
        case $words in
            --quiet | -q) want='st2110: device' ;;
            *) want='st2110: device
  at no-such-file, octet 0; wanted to read there: No such file or directory (os error 2)' ;;
        esac
        if [ "$said" = "$want" ]; then
            pass "at a terminal, with '$words'"
        else
            fail "at a terminal, with '$words'" "'$said'"
        fi
    done
    for words in '' --quiet; do
        at_terminal "$words sdp camera.sdp"
        want=$read_line
        [ -n "$words" ] || want="$read_line
  path A goes to 239.0.0.1:5004
  path B goes to 239.0.0.2:5006"
        if [ "$said" = "$want" ]; then
            pass "at a terminal, an SDP that was read well, with '$words'"
        else
            fail "at a terminal, an SDP that was read well, with '$words'" "'$said'"
        fi
    done
fi
