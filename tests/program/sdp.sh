# sdp: texts that are read, with their canonical line, and texts that are refused.
line=$(cat "$root/examples/camera.out")

# reads NAME TEXT LINE, unread NAME TEXT FAULT: whether a text has this line, or this fault.
reads() {
    feed sdp "$2"
    says "$1" 0 "$3" ''
}
unread() {
    feed sdp "$2"
    says "$1" 1 '' "st2110: sdp $3"
}

# Of the camera's text, or of one of its sections: the fault, and what stands in the place of what.
changes() {
    while IFS='|' read -r fault old new; do
        turn "$3" "$old" "$new"
        unread "$1: $new for $old" "$2$turned" "$fault"
    done
}
changes camera '' "$camera" <<'END'
2 NoVideo|m=video|m=audio
2 NoVideo|m=video |m=video\t
4 BadMediaLine|5004 RTP|65536 RTP
4 BadMediaLine|RTP/AVP 112|RTP/AVP 112 96
4 BadMediaLine|RTP/AVP 112|RTP/AVP  112
4 BadMediaLine|RTP/AVP 112|RTP/AVP 128
4 BadMediaLine|RTP/AVP 112|RTP/SAVP 112
4 BadMediaLine|m=video 5004|m=video 5004/2
5 NoRtpmap|a=rtpmap:112|a=rtpmap:113
5 NoRtpmap|a=rtpmap:112 |a=rtpmap:112\t
6 NotRaw90000|raw/90000|raw/48000
7 NoFmtp|a=fmtp:112 |a=fmtp:113\040
8 BadParameter|width=1920|width=
8 BadParameter|width=1920|width
8 BadParameter|width=1920|=1; width=1920
8 BadParameter|60000/1001|60000 / 1001
8 BadParameter|60000/1001|60000/1001/1
8 BadParameter|BT709|BT 709
8 BadParameter|TCS=SDR|RANGE=full
9 DoubleParameter|width=1920|width=1920; width=1920
9 DoubleParameter|TCS=SDR|TP=SDR
10 MissingParameter|PM=2110GPM; |
11 UnsupportedSampling|sampling=YCbCr-4:2:2|sampling=KEY
12 UnsupportedDepth|depth=10|depth=010
13 Interlaced|TCS=SDR|interlace
13 Interlaced|TCS=SDR|segmented=0
14 UnsupportedPacking|PM=2110GPM|PM=2110BPM
15 BadSsn|SSN=ST2110-20:2017|SSN=2110-20:2017
16 BadFormat|width=1920|width=1921
16 BadFormat|60000/1001|0
12 UnsupportedDepth|depth=10|depth=20
13 Interlaced|width|interlace; width
END
changes 'a second section' "$session$first" "$second" <<'END'
17 LegsDiffer|width=1920|width=1280
17 LegsDiffer|depth=10|depth=12
17 LegsDiffer|BT709|BT2020
17 LegsDiffer|TCS=SDR|RANGE=FULL
17 LegsDiffer|112|113
END
unread 'a third section' "$session$first$second$second" '3 TooManyLegs'
unread 'no text' '' '2 NoVideo'
unread 'a plain RFC 4175 sender' 'm=video 30000 RTP/AVP 112\na=rtpmap:112 raw/90000
a=fmtp:112 sampling=YCbCr-4:2:2; width=1280; height=720; depth=10
' '10 MissingParameter'

# The same text in other letters.
while IFS='|' read -r old new; do
    turn "$camera" "$old" "$new"
    reads "the same: $new for $old" "$turned" "$line"
done <<'END'
\n|\r\n
; |;
raw/90000| RAW/90000\t
RTP/AVP 112|RTP/AVP 0112 \t
a=fmtp:112 |a=fmtp:0112 ;\t;\040
width=1920| width \t= 0000001920
TCS=SDR|RANGE = NARROW
c=IN IP4|a=fmtp:96 width=1
END
turn "$second" 60000/1001 120000/2002
reads 'the same rate' "$session$first$turned" "$line"
reads 'one section' "$second" "$line"
turn "$camera" 'TP=2110TPN; ' 'TP=2110TPN; RANGE=FULL'
reads 'another range' "$turned" "$line; RANGE=FULL"

# Two faults at once: the lower number is told, and of two sections the first one's.
while IFS='|' read -r fault old new other another; do
    turn "$camera" "$old" "$new"
    turn "$turned" "$other" "$another"
    unread "two faults: $new for $old, $another for $other" "$turned" "$fault"
done <<'END'
4 BadMediaLine|5004 RTP|65536 RTP|a=rtpmap:112|a=rtpmap:113
5 NoRtpmap|a=rtpmap:112|a=rtpmap:113|raw/90000|raw/48000
6 NotRaw90000|raw/90000|raw/48000|a=fmtp:112|a=fmtp:113
7 NoFmtp|a=fmtp:112|a=fmtp:113|width=1920|width=
8 BadParameter|width=1920|width=|TCS=SDR|TP=SDR
9 DoubleParameter|TCS=SDR|TP=SDR|PM=2110GPM; |
10 MissingParameter|PM=2110GPM; ||sampling=YCbCr-4:2:2|sampling=KEY
11 UnsupportedSampling|sampling=YCbCr-4:2:2|sampling=KEY|depth=10|depth=9
12 UnsupportedDepth|depth=10|depth=9|TCS=SDR|interlace
13 Interlaced|TCS=SDR|interlace|PM=2110GPM|PM=2110BPM
14 UnsupportedPacking|PM=2110GPM|PM=2110BPM|SSN=ST2110-20:2017|SSN=1
15 BadSsn|SSN=ST2110-20:2017|SSN=1|width=1920|width=1921
END
turn "$first" 5004 x
bad_media=$turned
turn "$second" width=1920 width=1921
bad_width=$turned
turn "$second" width=1920 width=1280
unread 'two faults: a third section and a bad media line' "$bad_media$second$second" '3 TooManyLegs'
unread 'two faults: the second section alone' "$first$bad_width" '16 BadFormat'
unread 'two faults: the first section before the second' "$bad_width$bad_media" '16 BadFormat'
unread 'two faults: a bad media line and sections that differ' "$bad_media$turned" '4 BadMediaLine'

# Canonical lines of each sampling, depth and range, letter for letter: they are said by a text that
# says more, and read back as themselves.
read_back() {
    turn "$said" TCS=SDR "$1"
    reads "$sampling, $depth bits, $1" "$turned" "$canonical$2"
    again="m=video 1 RTP/AVP 112\na=rtpmap:112 raw/90000\n$(cat out)"
    reads "$sampling, $depth bits, $1, read back" "$again" "$canonical$2"
}
end='; colorimetry=BT709; PM=2110GPM; SSN=ST2110-20:2017'
while read -r front; do
    canonical=$front$end
    sampling=${front#*sampling=}
    sampling=${sampling%%;*}
    depth=${front##*depth=}
    turn "$first" YCbCr-4:2:2 "$sampling"
    turn "$turned" depth=10 "depth=$depth"
    said=$turned
    read_back TCS=SDR ''
    read_back RANGE=NARROW ''
    read_back RANGE=FULLPROTECT '; RANGE=FULLPROTECT'
    read_back RANGE=FULL '; RANGE=FULL'
done <<'END'
a=fmtp:112 sampling=YCbCr-4:2:2; width=1920; height=1080; exactframerate=60000/1001; depth=8
a=fmtp:112 sampling=YCbCr-4:2:2; width=1920; height=1080; exactframerate=60000/1001; depth=10
a=fmtp:112 sampling=YCbCr-4:2:2; width=1920; height=1080; exactframerate=60000/1001; depth=12
a=fmtp:112 sampling=YCbCr-4:2:2; width=1920; height=1080; exactframerate=60000/1001; depth=16
a=fmtp:112 sampling=YCbCr-4:4:4; width=1920; height=1080; exactframerate=60000/1001; depth=8
a=fmtp:112 sampling=YCbCr-4:4:4; width=1920; height=1080; exactframerate=60000/1001; depth=10
a=fmtp:112 sampling=YCbCr-4:4:4; width=1920; height=1080; exactframerate=60000/1001; depth=12
a=fmtp:112 sampling=YCbCr-4:4:4; width=1920; height=1080; exactframerate=60000/1001; depth=16
a=fmtp:112 sampling=RGB; width=1920; height=1080; exactframerate=60000/1001; depth=8
a=fmtp:112 sampling=RGB; width=1920; height=1080; exactframerate=60000/1001; depth=10
a=fmtp:112 sampling=RGB; width=1920; height=1080; exactframerate=60000/1001; depth=12
a=fmtp:112 sampling=RGB; width=1920; height=1080; exactframerate=60000/1001; depth=16
END

# The camera's text cut at each octet: the number of octets from which on, up to the next row, it is told so.
printf '%b' "$camera" >camera.sdp
amiss=
cut_at() {
    while [ "$n" -lt "$1" ]; do
        head -c "$n" camera.sdp >in
        told=$("$program" sdp <in 2>&1; echo $?)
        [ "$told" = "$2" ] || amiss="$amiss $n"
        n=$((n + 1))
    done
}
n=0
wanted='st2110: sdp 2 NoVideo
1'
while IFS='|' read -r octets fault; do
    cut_at "$octets" "$wanted"
    case $fault in
        read) wanted="$line
0" ;;
        *) wanted="st2110: sdp $fault
1" ;;
    esac
done <<'END'
84|4 BadMediaLine
98|5 NoRtpmap
136|6 NotRaw90000
145|7 NoFmtp
157|10 MissingParameter
184|8 BadParameter
186|10 MissingParameter
197|8 BadParameter
199|10 MissingParameter
218|8 BadParameter
220|10 MissingParameter
225|8 BadParameter
226|10 MissingParameter
261|8 BadParameter
263|10 MissingParameter
284|15 BadSsn
295|read
336|4 BadMediaLine
350|5 NoRtpmap
388|6 NotRaw90000
397|7 NoFmtp
409|10 MissingParameter
436|8 BadParameter
438|10 MissingParameter
449|8 BadParameter
451|10 MissingParameter
470|8 BadParameter
472|10 MissingParameter
477|8 BadParameter
478|10 MissingParameter
513|8 BadParameter
515|10 MissingParameter
536|15 BadSsn
547|read
END
cut_at 583 "$wanted"
if [ -z "$amiss" ]; then
    pass 'the camera cut at each octet'
else
    fail 'the camera cut at each octet' "another answer at$amiss"
fi

# A text in a file.
run sdp camera.sdp
says 'a text in a file' 0 "$line" ''
"$program" sdp - <camera.sdp >out 2>err
status=$?
says 'a text on standard input, by the name -' 0 "$line" ''
for file in no-such-file .; do
    run sdp "$file"
    says "a text that can't be read: $file" 3 '' 'st2110: device'
done

# Texts that are written, octet for octet, and read again. leg PORT CONNECTION PT ITEMS NAME: the lines of a section.
leg() {
    printf '%s\r\n' "m=video $1 RTP/AVP $3" ${2:+"$2"} "a=rtpmap:$3 raw/90000" "a=fmtp:$3 $4" "a=mid:$5"
}
items='sampling=YCbCr-4:2:2; width=1920; height=1080; exactframerate=60000/1001; depth=10'$end
front() {
    printf '%s\r\n' v=0 'o=- 0 0 IN IP4 127.0.0.1' s=- 't=0 0'
}
# writes NAME PT LEGS WORD..: whether the words have just the text that want.sdp holds, which reads back.
writes() {
    name=$1
    pt=$2
    legs=$3
    shift 3
    run sdp --write "$@"
    cp out written.sdp
    alike "written: $name" written.sdp want.sdp
    run sdp --verbose written.sdp
    says "written, and read: $name" 0 "a=fmtp:$pt $items" "$legs"
}
video='YCbCr-4:2:2 10 1920 1080 60000/1001'
{
    front
    printf 'a=group:DUP A B\r\n'
    leg 5004 'c=IN IP4 239.1.1.1/64' 112 "$items" A
    leg 5006 'c=IN IP4 239.1.1.2/64' 112 "$items" B
} >want.sdp
writes 'two legs' 112 '  path A goes to 239.1.1.1:5004
  path B goes to 239.1.1.2:5006' "$video" --a 239.1.1.1:5004 --b 239.1.1.2:5006 --pt 112
{
    front
    leg 0 'c=IN IP4 192.0.2.7' 96 "$items" A
} >want.sdp
writes 'one leg, not multicast' 96 '  path A goes to 192.0.2.7:0' "$video" --a 192.0.2.7:0
{
    front
    printf 'a=group:DUP A B\r\n'
    leg 65535 'c=IN IP6 ff3e::1' 96 "$items" A
    leg 5004 'c=IN IP4 240.0.0.1' 96 "$items" B
} >want.sdp
writes 'IPv6 and IPv4' 96 '  path A goes to [ff3e::1]:65535
  path B goes to 240.0.0.1:5004' "$video" --a '[FF3E:0::1]:65535' --b 240.0.0.1:05004
items='sampling=RGB; width=4; height=2; exactframerate=60; depth=8'$end
{
    front
    leg 5004 'c=IN IP6 ::ffff:192.0.2.7' 0 "$items" A
} >want.sdp
writes 'a rate not in lowest terms, IPv4 in IPv6' 0 '  path A goes to [::ffff:192.0.2.7]:5004' \
    'RGB 8 4 2 120/2' --a '[::ffff:192.0.2.7]:5004' --pt 0

# Formats that there aren't, and words that aren't of their form: OPTION|VALUE|WANTED.
run sdp --write 'RGB 8 4 2 0/1' --a 10.0.0.1:5004
says 'written: no such format' 1 '' 'st2110: format 3 BadRate'
place='an address, a colon and a port, as 239.1.1.1:5004 or [ff3e::1]:5004'
while IFS='|' read -r option value text; do
    stream='RGB 8 4 2 60'
    a=10.0.0.1:5004
    b=10.0.0.2:5004
    case $option in
        --write*) stream=$value ;;
        --a*) a=$value ;;
        *) b=$value ;;
    esac
    run sdp --write "$stream" --a "$a" --b "$b"
    misworded "written: $option, $value" "invalid value '$value' for '$option': $text" -
done <<END
--write <S B W H N/D>|RGB 9 4 2 60|sampling, depth, width, height and rate, as $video
--write <S B W H N/D>|RGB 8 4 2|sampling, depth, width, height and rate, as $video
--write <S B W H N/D>||sampling, depth, width, height and rate, as $video
--a <ADDR:PORT>|5004|$place
--a <ADDR:PORT>|10.0.0.1|$place
--a <ADDR:PORT>|10.0.0.1:65536|$place
--a <ADDR:PORT>|ff3e::1:5004|$place
--b <ADDR:PORT>|camera.example:5004|$place
--b <ADDR:PORT>|5004|$place
--a <ADDR:PORT>|192.0.2.1>239.1.1.1:5004|$place
--b <ADDR:PORT>|eth0@239.1.1.1:5004|$place
END
