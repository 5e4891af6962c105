# picture: a frame of a receiver's file, as a picture's file. What is written is worked out by hand, by docs/FORMATS.md and the
# layouts of YUV4MPEG2 and of portable pixmaps.
#
# Frames of 4 by 2: of the first the luma at the first column is contested, and the second row is missing; of the others, of R,
# G and B, all is missing, or all but one pixel. And frames of 2 by 1 with 10 bits.
octets "$opened 00 00000000 01 00000384 02000280008011 0180128013 0000" >seen.rcv
octets "5332305243563031 02 08000400020000003C00000001 60 00 00000000 01 00000384 0000000000000000" >rgb.rcv
octets "5332305243563031 02 08000400020000003C00000001 60 00 00000000 01 00000384 010A0B0C 00000000000000" >pixel.rcv
octets "5332305243563031 00 0A000200010000003C00000001 60 00 00000000 01 00000384 00" >ten.rcv
octets "5332305243563031 00 0A000200010000003C00000001 60 00 00000000 01 00000384 01 80040803AC" >bright.rcv

# shows_as NAME DIGITS FILE WORDS..: whether a frame is written as these octets, into this file, and nothing is printed.
shows_as() {
    name=$1
    digits=$2
    file=$3
    shift 3
    rm -f "$file"
    run picture --ts 900 --out "$file" "$@"
    says "picture: $name" 0 '' ''
    holds "picture: $name, the file" "$file" "$digits"
}
head='5332305049433031 0008000400020000003C00000001'
stream=$(printf 'YUV4MPEG2 W4 H2 F60:1 Ip A1:1 C422\nFRAME\n' | od -An -v -tx1 | tr -d ' \n')
pixmap=$(printf 'P6\n4 2\n255\n' | od -An -v -tx1 | tr -d ' \n')
black='8010801080108010'
filled='8001801180128013 0201030102010301'
planes='01111213 01010101 8080 0202 8080 0303'

# Each form, by the ending of the file's name and by --as, which comes first.
shows_as 'the own form' "$head $filled" seen.pic --fill 1,2,3 seen.rcv
shows_as 'of any other name' "$head $filled" y4m --fill 1,2,3 seen.rcv
shows_as 'YUV4MPEG2' "$stream $planes" seen.y4m --fill 1,2,3 seen.rcv
shows_as 'packed pgroups' "$filled" seen.raw --fill 1,2,3 seen.rcv
shows_as 'a pixmap' "$pixmap 010203 010203 010203 010203 010203 010203 010203 010203" seen.ppm --fill 1,2,3 rgb.rcv
shows_as 'as y4m' "$stream $planes" as.ppm --as y4m --fill 1,2,3 seen.rcv
shows_as 'as picture' "$head $filled" as.y4m --as picture --fill 1,2,3 seen.rcv
shows_as 'as raw' "$filled" as.pic --as raw --fill 1,2,3 seen.rcv
shows_as 'as ppm' "$pixmap 0A0B0C 010203 010203 010203 010203 010203 010203 010203" as.raw --as ppm --fill 1,2,3 pixel.rcv

# What is missing or contested: black without a fill, by the depth; the held picture's values at their place.
shows_as 'black' "$head $u $black" black.pic seen.rcv
shows_as 'black of 10 bits' '8004080040' black.raw ten.rcv
shows_as 'black of R, G and B' "$pixmap $(printf '%48s' '' | sed 's/  /10/g')" black.ppm rgb.rcv
shows_as 'held' "$head $u $l" held.pic --hold p.pic seen.rcv
shows_as 'held, whatever the fill' "$head $u $l" held.pic --hold p.pic --fill 1,2,3 seen.rcv
run receive --sdp q.sdp --window 901,900 --state whole.rcv old.cap second.cap
shows_as 'whole: as it was sent' "$head $u $l" whole.pic --fill 1,2,3 whole.rcv
run picture --ts 901 --out blank.pic --fill 1,2,3 whole.rcv
holds 'picture: another frame' blank.pic "$head 0201030102010301 0201030102010301"

# With marks: luma as grey, contested red, missing magenta. Neither a fill nor a held picture is looked at.
marks='FF0000 111111 121212 131313 FF00FF FF00FF FF00FF FF00FF'
shows_as 'marked' "$pixmap $marks" marked.ppm --mark seen.rcv
shows_as 'marked, in the own form' "5332305049433031 0208000400020000003C00000001 $marks" marked.pic --mark seen.rcv
shows_as 'marked, packed' "$marks" marked.raw --mark --fill x --hold no-such-file seen.rcv
shows_as 'marked, of R, G and B' "0A0B0C $(printf '%42s' '' | sed 's/      /FF00FF/g')" marked.raw --mark pixel.rcv
shows_as 'marked, of 10 bits' '101010 EBEBEB' marked.raw --mark bright.rcv

# Standard input and output.
"$program" picture --ts 900 --fill 1,2,3 --out piped.pic - <seen.rcv >out 2>err
status=$?
says 'picture: standard input' 0 '' ''
holds 'picture: standard input, the file' piped.pic "$head $filled"
run picture --ts 900 --fill 1,2,3 --as y4m --out - seen.rcv
holds 'picture: standard output' out "$stream $planes"
: >out
says 'picture: standard output, and nothing is told' 0 '' ''

# Refusals, in their order, and nothing is written: FAULT|WORDS.
cp p.pic same.pic
while IFS='|' read -r fault words; do
    # shellcheck disable=SC2086
    run picture $words
    says "picture $words" 1 '' "st2110: $fault"
done <<'END'
frame 2 BadFill|--ts 900 --fill 1,2 --out g.rcv --hold no-such-file g.rcv
frame 2 BadFill|--ts 900 --fill 1,2,3,4 --out r.pic no-such-file
frame 2 BadFill|--ts 900 --fill 65536,0,0 --out r.pic no-such-file
frame 2 BadFill|--ts 900 --fill x --out r.pic no-such-file
frame 5 OutputIsInput|--ts 900 --out g.rcv g.rcv
frame 5 OutputIsInput|--ts 900 --out same.pic --hold same.pic no-such-file
state 5 Truncated|--ts 901 --out r.pic --hold empty empty
state 3 BadName|--ts 900 --out r.pic p.pic
picture 5 Truncated|--ts 901 --out r.pic --hold empty g.rcv
picture 3 BadName|--ts 901 --out r.pic --hold g.rcv g.rcv
frame 1 NoFrame|--ts 901 --fill 256,0,0 --out r.pic --hold row.pic g.rcv
frame 1 NoFrame|--ts 901 --mark --out r.y4m g.rcv
frame 2 BadFill|--ts 900 --fill 256,0,0 --out r.pic --hold row.pic g.rcv
frame 2 BadFill|--ts 900 --fill 0,0,256 --out r.ppm g.rcv
frame 3 HoldDiffers|--ts 900 --fill 255,0,0 --out r.ppm --hold row.pic g.rcv
frame 4 WrongForm|--ts 900 --out r.ppm --hold p.pic g.rcv
frame 4 WrongForm|--ts 900 --out r.pic --as ppm g.rcv
frame 4 WrongForm|--ts 900 --out r.y4m rgb.rcv
frame 4 WrongForm|--ts 900 --out r.y4m --mark g.rcv
END
for file in r.pic r.ppm r.y4m r.pic.partial; do
    none 'picture: nothing is written after a refusal' "$file"
done
alike 'picture: what is read stays' same.pic p.pic

# Devices that fail.
while read -r words; do
    # shellcheck disable=SC2086
    run picture --ts 900 $words
    says "picture $words" 3 '' 'st2110: device'
done <<'END'
--out r.pic no-such-file
--out r.pic .
--out r.pic --hold no-such-file g.rcv
--out no-such-folder/r.pic g.rcv
--out /dev/full g.rcv
END
none 'picture: nothing is written where a file is not there' r.pic
"$program" picture --ts 900 --out - g.rcv >/dev/full 2>err </dev/null
status=$?
: >out
says 'picture: a full output' 3 '' 'st2110: device'

# The README's first page, of two cards' recording: by path A alone 6 of 18 rows of 32 columns are missing, and magenta.
run receive --sdp "$recordings/two-cards.sdp" --a 5004 --window 900 --state a.rcv "$recordings/two-cards.pcapng"
run picture --ts 900 --mark --out a.ppm a.rcv
says 'the README: a picture with marks' 0 '' ''
magenta=$(tail -c $((3 * 32 * 18)) a.ppm | od -An -v -tx1 -w3 | grep -n 'ff 00 ff' | cut -d : -f 1)
if [ "$(head -n 2 a.ppm)" = "$(printf 'P6\n32 18')" ] && [ "$magenta" = "$(seq 193 288; seq 481 576)" ]; then
    pass 'the README: the rows that are missing'
else
    fail 'the README: the rows that are missing' "$(head -n 2 a.ppm) and $magenta"
fi
