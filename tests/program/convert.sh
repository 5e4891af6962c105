# convert: a picture from one form to another. What each form holds of a picture is worked out by hand.

# form FILE HEAD DIGITS: a file of a head, with printf's backslashes, and octets.
form() {
    {
        # shellcheck disable=SC2059
        printf "$2"
        octets "$3"
    } >"$1"
}
# converts NAME FILE WANTED WORDS..: whether these words write a file with the octets of another, and nothing else.
converts() {
    name=$1
    file=$2
    wanted=$3
    shift 3
    rm -f "$file"
    run convert "$@"
    says "convert: $name" 0 '' ''
    alike "convert: $name, the file" "$file" "$wanted"
}

# 4:2:2 at 8 bits, 4 by 2: Cb Y Cr Y in the pgroups, and planes of Y, Cb and Cr in a stream.
packed='4010C011 4112C113 4214C215 4316C317'
planes='1011121314151617 40414243 C0C1C2C3'
octets "5332305049433031 0008000400020000003C00000001 $packed" >c.pic
octets "$packed" >want.raw
form want.y4m 'YUV4MPEG2 W4 H2 F60:1 Ip A1:1 C422\nFRAME\n' "$planes"
converts 'a picture as a stream' c.y4m want.y4m c.pic c.y4m
converts 'a stream as a picture' back.pic c.pic want.y4m back.pic
converts 'a picture as pgroups' c.raw want.raw c.pic c.raw
converts 'a stream as pgroups' s.raw want.raw want.y4m s.raw
converts 'a picture as itself' same.pic c.pic c.pic same.pic
converts 'a stream as itself' same.y4m want.y4m want.y4m same.y4m
converts 'a form that is named' named.pic want.y4m --as y4m c.pic named.pic
cp want.y4m c.dat
converts 'a form of what is read' dat.pic c.pic --from y4m c.dat dat.pic
cp c.pic pic.y4m
converts 'other forms than the endings' pic.raw c.pic --from picture --as picture pic.y4m pic.raw

# Of 10 bits a stream has two octets for a sample, the low one first: Cb 155, Y 040, Cr 2AA, Y 3AC.
octets '5332305049433031 000A000200010000EA60000003E9 55440AABAC' >ten.pic
form want.y4m 'YUV4MPEG2 W2 H1 F60000:1001 Ip A1:1 C422p10\nFRAME\n' '4000AC03 5501 AA02'
converts '10 bits as a stream' ten.y4m want.y4m ten.pic ten.y4m
converts '10 bits as a picture' back.pic ten.pic ten.y4m back.pic
# 4:4:4 at 8 bits.
octets '5332305049433031 0108000200010000001900000001 401080 411181' >full.pic
form want.y4m 'YUV4MPEG2 W2 H1 F25:1 Ip A1:1 C444\nFRAME\n' '1011 4041 8081'
converts '4:4:4 as a stream' full.y4m want.y4m full.pic full.y4m
converts '4:4:4 as a picture' back.pic full.pic full.y4m back.pic

# RGB: a pixmap has the samples as the pgroups of 8 and 16 bits do, and no rate: 25/1 is 19 and 1.
pixels='010203 040506 070809 0A0B0C'
octets "5332305049433031 0208000200020000001900000001 $pixels" >r.pic
form want.ppm 'P6\n2 2\n255\n' "$pixels"
converts 'a picture as a pixmap' r.ppm want.ppm r.pic r.ppm
converts 'a pixmap as a picture' back.pic r.pic r.ppm back.pic
octets "$pixels" >want.raw
converts 'a pixmap as pgroups' r.raw want.raw r.ppm r.raw
octets "5332305049433031 020800020002 0000EA60 000003E9 $pixels" >want.pic
converts 'a rate' rate.pic want.pic --rate 60000/1001 r.ppm rate.pic
octets "5332305049433031 020800020002 00000032 00000001 $pixels" >want.pic
converts 'a rate in other terms' rate.pic want.pic --rate 100/2 r.ppm rate.pic
octets "5332305049433031 0210000200010000001900000001 $pixels" >sixteen.pic
form want.ppm 'P6\n2 1\n65535\n' "$pixels"
converts '16 bits as a pixmap' sixteen.ppm want.ppm sixteen.pic sixteen.ppm
converts '16 bits as a picture' back.pic sixteen.pic sixteen.ppm back.pic
# What is behind a pixmap is not read, and of its head comments say nothing.
form more.ppm 'P6 # two by two\n2 2\n255\n' "$pixels 50360A"
converts 'a pixmap, and more' back.pic r.pic more.ppm back.pic

# Of a stream of three pictures each, and nothing behind it: the fourth is no frame.
{
    form head.y4m 'YUV4MPEG2 W4 H2 F60:1 C422\n' ''
    form first 'FRAME\n' '2021222324252627 50515253 60616263'
    form second 'FRAME Ip XNOTHING\n' "$planes"
    form third 'FRAME\n' '3031323334353637 70717273 90919293'
    form fourth 'FRAMES\n' "$planes"
    cat head.y4m first second third fourth >many.y4m
    cat head.y4m first second third >three.y4m
}
octets '5332305049433031 0008000400020000003C00000001 50206021 51226123 52246225 53266327' >first.pic
octets '5332305049433031 0008000400020000003C00000001 70309031 71329133 72349235 73369337' >third.pic
converts 'the first' nth.pic first.pic many.y4m nth.pic
converts 'the first, by its place' nth.pic first.pic --nth 0 many.y4m nth.pic
converts 'the second' nth.pic c.pic --nth 1 many.y4m nth.pic
converts 'the third' nth.pic third.pic --nth 2 many.y4m nth.pic

# Standard input and output.
"$program" convert - - <c.pic >out 2>err
status=$?
mv out both.pic
: >out
says 'convert: standard input and output' 0 '' ''
alike 'convert: standard input and output, the file' both.pic c.pic
"$program" convert --from y4m --as raw - - <c.y4m >out 2>err
status=$?
mv out both.raw
: >out
says 'convert: their forms' 0 '' ''
holds 'convert: their forms, the file' both.raw "$packed"
cp c.pic self.pic
"$program" convert - self.pic <self.pic >out 2>err
status=$?
says 'convert: standard input is the output' 1 '' 'st2110: convert 2 OutputIsInput'
alike 'convert: standard input is the output, the file' self.pic c.pic

# Refusals, and nothing is written: FAULT|WORDS.
rm -f no.*
octets '5332305049433031 0008000400020000003C00000001 4010' >cut.pic
octets "5332305049433031 0008000400020000003C00000001 $packed 00" >long.pic
form width.y4m 'YUV4MPEG2 H2 F60:1 C422\n' ''
form yellow.y4m 'YUV4MPEG2 W4 H2 F60:1 C420\n' ''
form fields.y4m 'YUV4MPEG2 W4 H2 F60:1 It C422\n' ''
form odd.y4m 'YUV4MPEG2 W3 H2 F60:1 C422\n' ''
form large.y4m 'YUV4MPEG2 W2 H1 F60:1 C422p10\nFRAME\n' '0004AC03 5501 AA02'
form cut.y4m 'YUV4MPEG2 W4 H2 F60:1 C422\nFRAME\n' 1011
form most.ppm 'P6\n2 2\n15\n' "$pixels"
form thin.ppm 'P6\n1 4\n255\n' "$pixels"
form cut.ppm 'P6\n2 2\n255\n' 010203
form large.ppm 'P6\n4 1\n1023\n' "0400 $(zeros 44)"
form words.ppm 'P6\ntwo 2\n255\n' "$pixels"
ln -s self.pic link.pic
while IFS='|' read -r fault words; do
    # shellcheck disable=SC2086
    run convert $words
    says "convert $words" 1 '' "st2110: $fault"
done <<'END'
convert 2 OutputIsInput|self.pic self.pic
convert 2 OutputIsInput|--from ppm --as raw self.pic link.pic
convert 2 OutputIsInput|cut.pic ./cut.pic
picture 3 BadName|--from picture c.y4m no.pic
picture 3 BadName|c.raw no.pic
picture 5 Truncated|cut.pic no.ppm
picture 5 Truncated|empty no.pic
picture 7 TrailingBytes|long.pic no.pic
form 3 BadMagic|--from y4m c.pic no.pic
form 3 BadMagic|--from ppm c.y4m no.pic
form 4 BadHeader|width.y4m no.pic
form 4 BadHeader|--nth 3 many.y4m no.pic
form 4 BadHeader|words.ppm no.pic
form 5 UnsupportedForm|yellow.y4m no.pic
form 5 UnsupportedForm|fields.y4m no.ppm
form 5 UnsupportedForm|most.ppm no.pic
form 6 BadFormat|odd.y4m no.pic
form 6 BadFormat|thin.ppm no.pic
form 7 Truncated|cut.y4m no.pic
form 7 Truncated|head.y4m no.pic
form 7 Truncated|--nth 3 three.y4m no.pic
form 7 Truncated|--nth 18446744073709551615 three.y4m no.pic
form 7 Truncated|cut.ppm no.y4m
form 7 Truncated|--from y4m empty no.pic
form 8 ValueTooLarge|large.y4m no.pic
form 8 ValueTooLarge|large.ppm no.pic
convert 1 WrongForm|r.pic no.y4m
convert 1 WrongForm|r.ppm no.y4m
convert 1 WrongForm|c.pic no.ppm
convert 1 WrongForm|--as ppm --nth 1 many.y4m no.pic
convert 1 WrongForm|--as y4m r.pic -
END
for file in no.pic no.ppm no.y4m; do
    none "convert: nothing is written, $file" "$file"
    none "convert: nothing stays, $file" "$file.partial"
done
alike 'convert: what is read stays' self.pic c.pic
cp c.pic keep.y4m
run convert r.pic keep.y4m
says 'convert: a file that is not replaced' 1 '' 'st2110: convert 1 WrongForm'
alike 'convert: a file that is not replaced, the file' keep.y4m c.pic
run convert no-such-file no.pic
says 'convert: a file that is not there' 3 '' 'st2110: device'
run convert c.pic no-folder/no.pic
says 'convert: no folder' 3 '' 'st2110: device'
run convert c.pic /dev/full
says 'convert: a full file' 3 '' 'st2110: device'

# Heads of pixmaps of each depth: white space and comments say nothing, and stand in a number too. What is read so is written
# with the plain head. Samples are 1 to 12, with an octet above them where there are two. Rows HIGH|HEAD|OTHER HEAD.
while IFS='|' read -r high head other; do
    samples=
    for sample in 01 02 03 04 05 06 07 08 09 0A 0B 0C; do samples="$samples $high$sample"; done
    form want.ppm "$head" "$samples"
    form other.ppm "$other" "$samples"
    converts "a pixmap of $head" again.ppm want.ppm want.ppm again.ppm
    converts "a pixmap of $other" again.ppm want.ppm other.ppm again.ppm
done <<'END'
|P6\n4 1\n255\n|P6 4 1 255 
02|P6\n4 1\n1023\n|P6\n# by hand\n4\t1\n1023\n
0E|P6\n4 1\n4095\n|P6#a comment\r\n 4 \n\n 1 #one\n#two\n 4095\n
FF|P6\n4 1\n65535\n|P6\n0000004 01\n65#in a number\r535#behind it\n\t
END
# Faults of pixmaps and of streams, the first of each: FAULT|FORM|HEAD|DIGITS.
while IFS='|' read -r fault kind head digits; do
    form bad.dat "$head" "$digits"
    run convert --from "$kind" bad.dat no.pic
    says "convert $kind: $head" 1 '' "st2110: form $fault"
done <<'END'
7 Truncated|ppm|P|
3 BadMagic|ppm|P5 4 1 255 |
4 BadHeader|ppm|P64 1 255 |
4 BadHeader|ppm|P6#\n4 1 255 |
4 BadHeader|ppm|P6\0134 1 255 |
7 Truncated|ppm|P6 4 1 #255 |
4 BadHeader|ppm|P6 4x1 255 |
4 BadHeader|ppm|P6 123456 1 255 |
7 Truncated|ppm|P6 4 1 255|
5 UnsupportedForm|ppm|P6 4 1 254 |
6 BadFormat|ppm|P6 3 1 255 |
8 ValueTooLarge|ppm|P6 4 1 1023 |03FF04000000000000000000000000000000000000000000
7 Truncated|y4m|YUV4MPEG|
3 BadMagic|y4m|YUV4MPEG3 W4|
7 Truncated|y4m|YUV4MPEG2 W4 H1 F25:1 C422|
4 BadHeader|y4m|YUV4MPEG2 H1 F25:1 C422\n|
4 BadHeader|y4m|YUV4MPEG2 W4 H1 F25 C422\n|
5 UnsupportedForm|y4m|YUV4MPEG2 W4 H1 F25:1 It C422\n|
5 UnsupportedForm|y4m|YUV4MPEG2 W4 H1 F25:1 Ip A1:1\n|
5 UnsupportedForm|y4m|YUV4MPEG2 W4 H1 F25:1 C420jpeg\n|
6 BadFormat|y4m|YUV4MPEG2 W4 H1 F0:0 C422\n|
7 Truncated|y4m|YUV4MPEG2 W4 H1 F25:1 C422\nFRAM|
4 BadHeader|y4m|YUV4MPEG2 W4 H1 F25:1 C422\nFRAMES|
8 ValueTooLarge|y4m|YUV4MPEG2 W2 H1 F25:1 C422p10\nFRAME\n|FF03000400000000
END
# Files cut at each octet, of which nothing is written; so of a receiver's file and of a picture that is held.
# cut_at_each NAME FILE WORDS..: whether each part of a file is refused, as the file cut.dat.
cut_at_each() {
    name=$1
    whole_file=$2
    shift 2
    size=$(wc -c <"$whole_file")
    length=0
    wrong=
    while [ "$length" -lt "$size" ]; do
        head -c "$length" "$whole_file" >cut.dat
        run "$@"
        [ "$status" = 1 ] || wrong="$wrong $length: status $status;"
        length=$((length + 1))
    done
    if [ -z "$wrong" ] && [ ! -e no.pic ]; then
        pass "convert: cut at each octet: $name"
    else
        fail "convert: cut at each octet: $name" "$wrong"
    fi
}
form want.ppm 'P6\n4 1\n255\n' '010203 040506 070809 0A0B0C'
cut_at_each 'a picture' c.pic convert --from picture cut.dat no.pic
cut_at_each 'a stream' c.y4m convert --from y4m cut.dat no.pic
cut_at_each 'a pixmap' want.ppm convert --from ppm cut.dat no.pic
cut_at_each "a receiver's file" g.rcv picture --ts 900 --out no.pic cut.dat
cut_at_each 'a picture that is held' p.pic picture --ts 900 --hold cut.dat --out no.pic g.rcv
