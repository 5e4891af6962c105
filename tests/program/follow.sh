# follow: every frame of recordings, told as it leaves. Recordings and what they lack are as examples/recordings/README.md
# tells them; what a line says follows from that by hand.

# follows NAME OUTPUT WORDS..: whether follow tells this, and nothing of faults.
follows() {
    name=$1
    output=$2
    shift 2
    run follow "$@"
    says "follow: $name" 0 "$output" ''
}

# A recording for each path, that of B from the third frame on: side by side each frame is whole, in whichever order they are
# named, and with one frame in at a time, for each file gives its datagrams when their turn comes.
four='frame 900 present 128 missing 0 contested 0 late 0
frame 4500 present 128 missing 0 contested 0 late 0
frame 8100 present 128 missing 0 contested 0 late 0
frame 11700 present 128 missing 0 contested 0 late 0
frames 4 kept 14 late 0 far 0 refused 0'
for window in 8 1 16; do
    follows "two paths, window $window" "$four" --sdp "$recordings/late.sdp" --window $window \
        "$recordings/late-a.pcap" "$recordings/late-b.pcap"
    follows "two paths exchanged, window $window" "$four" --sdp "$recordings/late.sdp" --window $window \
        "$recordings/late-b.pcap" "$recordings/late-a.pcap"
done
# Where a frame leaves as soon as it is whole, what B has beyond comes late: packet 8 of the third frame, 11 of the fourth.
follows 'two paths, eager' 'frame 900 present 128 missing 0 contested 0 late 0
frame 4500 present 128 missing 0 contested 0 late 0
frame 8100 present 128 missing 0 contested 0 late 0
frame 11700 present 128 missing 0 contested 0 late 1
frames 4 kept 12 late 2 far 0 refused 0' --sdp "$recordings/late.sdp" --eager \
    "$recordings/late-a.pcap" "$recordings/late-b.pcap"
# What comes late so is a repeat, and the pictures are those of frames that leave as they are due, octet for octet.
run follow --sdp "$recordings/late.sdp" --out due.y4m "$recordings/late-a.pcap" "$recordings/late-b.pcap"
run follow --sdp "$recordings/late.sdp" --eager --out early.y4m "$recordings/late-a.pcap" "$recordings/late-b.pcap"
alike 'follow: two paths, eager: the same pictures' early.y4m due.y4m

# Path A alone lacks packet 7 of the third frame and 9 of the fourth, of 48 samples each.
follows 'path A alone' 'frame 900 present 128 missing 0 contested 0 late 0
frame 4500 present 128 missing 0 contested 0 late 0
frame 8100 present 80 missing 48 contested 0 late 0
frame 11700 present 80 missing 48 contested 0 late 0
frames 4 kept 10 late 0 far 0 refused 0' --sdp "$recordings/late.sdp" "$recordings/late-a.pcap"

# Both paths in one recording, in which each one's packets stand in runs: A's two frames, four packets of six each, and then
# B's. Two frames have to be in at once; with one, B's four packets of the first frame come late.
follows 'runs in one recording' 'frame 900 present 1152 missing 0 contested 0 late 0
frame 4500 present 1152 missing 0 contested 0 late 0
frames 2 kept 16 late 0 far 0 refused 0' --sdp "$recordings/two-cards.sdp" --window 2 "$recordings/two-cards.pcapng"
follows 'runs in one recording, a window of one' 'frame 900 present 768 missing 384 contested 0 late 0
frame 4500 present 1152 missing 0 contested 0 late 4
frames 2 kept 12 late 4 far 0 refused 0
late wants window 2' --sdp "$recordings/two-cards.sdp" --window 1 "$recordings/two-cards.pcapng"

# Both paths have one address and port: the first recording is of A.
follows 'one address and port' 'frame 900 present 128 missing 0 contested 0 late 0
frame 4500 present 128 missing 0 contested 0 late 0
frames 2 kept 10 late 0 far 0 refused 0' --sdp "$recordings/alike.sdp" "$recordings/alike-a.pcap" "$recordings/alike-b.pcap"

# Timestamps that go back, so that only late datagrams come: for longer than ten seconds of 90 kHz by their timestamps, which is
# the first packet of the last frame, or exactly so long. And the other way round: too far ahead of the first frame.
# stamped FIRST LAST: late-a.pcap with other timestamps in the packets of its first frame and its last, as stamped.pcap.
stamped() {
    cp "$recordings/late-a.pcap" stamped.pcap
    for place in 86 224 362 1124 1262; do
        digits=$1
        [ "$place" -lt 1000 ] || digits=$2
        {
            head -c "$place" stamped.pcap
            octets "$digits"
            tail -c +"$((place + 5))" stamped.pcap
        } >stamped.part
        mv stamped.part stamped.pcap
    done
}
stamped 001E8804 000DCD35
follows 'timestamps that begin anew' 'frame 2000900 present 128 missing 0 contested 0 late 6
anew 904501
frame 904501 present 32 missing 96 contested 0 late 0
frames 2 kept 4 late 6 far 0 refused 0
late wants window 2' --sdp "$recordings/late.sdp" --window 1 stamped.pcap
stamped 001E8804 000DCD34
follows 'timestamps that lie ten seconds back' 'frame 2000900 present 128 missing 0 contested 0 late 7
frames 1 kept 3 late 7 far 0 refused 0
late wants window 2' --sdp "$recordings/late.sdp" --window 1 stamped.pcap
stamped FFF00000 000DCD35
follows 'timestamps too far ahead' 'frame 4293918720 present 128 missing 0 contested 0 late 0
anew 904501
frame 904501 present 32 missing 96 contested 0 late 0
frames 2 kept 4 late 0 far 6 refused 0' --sdp "$recordings/late.sdp" stamped.pcap

# Pictures of the frames. digits FORM WIDE EACH FILL IS_HELD TEXT..: the digits of the pictures that the payloads of TShark's
# texts have, 8 rows of WIDE octets, EACH a column, as frames of YUV4MPEG2 of 4:2:2 or as portable pixmaps: a sample without an
# octet has its component's of FILL, or where pictures are held that of the picture before.
digits() {
    form=$1
    wide=$2
    each=$3
    fill=$4
    held=$5
    shift 5
    awk -F'\t' -v form="$form" -v wide="$wide" -v each="$each" -v fill="$fill" -v held="$held" '
        function number(text,   value, i) {
            value = 0
            for (i = 1; i <= length(text); i++)
                value = 16 * value + index("0123456789abcdef", substr(text, i, 1)) - 1
            return value
        }
        length($NF) > 40 && $NF ~ /^8[0-9a-f]*$/ {
            said = $NF
            stamp = substr(said, 9, 8)
            if (!(stamp in seen)) {
                seen[stamp] = 1
                stamps[count++] = stamp
            }
            at = 29
            lines = 0
            do {
                size[lines] = number(substr(said, at, 4))
                row[lines] = number(substr(said, at + 4, 4))
                first = number(substr(said, at + 8, 4))
                column[lines++] = first % 32768
                at += 12
            } while (first >= 32768)
            for (i = 0; i < lines; i++)
                for (k = 0; k < size[i]; k++) {
                    sample[stamp, wide * row[i] + each * column[i] + k] = substr(said, at, 2)
                    at += 2
                }
        }
        function component(place) {
            if (form == "ppm") return place % 3 + 1
            return place % 4 == 0 ? 2 : place % 4 == 2 ? 3 : 1
        }
        function every(first, step,   place) {
            for (place = first; place < 8 * wide; place += step) printf "%s", last[place]
        }
        END {
            split(fill, values, " ")
            for (n = 0; n < count; n++) {
                for (place = 0; place < 8 * wide; place++)
                    if ((stamps[n], place) in sample) last[place] = sample[stamps[n], place]
                    else if (!held || n == 0) last[place] = values[component(place)]
                if (form == "ppm") {
                    printf "50360a3820380a3235350a"
                    every(0, 1)
                } else {
                    printf "4652414d450a"
                    every(1, 2)
                    every(0, 4)
                    every(2, 4)
                }
            }
        }' "$@"
}

# pictured NAME FORM WIDE EACH FILL IS_HELD TEXTS: whether pictures.out has these pictures, of YCbCr behind a stream's line.
pictured() {
    {
        [ "$2" = ppm ] || printf 'YUV4MPEG2 W8 H8 F25:1 Ip A1:1 C422\n'
        # shellcheck disable=SC2086
        octets "$(digits "$2" "$3" "$4" "$5" "$6" $7)"
    } >want.pictures
    alike "follow: $1, the pictures" pictures.out want.pictures
    rm -f pictures.out
}
follows 'two paths, with pictures' "$four" --sdp "$recordings/late.sdp" --out pictures.out \
    "$recordings/late-a.pcap" "$recordings/late-b.pcap"
pictured 'two paths' y4m 16 2 '00 00 00' 0 "$recordings/late-a.txt $recordings/late-b.txt"
run follow --sdp "$recordings/late.sdp" --out - "$recordings/late-a.pcap" "$recordings/late-b.pcap"
mv out pictures.out
mv err out
: >err
says 'follow: pictures on standard output, the lines on standard error' 0 "$four" ''
pictured 'standard output' y4m 16 2 '00 00 00' 0 "$recordings/late-a.txt $recordings/late-b.txt"
# Without a fill black, of narrow range; values above the greatest count as that.
run follow --sdp "$recordings/late.sdp" --out pictures.out "$recordings/late-a.pcap"
pictured 'path A alone' y4m 16 2 '10 80 80' 0 "$recordings/late-a.txt"
run follow --sdp "$recordings/late.sdp" --fill 1,2,300 --out pictures.out "$recordings/late-a.pcap"
pictured 'a fill' y4m 16 2 '01 02 ff' 0 "$recordings/late-a.txt"
# The frame before is held, of path B's first one the fill: it lacks packet 6, of its upper rows, and the next one packet 10.
run follow --sdp "$recordings/late.sdp" --hold --out pictures.out "$recordings/late-a.pcap"
pictured 'path A alone, held' y4m 16 2 '10 80 80' 1 "$recordings/late-a.txt"
run follow --sdp "$recordings/late.sdp" --hold --fill 9,8,7 --out pictures.out "$recordings/late-b.pcap"
pictured 'path B alone, held' y4m 16 2 '09 08 07' 1 "$recordings/late-b.txt"
run follow --sdp "$recordings/ipv6.sdp" --out pictures.out "$recordings/ipv6.pcap"
pictured 'pixmaps' ppm 24 3 '00 00 00' 0 "$recordings/ipv6.txt"

# What each frame lacks, as report tells it. Rows have 8 columns, 16 samples, and of a frame's three packets of 48, 48 and 32 path
# A lost the second one of the third frame and the first one of the fourth. What is whole has its line alone.
# lacks NAME TEXT: whether lacks.txt has just this.
lacks() {
    printf '%s\n' "$2" >want.lacks
    alike "follow: $1, the report" lacks.txt want.lacks
    rm -f lacks.txt
}
whole='frame 900 present 128 missing 0 contested 0
frame 4500 present 128 missing 0 contested 0'
lost='frame 8100 present 80 missing 48 contested 0
missing row 3 columns 0 to 7
missing row 4 columns 0 to 7
missing row 5 columns 0 to 7
frame 11700 present 80 missing 48 contested 0
missing row 0 columns 0 to 7
missing row 1 columns 0 to 7
missing row 2 columns 0 to 7'
run follow --sdp "$recordings/late.sdp" --report lacks.txt "$recordings/late-a.pcap"
lacks 'path A alone' "$whole
$lost"
run follow --sdp "$recordings/late.sdp" --report lacks.txt "$recordings/late-a.pcap" "$recordings/late-b.pcap"
lacks 'two paths' "$whole
frame 8100 present 128 missing 0 contested 0
frame 11700 present 128 missing 0 contested 0"
# The first octet of the first packet's samples, which is Cb of row 0 and column 0, is another in a second recording.
other=FF
[ "$(od -An -v -tx1 -j 114 -N 1 "$recordings/late-a.pcap" | tr -d ' ')" != ff ] || other=00
{
    head -c 114 "$recordings/late-a.pcap"
    octets $other
    tail -c +116 "$recordings/late-a.pcap"
} >other.pcap
follows 'two that differ' 'frame 900 present 127 missing 0 contested 1 late 0
frame 4500 present 128 missing 0 contested 0 late 0
frame 8100 present 80 missing 48 contested 0 late 0
frame 11700 present 80 missing 48 contested 0 late 0
frames 4 kept 20 late 0 far 0 refused 0' --sdp "$recordings/late.sdp" --report lacks.txt "$recordings/late-a.pcap" other.pcap
lacks 'two that differ' "frame 900 present 127 missing 0 contested 1
contested row 0 column 0 Cb
frame 4500 present 128 missing 0 contested 0
$lost"
run follow --sdp "$recordings/late.sdp" --report - "$recordings/late-a.pcap"
mv out lacks.txt
mv err out
: >err
says 'follow: a report on standard output, the lines on standard error' 0 'frame 900 present 128 missing 0 contested 0 late 0
frame 4500 present 128 missing 0 contested 0 late 0
frame 8100 present 80 missing 48 contested 0 late 0
frame 11700 present 80 missing 48 contested 0 late 0
frames 4 kept 10 late 0 far 0 refused 0' ''
lacks 'standard output' "$whole
$lost"
run follow --sdp "$recordings/late.sdp" --out pictures.out --report lacks.txt "$recordings/late-a.pcap"
pictured 'with a report' y4m 16 2 '10 80 80' 0 "$recordings/late-a.txt"
lacks 'with pictures' "$whole
$lost"

# Each picture as a file of its own: the head of a picture's file and GStreamer's picture.
# filed NAME FIRST: whether the folder filed has just GStreamer's two pictures, of timestamps from this one on.
filed() {
    stamp=$2
    for part in 1 1153; do
        {
            octets '5332305049433031 0008 0020 0012 00000019 00000001'
            tail -c +$part "$recordings/two-cards.raw" | head -c 1152
        } >want.pic
        alike "follow: $1, the picture of $stamp" filed/$stamp.pic want.pic
        stamp=$((stamp + 3600))
    done
    rm -f filed/$2.pic filed/$(($2 + 3600)).pic
    rmdir filed || fail "follow: $1, the pictures" "more files than two: $(ls filed)"
}
both='frame 900 present 1152 missing 0 contested 0 late 0
frame 4500 present 1152 missing 0 contested 0 late 0
frames 2 kept 16 late 0 far 0 refused 0'
mkdir filed
follows 'pictures as files' "$both" --sdp "$recordings/two-cards.sdp" --pictures filed "$recordings/two-cards.pcapng"
filed 'pictures as files' 900
# One that has the name is replaced, whichever fill there is where nothing is missing; and all three at once.
mkdir filed
printf 'nothing' >filed/900.pic
follows 'all that is written' "$both" --sdp "$recordings/two-cards.sdp" --fill 1,2,3 --pictures filed/ --report lacks.txt \
    --out pictures.out "$recordings/two-cards.pcapng"
filed 'all that is written' 900
lacks 'all that is written' 'frame 900 present 1152 missing 0 contested 0
frame 4500 present 1152 missing 0 contested 0'
rm -f pictures.out
# Where something is missing, the picture is what convert makes of the stream's: of path A alone, filled and held.
for words in '--fill 9,8,7' '--hold'; do
    mkdir filed
    # shellcheck disable=SC2086
    run follow --sdp "$recordings/late.sdp" $words --pictures filed --out pictures.y4m "$recordings/late-a.pcap"
    place=0
    for stamp in 900 4500 8100 11700; do
        run convert --nth $place pictures.y4m want.pic
        alike "follow: path A alone $words, the picture of $stamp" filed/$stamp.pic want.pic
        place=$((place + 1))
    done
    rm -r filed pictures.y4m
done
run follow --sdp "$recordings/late.sdp" --pictures missing "$recordings/late-a.pcap"
says 'follow: pictures into no folder' 3 '' 'st2110: device'
run follow --verbose --sdp "$recordings/late.sdp" --pictures missing "$recordings/late-a.pcap"
says 'follow: verbose: pictures into no folder' 3 '' 'st2110: device
  at missing; wanted to write there: No such file or directory (os error 2)'
none 'follow: no folder is made' missing

# Refusals, in their order: the words, the SDP, the files before their records, and their records. Where a record is at fault
# the frames are not told that were still in.
refuses_follow() {
    name=$1
    fault=$2
    shift 2
    run follow "$@"
    says "follow: refused: $name" 1 '' "st2110: $fault"
}
for window in 0 17 4294967295; do
    refuses_follow "window $window" 'open 2 BadWindow' --window $window --ssrc no --a no missing.pcap
done
refuses_follow 'a source' 'receive 2 BadSource' --ssrc no --a no missing.pcap
refuses_follow 'a flow' 'import 2 BadFlow' --a no missing.pcap
refuses_follow 'no SDP' 'receive 4 NoSdp' "$recordings/late-a.pcap"
refuses_follow 'cut short' 'recording 2 Truncated' --sdp "$recordings/loopback.sdp" "$recordings/cut.pcap"
# The fill's text is looked at behind the other words, and then the place of the file, before the SDP. Where a record is at
# fault no file has the name.
for fill in 1,2 1,2,3,4 1,2,x 65536,0,0; do
    refuses_follow "the fill '$fill'" 'follow 1 BadFill' --sdp missing.sdp --fill "$fill" --out late.copy missing.pcap
done
refuses_follow 'the window before the fill' 'open 2 BadWindow' --window 0 --fill 1,2 missing.pcap
cp "$recordings/late-a.pcap" late.copy
refuses_follow 'the output before the SDP' 'follow 2 OutputIsInput' --sdp missing.sdp --out late.copy late.copy
refuses_follow 'the fill before the output' 'follow 1 BadFill' --fill 1,2 --out late.copy late.copy
refuses_follow 'a report that is read' 'follow 2 OutputIsInput' --sdp missing.sdp --report late.copy late.copy
refuses_follow 'a report beside an output that is read' 'follow 2 OutputIsInput' --sdp missing.sdp --out late.copy \
    --report lacks.txt late.copy
none 'follow: no report is written' lacks.txt
for name in lacks.txt -; do
    run follow --sdp missing.sdp --out $name --report $name late.copy
    misworded "follow: two files by one name, $name" "'--out <FILE>' and '--report <FILE>' both name '$name'" -
done
rm late.copy
refuses_follow 'cut short, with pictures' 'recording 2 Truncated' --sdp "$recordings/loopback.sdp" --out cut.y4m \
    "$recordings/cut.pcap"
none 'follow: no file of pictures has the name' cut.y4m
refuses_follow 'cut short, with a report' 'recording 2 Truncated' --sdp "$recordings/loopback.sdp" --report lacks.txt \
    "$recordings/cut.pcap"
none 'follow: no report has the name' lacks.txt
run follow --sdp "$recordings/late.sdp" --report missing/lacks.txt "$recordings/late-a.pcap"
says 'follow: a report in no folder' 3 '' 'st2110: device'

# What was sent and followed is the pictures' file: of three pictures, of four packets each, by a capture of each path, of
# which A lacks each third packet, and B the ones behind these. A record has 35 octets.
for k in 1 2 3; do
    turn '#0#1#2#3#4#5#6#7#8#9#A#B#C#D#E#F' '#' $k
    octets "5332305049433031 0008000400020000003C00000001 $turned" >"sent$k.pic"
    run convert "sent$k.pic" "sent$k.y4m"
    says "follow: picture $k as a stream" 0 '' ''
done
{
    cat sent1.y4m
    tail -n +2 sent2.y4m
    tail -n +2 sent3.y4m
} >sent.y4m
front=$((10 + $(wc -c <q.sdp)))
for path in a b; do
    run send --out "sent-$path.cap" --sdp q.sdp --base 900 --max 24 --paths $path sent1.pic sent2.pic sent3.pic
    says "follow: sent by $path" 0 'sent 12' ''
    head -c "$front" "sent-$path.cap" >"lossy-$path.cap"
    i=0
    while [ $i -lt 12 ]; do
        case $path$((i % 3)) in
            a1 | b2) ;;
            *) tail -c +$((front + 35 * i + 1)) "sent-$path.cap" | head -c 35 >>"lossy-$path.cap" ;;
        esac
        i=$((i + 1))
    done
done
frames='frame 900 present 16 missing 0 contested 0 late 0
frame 2400 present 16 missing 0 contested 0 late 0
frame 3900 present 16 missing 0 contested 0 late 0
frames 3 kept 16 late 0 far 0 refused 0'
for words in '' '--fill 1,2,3' '--hold' '--window 1'; do
    rm -f followed.y4m
    # shellcheck disable=SC2086
    follows "what was sent by two lossy paths $words" "$frames" $words --out followed.y4m lossy-a.cap lossy-b.cap
    alike "follow: what was sent by two lossy paths $words, the file" followed.y4m sent.y4m
done
rm -f followed.y4m
follows 'what was sent, exchanged' "$frames" --out followed.y4m lossy-b.cap lossy-a.cap
alike 'follow: what was sent, exchanged, the file' followed.y4m sent.y4m
# A picture goes into a pipe whole as its frame leaves: what stands behind the first record of the second is written only when
# the first was read, or given up after 20 seconds.
stream_head=$(head -n 1 sent.y4m | wc -c)
one_picture=$((stream_head + ($(wc -c <sent.y4m) - stream_head) / 3))
mkfifo go
{
    head -c $((front + 5 * 35)) sent-a.cap
    read -r _ <go
    tail -c +$((front + 5 * 35 + 1)) sent-a.cap
} | {
    "$program" follow --eager --out - - 2>err
    echo $? >status
} | {
    timeout 20 head -c "$one_picture" >first.y4m
    echo >go
    cat >rest.y4m
}
rm go
: >out
status=$(cat status)
says 'follow: pictures as they come' 0 '' 'frame 900 present 16 missing 0 contested 0 late 0
frame 2400 present 16 missing 0 contested 0 late 0
frame 3900 present 16 missing 0 contested 0 late 0
frames 3 kept 12 late 0 far 0 refused 0'
head -c "$one_picture" sent.y4m >want.y4m
alike 'follow: pictures as they come, the first' first.y4m want.y4m
tail -c +$((one_picture + 1)) sent.y4m >want.y4m
alike 'follow: pictures as they come, the others' rest.y4m want.y4m
# Nor does one wait that is whole behind one that isn't: where packet 3, of the first picture, comes behind all of the second,
# both go then, and what comes next is written only when both were read.
record() {
    tail -c +$((front + 35 * $1 + 1)) sent-a.cap | head -c 35
}
two_pictures=$((2 * one_picture - stream_head))
mkfifo go
{
    head -c "$front" sent-a.cap
    for k in 0 1 2 4 5 6 7 3; do record $k; done
    read -r _ <go
    for k in 8 9 10 11; do record $k; done
} | {
    "$program" follow --eager --out - - 2>err
    echo $? >status
} | {
    timeout 20 head -c "$two_pictures" >first.y4m
    echo >go
    cat >rest.y4m
}
rm go
: >out
status=$(cat status)
says 'follow: two pictures at once' 0 '' 'frame 900 present 16 missing 0 contested 0 late 0
frame 2400 present 16 missing 0 contested 0 late 0
frame 3900 present 16 missing 0 contested 0 late 0
frames 3 kept 12 late 0 far 0 refused 0'
head -c "$two_pictures" sent.y4m >want.y4m
alike 'follow: two pictures at once, before a pause' first.y4m want.y4m
tail -c +$((two_pictures + 1)) sent.y4m >want.y4m
alike 'follow: two pictures at once, behind it' rest.y4m want.y4m
# Each picture as a file of its own is the one that was sent; and so of forty, each three times the same.
mkdir filed
follows 'what was sent, as files' "$frames" --pictures filed lossy-a.cap lossy-b.cap
alike 'follow: what was sent, as files, the first' filed/900.pic sent1.pic
alike 'follow: what was sent, as files, the second' filed/2400.pic sent2.pic
alike 'follow: what was sent, as files, the last' filed/3900.pic sent3.pic
rm -r filed
mkdir filed
forty=
while [ ${#forty} -lt 400 ]; do forty="$forty sent$((${#forty} / 10 % 3 + 1)).pic"; done
# shellcheck disable=SC2086
run send --out forty.cap --sdp q.sdp --base 900 $forty
run follow --pictures filed forty.cap
i=0
for sent in $forty; do
    cmp -s "filed/$((900 + 1500 * i)).pic" "$sent" || break
    i=$((i + 1))
done
if [ $i = 40 ] && [ "$(find filed -type f | wc -l)" = 40 ]; then
    pass 'follow: forty pictures as files'
else
    fail 'follow: forty pictures as files' "$i are those that were sent, of $(find filed -type f | wc -l): $(head -c 200 err)"
fi
rm -r filed
# By A alone it isn't: of the packets 0 to 11 it lacks 1, 4, 7 and 10.
rm -f followed.y4m
follows 'what was sent, by A alone' 'frame 900 present 12 missing 4 contested 0 late 0
frame 2400 present 8 missing 8 contested 0 late 0
frame 3900 present 12 missing 4 contested 0 late 0
frames 3 kept 8 late 0 far 0 refused 0' --out followed.y4m lossy-a.cap
if cmp -s followed.y4m sent.y4m; then
    fail 'follow: what was sent, by A alone, the file' 'it is that of the pictures'
else
    pass 'follow: what was sent, by A alone, the file'
fi

# Rows of F1's pictures by hand. rows PATH ROW..: the records of rows, each TIMESTAMP.ROW.VALUE in decimal digits, whose packets
# are numbered from 1 on; other PATH DIGITS..: those of datagrams by their digits.
rows() {
    by=$1
    number=0
    shift
    for row; do
        number=$((number + 1))
        value=$(printf '%02X' "${row##*.}")
        row=${row%.*}
        printf '%s 0000000000000000 001C 8060%04X %08X 00000001 0000 0008 %04X 0000 ' "$by" $number "${row%.*}" "${row#*.}"
        printf '%s%s%s%s%s%s%s%s ' "$value" "$value" "$value" "$value" "$value" "$value" "$value" "$value"
    done
}
other() {
    by=$1
    shift
    for digits; do
        printf '%s 0000000000000000 %04X %s ' "$by" $((${#digits} / 2)) "$digits"
    done
}
# told NAME WORDS ROWS_A ROWS_B OUTPUT: whether follow tells this of a capture of rows by A, which has the text, and one by B.
told() {
    name=$1
    words=$2
    # shellcheck disable=SC2086
    octets "5332304341503032 $q_length $q_digits $(rows 00 $3)" >first.cap
    # shellcheck disable=SC2086
    octets "5332304341503032 0000 $(rows 01 $4)" >second.cap
    output=$5
    # shellcheck disable=SC2086
    follows "by hand: $name" "$output" $words first.cap second.cap
}
# Timestamps go round behind the first. A lost a row of the first picture and all of the third, B the other row of the first,
# one of the second, and one of the last; one of the third never came. Side by side one frame at a time is enough.
by_a='4294966296.0.16 500.0.16 500.1.16 3500.0.16 3500.1.16'
by_b='4294966296.1.16 500.0.16 2000.0.16 3500.1.16'
told 'two paths' '--window 1' "$by_a" "$by_b" 'frame 4294966296 present 16 missing 0 contested 0 late 0
frame 500 present 16 missing 0 contested 0 late 0
frame 2000 present 8 missing 8 contested 0 late 0
frame 3500 present 16 missing 0 contested 0 late 0
frames 4 kept 9 late 0 far 0 refused 0'
told 'paths that differ' '' '900.0.16 900.1.16' '900.0.17 900.1.16' 'frame 900 present 8 missing 0 contested 8 late 0
frames 1 kept 4 late 0 far 0 refused 0'
# Upper rows, and behind three of them their lower rows: three frames hold them, of two the first leaves when the third comes,
# and of one each when the next comes.
behind='900.0.16 2400.0.16 3900.0.16 900.1.16 2400.1.16 3900.1.16'
told 'three frames' '--window 3' "$behind" '' 'frame 900 present 16 missing 0 contested 0 late 0
frame 2400 present 16 missing 0 contested 0 late 0
frame 3900 present 16 missing 0 contested 0 late 0
frames 3 kept 6 late 0 far 0 refused 0'
told 'one late' '--window 2' "$behind" '' 'frame 900 present 8 missing 8 contested 0 late 0
frame 2400 present 16 missing 0 contested 0 late 1
frame 3900 present 16 missing 0 contested 0 late 0
frames 3 kept 5 late 1 far 0 refused 0
late wants window 3'
told 'two late' '--window 1' "$behind" '' 'frame 900 present 8 missing 8 contested 0 late 0
frame 2400 present 8 missing 8 contested 0 late 0
frame 3900 present 16 missing 0 contested 0 late 2
frames 3 kept 4 late 2 far 0 refused 0
late wants window 3'
# A frame leaves once it is whole: what the other path has of it comes late, and no window would hold it. Then a second picture
# and a third that are whole before the first is: all leave in the turn in which the first becomes so, and rows of any that come
# again are late. And a whole picture behind one that is due leaves with it.
told early --eager '900.0.16 900.1.16 2400.0.16 2400.1.16' '900.0.16 2400.1.16' \
    'frame 900 present 16 missing 0 contested 0 late 0
frame 2400 present 16 missing 0 contested 0 late 1
frames 2 kept 4 late 2 far 0 refused 0'
told 'early together' --eager \
    '900.0.16 2400.0.16 2400.1.16 3900.1.16 3900.0.16 900.1.16 3900.0.17 900.0.16 5400.0.16' '' \
    'frame 900 present 16 missing 0 contested 0 late 0
frame 2400 present 16 missing 0 contested 0 late 0
frame 3900 present 16 missing 0 contested 0 late 0
frame 5400 present 8 missing 8 contested 0 late 2
frames 4 kept 7 late 2 far 0 refused 0'
told 'early behind' '--eager --window 2' '900.0.16 2400.0.16 2400.1.16 3900.0.16 2400.0.17 3900.1.16' '' \
    'frame 900 present 8 missing 8 contested 0 late 0
frame 2400 present 16 missing 0 contested 0 late 0
frame 3900 present 16 missing 0 contested 0 late 1
frames 3 kept 5 late 1 far 0 refused 0'
# Just ten seconds ahead, and one tick more.
told strays '--window 2' '900.0.16 900901.0.16 900.1.16 900900.0.16' '' 'frame 900 present 16 missing 0 contested 0 late 0
frame 900900 present 8 missing 8 contested 0 late 0
frames 2 kept 3 late 0 far 1 refused 0'
# A sender that begins anew far ahead: what is too far ahead is lost until it lasts for more than ten seconds. And far behind.
told 'anew ahead' '' '900.0.16 2000000.0.16 2900000.0.16 2900001.0.16 2900001.1.16 900.1.16' '' \
    'frame 900 present 8 missing 8 contested 0 late 0
anew 2900001
frame 900 present 8 missing 8 contested 0 late 0
frame 2900001 present 8 missing 8 contested 0 late 0
frames 3 kept 3 late 0 far 3 refused 0'
told 'anew behind' '--window 1' '2000000.0.16 100000.0.16 1000001.0.16 1000001.1.16' '' \
    'frame 2000000 present 8 missing 8 contested 0 late 2
anew 1000001
frame 1000001 present 8 missing 8 contested 0 late 0
frames 2 kept 2 late 2 far 0 refused 0
late wants window 2'
told nothing --eager '' '' 'frames 0 kept 0 late 0 far 0 refused 0'
# Upper rows of 17 pictures, and the lower one of the first: no window holds them. All but as many as the window has have left.
seventeen=
stamp=1000
while [ $stamp -le 25000 ]; do
    seventeen="$seventeen $stamp.0.16"
    stamp=$((stamp + 1500))
done
for window in 16 5 1; do
    lines=
    stamp=1000
    while [ $stamp -le 25000 ]; do
        late=0
        [ $stamp != $((1000 + 1500 * (17 - window))) ] || late=1
        lines="${lines}frame $stamp present 8 missing 8 contested 0 late $late
"
        stamp=$((stamp + 1500))
    done
    told "more than sixteen, window $window" "--window $window" "$seventeen 1000.1.16" '' "${lines}frames 17 kept 17 late 1 far 0 refused 0
late wants more than window 16"
done
# What is of no stream, between the upper rows of two pictures: a sender's report (RFC 3550, 6.4.1) up to its RTP timestamp, which
# read as RTP has payload type 72 and for its timestamp 2^31 - 1; payload type 97 and source 2, 20,000 seconds later; and nothing.
# It steers nothing: both pictures are whole with one frame in at a time. Where any source is taken, source 2 is of the stream: A
# comes to it behind all of B, it is too far ahead, and the upper row of the second picture comes last.
far_row='6B49D584 00000001 0000 0008 0000 0000 1010101010101010'
octets "5332304341503032 0000 $(rows 00 900.0.16)
    $(other 00 80C800067FFFFFFF000000010000000200000003 "$(printf '80610001%s' "$far_row" | tr -d ' ')" \
        "$(printf '80600001%s' "$far_row" | sed 's/00000001/00000002/' | tr -d ' ')" '') $(rows 00 2400.0.16)" >others-a.cap
octets "5332304341503032 0000 $(rows 01 900.1.16 2400.1.16)" >others-b.cap
both='frame 900 present 16 missing 0 contested 0 late 0
frame 2400 present 16 missing 0 contested 0 late 0'
follows 'what is of no stream' "$both
frames 2 kept 4 late 0 far 0 refused 4" --sdp q.sdp --window 1 --ssrc 1 others-a.cap others-b.cap
follows 'what is of no stream, any source' "$both
frames 2 kept 4 late 0 far 1 refused 3" --sdp q.sdp --window 1 others-a.cap others-b.cap
# A recording of both paths, with a packet of TCP in it, and a capture, in either order; the text is given, or the capture's.
packet_head='0000000000000005 00000038 00000038 45000038 00004000 40110000 C0000201 C0000202 138C'
octets "A1B2C3D4 0002 0004 00000000 00000000 00040000 00000065
    $packet_head 138C 0024 0000 8060 0001 00000384 00000001 0000 0008 0000 0000 1010101010101010
    $packet_head 138E 0024 0000 8060 0002 00000384 00000001 0000 0008 0001 0000 1010101010101010
    0000000000000005 00000014 00000014 45000014 00004000 40060000 C0000201 C0000202
    $packet_head 138E 0024 0000 8060 0003 00000960 00000001 0000 0008 0000 0000 1010101010101010" >both.pcap
octets "5332304341503032 $q_length $q_digits $(rows 00 2400.1.16 3900.1.16)" >beside.cap
beside="$both
frame 3900 present 8 missing 8 contested 0 late 0
frames 3 kept 5 late 0 far 0 refused 0"
follows 'a recording beside a capture' "$beside" --sdp q.sdp --a 5004 --b 5006 --window 1 both.pcap beside.cap
follows 'a recording behind a capture' "$beside" --a 5004 --b 5006 --window 1 beside.cap both.pcap
# Three files: the oldest first, of one timestamp those of the first file, each file in its own order, though its last row is
# older than the one before. With one frame in, the row of 500 that A has behind that of 2000 is late.
octets "5332304341503032 $q_length $q_digits $(rows 00 4294966296.0.16 4294966296.1.16 2000.0.16 500.0.16)" >first.cap
octets "5332304341503032 0000 $(rows 01 4294966296.1.17 500.1.16 2000.1.16)" >second.cap
octets "5332304341503032 0000 $(rows 00 500.1.16 3500.0.16)" >third.cap
three='frame 4294966296 present 8 missing 0 contested 8 late 0
frame 500 present 8 missing 8 contested 0 late 0'
follows 'three files' "$three
frame 2000 present 16 missing 0 contested 0 late 1
frame 3500 present 8 missing 8 contested 0 late 0
frames 4 kept 8 late 1 far 0 refused 0
late wants window 2" --window 1 first.cap second.cap third.cap
# The last one cut within its second record: that is wanted once its first went, as the row of 2000 comes.
head -c -1 third.cap >cut.cap
run follow --window 1 first.cap second.cap cut.cap
says 'follow: by hand: three files, of which one is cut' 1 'frame 4294966296 present 8 missing 0 contested 8 late 0' \
    'st2110: capture 5 Truncated'
# A record that is cut ends a run behind what was told before it, wherever its file stands.
octets "5332304341503032 $q_length $q_digits $(rows 00 900.0.16 900.1.16 2400.0.16 2400.1.16)" >whole.cap
octets "5332304341503032 $q_length $q_digits $(rows 01 900.0.16 2400.0.16 2400.1.16)" | head -c -1 >part.cap
for order in 'whole.cap part.cap' 'part.cap whole.cap'; do
    # shellcheck disable=SC2086
    run follow --window 1 $order
    says "follow: by hand: cut behind what was told: $order" 1 'frame 900 present 16 missing 0 contested 0 late 0' \
        'st2110: capture 5 Truncated'
done
# Refusals of files in their order: of what stands before the records, file by file; then the first file's text; then the
# records. Each file has all faults of those behind it, as far as they can be in one.
sound_digits=$(printf 'm=audio 5004 RTP/AVP 97\n' | od -An -v -tx1 | tr -d ' \n')
octets '5332304341513032 0000' >nameless.cap
octets '53323043' >short.cap
octets '5332304341503033' >version.cap
octets '5332304341503032 0000' >silent.cap
octets '5332304341503032 0000 02 0000000000000000 0000' >pathless.cap
octets "5332304341503032 0018 $sound_digits 02 0000000000000000 0000" >sound.cap
octets "$sound_digits" >sound.sdp
octets 'A1B2C3D4 0002' >cut.pcap
while IFS='|' read -r fault words; do
    # shellcheck disable=SC2086
    refuses_follow "by hand: $words" "$fault" $words
done <<'FAULTS'
sdp 2 NoVideo|--sdp sound.sdp nameless.cap nameless.cap
capture 3 BadName|nameless.cap short.cap
capture 5 Truncated|short.cap nameless.cap
capture 4 BadVersion|pathless.cap version.cap
recording 2 Truncated|--a 5004 --sdp q.sdp sound.cap cut.pcap
receive 4 NoSdp|pathless.cap pathless.cap
sdp 2 NoVideo|sound.cap pathless.cap
capture 6 BadField|--sdp q.sdp sound.cap silent.cap
capture 6 BadField|--sdp q.sdp silent.cap pathless.cap
receive 4 NoSdp|--ssrc 1 silent.cap silent.cap
receive 4 NoSdp|--a 5004 both.pcap sound.cap
FAULTS

# An hour's stream by proxy: 100,000 small pictures by two lossy paths, across the wraps of timestamps, packet numbers and
# extended numbers; no row is lost by both. It wants python3, as the kit's rt does. Each picture leaves whole and in order: of a
# file by each path with one frame in, and of one file in which B comes two pictures behind A with three. The memory in which
# four pictures are followed is enough.
cat >hour.py <<'END_OF_HOUR'
import pathlib
import struct

TEXT = pathlib.Path("q.sdp").read_bytes()
FRONT = b"S20CAP02" + struct.pack(">H", len(TEXT)) + TEXT
PICTURES, SKEW = 100000, 2


def stamp(place):
    """1,500 ticks for each picture, from a minute before the wrap on."""
    return (4289567296 + 1500 * place) % 2**32


def value(place, row):
    """The value of each octet of a row: 16 to 235."""
    return 16 + (place + 7 * row) % 220


def is_lost(path, place, row):
    """A loses every fifth picture and half of every third, of which B loses the other half."""
    if path == 0:
        return place % 5 == 1 or (place % 3 == 0 and row == 0)
    return place % 5 != 1 and place % 3 == 0 and row == 1


def record(path, place, row):
    """Numbers go round behind a thousand pictures, and their low half every 32,768 pictures."""
    number = (4294965296 + 2 * place + row) % 2**32
    head = struct.pack(">BQHHHII", path, 0, 28, 0x8060, number % 65536, stamp(place), 1)
    return head + struct.pack(">HHHH", number >> 16, 8, row, 0) + bytes([value(place, row)]) * 8


def records(path, place, count):
    if not 0 <= place < count:
        return []
    return [record(path, place, row) for row in (0, 1) if not is_lost(path, place, row)]


def write(name, count):
    """The captures of so many pictures, and what is told and made of them."""
    sides = [[it for place in range(count) for it in records(path, place, count)] for path in (0, 1)]
    skewed = [
        it for place in range(count + SKEW)
        for it in records(0, place, count) + records(1, place - SKEW, count)
    ]
    for path, side in zip("ab", sides):
        pathlib.Path(f"{name}-{path}.cap").write_bytes(FRONT + b"".join(side))
    pathlib.Path(f"{name}-skewed.cap").write_bytes(FRONT + b"".join(skewed))
    lines = [f"frame {stamp(place)} present 16 missing 0 contested 0 late 0" for place in range(count)]
    lines.append(f"frames {count} kept {len(skewed)} late 0 far 0 refused 0")
    pathlib.Path(f"{name}.told").write_text("".join(line + "\n" for line in lines))
    pictures = [b"YUV4MPEG2 W4 H2 F60:1 Ip A1:1 C422\n"]
    for place in range(count):
        upper, lower = bytes([value(place, 0)]), bytes([value(place, 1)])
        pictures.append(b"FRAME\n" + upper * 4 + lower * 4 + (upper * 2 + lower * 2) * 2)
    pathlib.Path(f"{name}.y4m").write_bytes(b"".join(pictures))


write("hour", PICTURES)
write("four", 4)
END_OF_HOUR
if command -v python3 >python3.path && python3 hour.py 2>hour.err; then
    for words in '--window 1 %-a.cap %-b.cap' '--window 3 %-skewed.cap'; do
        limit=1000
        status=9
        while [ "$status" != 0 ] && [ "$limit" -lt 32000 ]; do
            limit=$((limit + 64))
            turn "$words" % four
            # shellcheck disable=SC2086
            status=$( (ulimit -v "$limit"; "$program" follow --out pictures.y4m $turned >out 2>err </dev/null; echo $?) 2>/dev/null)
        done
        alike "follow: four pictures: $words" out four.told
        turn "$words" % hour
        # shellcheck disable=SC2086
        (ulimit -v $((limit + 128)); exec "$program" follow --out pictures.y4m $turned >out 2>err </dev/null)
        status=$?
        if [ "$status" = 0 ]; then
            pass "follow: an hour: $words: in $limit KiB"
        else
            fail "follow: an hour: $words: in $limit KiB" "status $status: $(head -c 200 err)"
        fi
        cmp -s out hour.told || fail "follow: an hour: $words" "$(diff out hour.told | head -n 4)"
        cmp -s pictures.y4m hour.y4m || fail "follow: an hour: $words: the pictures" "$(cmp pictures.y4m hour.y4m 2>&1)"
        rm -f pictures.y4m
    done
else
    fail 'follow: an hour' "python3: $(cat hour.err 2>&1)"
fi
rm -f hour-a.cap hour-b.cap hour-skewed.cap hour.told hour.y4m
# The folder of pictures is a file.
: >plain
run follow --sdp "$recordings/late.sdp" --pictures plain "$recordings/late-a.pcap"
says 'follow: pictures into a file' 3 '' 'st2110: device'
