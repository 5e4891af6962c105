# The greatest scripts, datagrams and lists.
# A datagram's line `A HEX` of so many octets, all 0.
long_line() {
    printf 'A '
    zeros $((2 * $1))
    echo
}

# script NAME STATUS OUTPUT FAULTS: of the file `in`.
limit() {
    "$program" "$1" <in >out 2>err
    status=$?
    says "$2" "$3" "$4" "$5"
}

# 65,535 octets are a datagram, which is refused for its version; one more is none.
{ printf '%b\n' "$open"; long_line 65535; } >in
limit trace 'a datagram of 65,535 octets' 0 "refused 2 BadVersion
$blank" ''
{ printf '%b\n' "$open"; long_line 65536; } >in
limit trace 'a datagram of 65,536 octets' 1 '' 'st2110: script 3'

# 46 octets, 127 datagrams of 65,535 octets and one of 65,448 are a script of 16,777,216 octets, of 130 lines.
long_line 65535 >line
printf '%b\n' "$open" >in
refusals='refused 2 BadVersion'
i=0
while [ $i -lt 127 ]; do
    cat line >>in
    refusals="$refusals
refused 2 BadVersion"
    i=$((i + 1))
done
long_line 65448 >>in
if [ "$(wc -c <in)" -ne 16777216 ]; then
    fail 'a script of 16,777,216 octets' 'it has another length'
fi
limit trace 'a script of 16,777,216 octets' 0 "$refusals
$blank" ''
echo >>in
limit trace 'one LF more is a line more' 1 "$refusals" 'st2110: script 131'
{ printf '%b\n' "$open\ncell 900 0 0 0"; printf 'A '; zeros 16782216; } >in
limit trace 'the line that passes the limit is at fault' 1 'missing' 'st2110: script 4'

# The seven lines of `two` and then empty ones: each octet more is a line more, the one past the limit too.
printf '%b\n' "$two" >in
head=$(wc -c <in)
head -c $((16777217 - head)) /dev/zero | tr '\0' '\n' >>in
echo send >>in
limit rehearse 'rehearse: a script of 16,777,217 octets' 1 '' "st2110: script $((7 + 16777217 - head))"

# A text for sdp.
zeros 16777217 >in
limit sdp 'sdp: 16,777,217 octets' 1 '' 'st2110: script 1'
zeros 16777216 >in
limit sdp 'sdp: 16,777,216 octets' 1 '' 'st2110: sdp 2 NoVideo'

# Pictures of one packet each.
pictures 10000 >in
limit rehearse 'rehearse: ten thousand pictures' 0 'receiver 0
frame 0 present 4 missing 0 contested 0' ''
pictures 10001 >in
limit rehearse 'rehearse: ten thousand pictures and one' 1 '' 'st2110: play 5 BadPictures'

# A capture's record of 65,535 octets: refused, and kept, since octets behind the last segment are ignored.
octets 5332304341503031 '00 0000000000000000 FFFF' >refused.cap
head -c 65535 /dev/zero >>refused.cap
run receive --state long.rcv --sdp q.sdp --window 900 --refusals refused.cap
says 'a record of 65,535 octets, refused' 0 "delivered 1
refused 2 BadVersion 1
$blank" '  kept 0 of 1 datagrams; refused 1 (1 BadVersion)'
octets 5332304341503031 '00 0000000000000000 FFFF' "$d1" >kept.cap
head -c 65507 /dev/zero >>kept.cap
run receive --state long.rcv --sdp q.sdp --window 900 --refusals kept.cap
says 'a record of 65,535 octets, kept' 0 "delivered 1
$frame" ''
head -c 65553 kept.cap >cut.cap
run receive --state none.rcv --sdp q.sdp --window 900 cut.cap
says 'a record of 65,535 octets, cut' 1 '' 'st2110: capture 5 Truncated'

# The greatest picture, of 134,217,728 samples.
printf 'format %s\nopen 96 any 900\nA %s\n' 'YCbCr-4:2:2 8 8192 8192 60/1' "$d1" >in
limit trace 'a picture of 8192 by 8192' 0 'kept 1
frame 900 present 8 missing 134217720 contested 0' ''

# More datagrams than a number of 16 bits has values: 131,072, of a picture's two, which make what the two do.
octets "$record_a" "$d1" "$record_b" "$d2" >many.rec
i=0
while [ $i -lt 16 ]; do
    cat many.rec many.rec >twice.rec
    mv twice.rec many.rec
    i=$((i + 1))
done
{ octets 5332304341503031; cat many.rec; } >many.cap
run receive --state many.rcv --sdp q.sdp --window 900 many.cap
says '131,072 datagrams' 0 "delivered 131072
$whole" ''
run receive --state two.rcv --sdp q.sdp --window 900 old.cap second.cap
alike '131,072 datagrams: the receiver' many.rcv two.rcv
rm -f in line refused.cap kept.cap many.rec many.cap
