# receive --window all and first:N: the first timestamps that come. What each writes is what the same timestamps write
# where they are listed.

# rtp TS SSRC TYPE: a record by path A of a datagram of the first row, of this payload type with M.
rtp() {
    printf '%s' "$record_a 80$(printf '%02X' $((128 + $3))) 0000 $(printf '%08X' "$1") $(printf '%08X' "$2")
        0000 0008 0000 0000 $u"
}
# rows TS..: the lines of frames of which the first row came.
rows() {
    for timestamp; do
        printf 'frame %s present 8 missing 8 contested 0\n' "$timestamp"
    done
}

# Timestamps of another payload type, of another source and of what is no RTP come in between; so does one of a datagram
# whose payload is refused, and one that came before.
octets 5332304341503031 "$(rtp 1 1 97)" "$record_a" "40${d1#80}" "$(rtp 2 2 96)" "$(rtp 900 1 96)" "$(rtp 2400 1 96)" \
    "$(rtp 900 1 96)" "$record_a" "80E00001000000050000000100000006000000008010801180128013" "$(rtp 3900 1 96)" >mixed.cap

# first NAME WORD LISTED LINES WORDS..: what a window of the first timestamps prints, and that it writes the receiver of
# these that are listed.
first() {
    window=$1
    word=$2
    listed=$3
    lines=$4
    shift 4
    rm -f first.rcv
    run receive --window "$word" --state first.rcv "$@"
    untold
    says "first timestamps: $window" 0 "$lines" ''
    run receive --window "$listed" --state listed.rcv "$@"
    untold
    says "first timestamps: $window, listed" 0 "$lines" ''
    alike "first timestamps: $window: the receiver" first.rcv listed.rcv
}
first 'all of a source' all 900,2400,5,3900 "delivered 8
$(rows 900 2400)
frame 5 present 0 missing 16 contested 0
$(rows 3900)" --sdp q.sdp --ssrc 1 mixed.cap
first 'all of any source' all 2,900,2400,5,3900 "delivered 8
$(rows 2 900 2400)
frame 5 present 0 missing 16 contested 0
$(rows 3900)" --sdp q.sdp mixed.cap
first 'two' first:2 900,2400 "delivered 8
$(rows 900 2400)" --sdp q.sdp --ssrc 1 mixed.cap
first 'one, by a number with zeros before' first:0001 2 "delivered 8
$(rows 2)" --sdp q.sdp mixed.cap
first 'fewer than are asked for' first:16 900 "delivered 1
$frame" --sdp q.sdp old.cap
first 'the text of the first capture' first:1 900 "delivered 2
$whole" new.cap second.cap

# Files one after the other.
octets 5332304341503031 "$(rtp 2400 1 96)" "$(rtp 900 1 96)" >later.cap
octets 5332304341503031 "$(rtp 900 1 96)" "$(rtp 4294967295 1 96)" "$(rtp 0 1 96)" >wrapped.cap
first 'two captures' first:3 2400,900,4294967295 "delivered 5
$(rows 2400 900 4294967295)" --sdp q.sdp later.cap wrapped.cap
first 'the same in another order' all 900,4294967295,0,2400 "delivered 5
$(rows 900 4294967295 0 2400)" --sdp q.sdp wrapped.cap later.cap
run receive --sdp q.sdp --window first:1 --state none.rcv old.cap no-such-file
says 'first timestamps: no such capture, behind where they are found' 3 '' 'st2110: device'
run receive --sdp q.sdp --window first:2 --state none.rcv old.cap no-such-file
says 'first timestamps: no such capture' 3 '' 'st2110: device'

# More than sixteen.
octets 5332304341503031 >twenty.cap
sixteen=
shown=
i=1
while [ $i -le 20 ]; do
    octets "$(rtp $((7 * i)) 1 96)" >>twenty.cap
    if [ $i -le 16 ]; then
        sixteen=$sixteen,$((7 * i))
        shown="$shown
$(rows $((7 * i)))"
    fi
    i=$((i + 1))
done
first 'sixteen of twenty' all "${sixteen#,}" "delivered 20$shown" --sdp q.sdp twenty.cap
first 'sixteen of twenty, by their number' first:16 "${sixteen#,}" "delivered 20$shown" --sdp q.sdp twenty.cap

# What can be read only once: a pipe by its name and as standard input, before and behind files, and a FIFO. A plain file
# as standard input can be read twice.
# given NAME: whether the last run wrote the receiver that is wanted.
given() {
    untold
    says "first timestamps: $1" 0 "$lines" ''
    alike "first timestamps: $1: the receiver" given.rcv first.rcv
    rm -f given.rcv
}
# piped NAME FILE WORDS..: the same of a run over a pipe that gives a file.
piped() {
    name=$1
    file=$2
    shift 2
    cat "$file" | "$program" receive --state given.rcv "$@" >out 2>err
    status=$?
    given "$name"
}
lines="delivered 8
$(rows 900 2400)"
first 'two, of a file' first:2 900,2400 "$lines" --sdp q.sdp --ssrc 1 mixed.cap
piped 'two, of a pipe' mixed.cap --sdp q.sdp --window first:2 --ssrc 1 -
piped 'two, of a pipe by its name' mixed.cap --sdp q.sdp --window first:2 --ssrc 1 /dev/stdin
"$program" receive --sdp q.sdp --state given.rcv --window first:2 --ssrc 1 - <mixed.cap >out 2>err
status=$?
given 'two, of a file as standard input'
mkfifo fifo.cap
cat mixed.cap >fifo.cap &
run receive --sdp q.sdp --state given.rcv --window first:2 --ssrc 1 fifo.cap
wait
given 'two, of a FIFO'
rm -f fifo.cap
lines="delivered 20$shown"
first 'sixteen, of a file' all "${sixteen#,}" "$lines" --sdp q.sdp twenty.cap
piped 'sixteen, of a pipe' twenty.cap --sdp q.sdp --window all -
lines="delivered 5
$(rows 900 4294967295 0 2400)"
first 'all, of two files' all 900,4294967295,0,2400 "$lines" --sdp q.sdp wrapped.cap later.cap
piped 'all, of a pipe and a file' wrapped.cap --sdp q.sdp --window all - later.cap
piped 'all, of a file and a pipe' later.cap --sdp q.sdp --window all wrapped.cap -
lines="delivered 3
$(rows 900 2400 3900)"
octets "5332304341503032 $q_length" >own.cap
cat q.sdp >>own.cap
octets "$(rtp 900 1 96)" "$(rtp 2400 1 96)" "$(rtp 3900 1 96)" >>own.cap
first 'all, by the text of a file' all 900,2400,3900 "$lines" own.cap
piped 'all, by the text of a pipe' own.cap --window all -

# A recording, also as a pipe.
lines='delivered 6
frame 900 present 128 missing 0 contested 0
frame 4500 present 128 missing 0 contested 0'
first 'a recording' all 900,4500 "$lines" --sdp "$recordings/loopback.sdp" "$recordings/loopback.pcap"
piped 'a recording of a pipe' "$recordings/loopback.pcap" --sdp "$recordings/loopback.sdp" --window all -

# Words that are refused before any file is read.
for word in first: first:0 first:17 first:x first:1,2 first:-1 first:4294967297 First:1 first:1: first 'first: 1' ALL 'all,' 'all ' \
    900,all; do
    run receive --state none.rcv --sdp no-such-file --window "$word" no-such-file
    says "first timestamps: the window '$word'" 1 '' 'st2110: receive 1 BadWindowText'
done
for word in all first:16; do
    run receive --state none.rcv --sdp no-such-file --window "$word" --ssrc x no-such-file
    says "first timestamps: the window $word, and a source that is no number" 1 '' 'st2110: receive 2 BadSource'
done

# None comes, or what is read on the way is refused.
refuses_first() {
    refused=$1
    fault=$2
    shift 2
    rm -f none.rcv
    run receive --state none.rcv --window all "$@"
    says "first timestamps: $refused" 1 '' "st2110: $fault"
    none "first timestamps: $refused: no receiver" none.rcv
}
head -c 85 both.cap >short.cap
refuses_first 'none of a source' 'open 2 BadWindow' --sdp q.sdp --ssrc 7 mixed.cap
octets 5332304341503031 >none.cap
refuses_first 'no records' 'open 2 BadWindow' --sdp q.sdp none.cap
refuses_first 'no SDP' 'receive 4 NoSdp' old.cap
refuses_first 'an empty SDP' 'sdp 2 NoVideo' --sdp empty old.cap
refuses_first 'a capture that is cut' 'capture 5 Truncated' --sdp q.sdp short.cap
refuses_first 'another name' 'capture 3 BadName' --sdp q.sdp old.cap name.cap
refuses_first 'a recording without flows' 'receive 4 NoSdp' "$recordings/loopback.pcap"
refuses_first 'a recording that is cut' 'recording 2 Truncated' --sdp "$recordings/loopback.sdp" "$recordings/cut.pcap"
run receive --sdp q.sdp --window all --state old.cap old.cap
says 'first timestamps: a capture as the receiver' 1 '' 'st2110: receive 5 OutputIsInput'
run receive --sdp q.sdp --window all --state none.rcv .
says 'first timestamps: a folder' 3 '' 'st2110: device'
