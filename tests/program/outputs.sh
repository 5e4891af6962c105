# What a command writes: it takes its name once it is whole, and what stood there stands there until then.
examples=$root/examples
recordings=$examples/recordings
mkdir outputs && cd outputs || exit 125
cp "$examples/path-a.cap" a.cap
cp "$examples/four-by-two.pic" p.pic
cp "$examples/four-by-two.sdp" s.sdp
cp "$examples/one-record-01.cap" old.cap
cp "$recordings/alike-a.pcap" alike.pcap
cp "$recordings/alike.sdp" alike.sdp
run receive --window 900 --state one.rcv a.cap
run send --base 900 --max 40 --out sent.cap p.pic
run export --a 239.1.1.1:5004 --out sent.pcap sent.cap
run process --job gain:4096 --ts 900 --fill 16,128,128 --out gained.cap one.rcv
printf 'what stood there\n' >stood

# kept NAME FILE: whether a file has what stood there.
kept() {
    alike "$1: what stood there stands there" "$2" stood
}
# only NAME FILE..: whether no other files lie here whose name begins as that of the first.
only() {
    name=$1
    shift
    want=$(printf '%s\n' "$@")
    found=$(printf '%s\n' "${1%%.*}".*)
    if [ "$found" = "$want" ]; then
        pass "$name"
    else
        fail "$name" "there are $(echo "$found" | tr '\n' ' ')"
    fi
}

# ---- an output that is an input

# input FAULT FILE COMMAND..: whether a command is refused whose output, OUT, is the file that it reads, by the file's own
# name, by a link and by a second name.
input() {
    fault=$1
    file=$2
    shift 2
    cp "$file" before
    ln -s "$file" link.out
    ln "$file" second.out
    for out in "$file" "./$file" link.out second.out; do
        words=
        for word in "$@"; do
            [ "$word" = OUT ] && word=$out
            words="$words $word"
        done
        # shellcheck disable=SC2086
        run $words
        says "$1, its output is $out, which it reads" 1 '' "st2110: $fault OutputIsInput"
        alike "$1, $out is as it was" "$file" before
    done
    rm -f link.out second.out before
}
input 'migrate 2' old.cap migrate --sdp s.sdp --out OUT old.cap
input 'migrate 2' s.sdp migrate --sdp s.sdp --out OUT old.cap
input 'send 4' p.pic send --out OUT p.pic
input 'send 4' p.pic send --sdp s.sdp --base 900 --max 40 --out OUT "$examples/four-by-two.pic" p.pic
input 'send 4' s.sdp send --sdp s.sdp --base 900 --max 40 --out OUT p.pic
input 'receive 5' a.cap receive --window 900 --state OUT a.cap
input 'receive 5' a.cap receive --window 900 --state OUT sent.cap a.cap
input 'receive 5' s.sdp receive --sdp s.sdp --window 900 --state OUT a.cap
input 'receive 5' alike.pcap receive --sdp alike.sdp --window 900 --state OUT alike.pcap
input 'process 5' one.rcv process --job gain:4096 --ts 900 --fill 16,128,128 --out OUT one.rcv
input 'process 5' p.pic process --job key --ts 900 --fill 16,128,128 --hold p.pic --out OUT one.rcv one.rcv
input 'frame 5' one.rcv picture --ts 900 --out OUT one.rcv
input 'frame 5' p.pic picture --ts 900 --hold p.pic --out OUT one.rcv
input 'import 5' alike.pcap import --sdp alike.sdp --out OUT alike.pcap
input 'import 5' alike.sdp import --sdp alike.sdp --out OUT alike.pcap
input 'import 5' a.cap import --sdp alike.sdp --out OUT alike.pcap a.cap
input 'follow 2' alike.pcap follow --sdp alike.sdp --out OUT alike.pcap
input 'follow 2' alike.sdp follow --sdp alike.sdp --out OUT alike.pcap
input 'follow 2' alike.pcap follow --sdp alike.sdp --report OUT alike.pcap
input 'export 2' sent.cap export --a 239.1.1.1:5004 --out OUT sent.cap
"$program" receive --window 900 --state a.cap - <a.cap >out 2>err
status=$?
says 'receive, its output is standard input' 1 '' 'st2110: receive 5 OutputIsInput'
alike 'receive, standard input is as it was' a.cap "$examples/path-a.cap"

# Own refusals of words come before it, those of files behind it, and no file is waited for.
run process --job none --ts 900 --fill 16,128,128 --out one.rcv one.rcv
says 'process: the job is refused before the output' 1 '' 'st2110: process 1 BadJob'
run export --a x --out sent.cap sent.cap
says 'export: the words are refused before the output' 1 '' 'st2110: export 1 BadFlow'
run receive --window x --state a.cap a.cap
says 'receive: the window is refused before the output' 1 '' 'st2110: receive 1 BadWindowText'
mkfifo never
timeout 30 "$program" send --sdp never --out p.pic never p.pic >out 2>err </dev/null
status=$?
says 'send: the output is refused before any file is read' 1 '' 'st2110: send 4 OutputIsInput'
rm never
run send --out p.pic no-such-file p.pic
says 'send: the output is refused before a file that is missing' 1 '' 'st2110: send 4 OutputIsInput'

# merge may write what it reads.
cp one.rcv two.rcv
run merge --state merged.rcv one.rcv two.rcv
run merge --state one.rcv one.rcv two.rcv
says 'merge: the output is the left' 0 'frame 900 present 12 missing 4 contested 0' ''
alike 'merge: the output is the left: the receiver' one.rcv merged.rcv
run merge --state one.rcv two.rcv one.rcv
alike 'merge: the output is the right: the receiver' one.rcv merged.rcv
cp two.rcv one.rcv

# ---- whole, or what stood there

# replaces NAME FILE COMMAND..: whether a command that ends well replaces what stood under the name of its output, new.out,
# by just this file, and leaves nothing beside it.
replaces() {
    what=$1
    file=$2
    shift 2
    rm -f new.out*
    cp stood new.out
    chmod 640 new.out
    run "$@"
    alike "$what" new.out "$file"
    only "$what: nothing lies beside it" new.out
    mode=$(ls -l new.out | cut -c1-10)
    if [ "$mode" = -rw-r----- ]; then
        pass "$what: the permissions stay"
    else
        fail "$what: the permissions stay" "$mode"
    fi
    rm -f new.out
    run "$@"
    alike "$what, where nothing stood" new.out "$file"
    only "$what, where nothing stood: nothing lies beside it" new.out
}
replaces send sent.cap send --base 900 --max 40 --out new.out p.pic
replaces receive one.rcv receive --window 900 --state new.out a.cap
replaces merge merged.rcv merge --state new.out one.rcv two.rcv
replaces process gained.cap process --job gain:4096 --ts 900 --fill 16,128,128 --out new.out one.rcv
run picture --ts 900 --out shown.y4m one.rcv
replaces picture shown.y4m picture --ts 900 --as y4m --out new.out one.rcv
replaces export sent.pcap export --a 239.1.1.1:5004 --out new.out sent.cap

# leaves NAME STATUS FAULT PARTIAL COMMAND..: whether a command that fails leaves what stood under the name of its output,
# new.out, and beside it just what it wrote, if that is sound.
leaves() {
    what=$1
    ended=$2
    fault=$3
    partial=$4
    shift 4
    rm -f new.out*
    cp stood new.out
    run "$@"
    says "$what" "$ended" '' "st2110: $fault"
    kept "$what" new.out
    if [ "$partial" = stays ]; then
        only "$what: what was written lies beside it" new.out new.out.partial
    else
        only "$what: nothing lies beside it" new.out
    fi
}
head -c 30 p.pic >cut.pic
head -c 220 a.cap >cut.cap
head -c 30 one.rcv >cut.rcv
head -c 40 old.cap >cut-old.cap
leaves 'send, the second picture ends early' 1 'picture 5 Truncated' stays \
    send --base 900 --max 40 --out new.out p.pic cut.pic
leaves 'send, the first picture ends early' 1 'picture 5 Truncated' goes send --out new.out cut.pic
leaves 'send, a picture is missing' 3 device stays send --base 900 --max 40 --out new.out p.pic no-such-file
leaves 'receive, a capture ends early' 1 'capture 5 Truncated' goes receive --window 900 --state new.out cut.cap
leaves 'merge, a receiver ends early' 1 'state 5 Truncated' goes merge --state new.out one.rcv cut.rcv
leaves 'process, a receiver ends early' 1 'state 5 Truncated' goes \
    process --job gain:4096 --ts 900 --fill 16,128,128 --out new.out cut.rcv
leaves 'picture, a receiver ends early' 1 'state 5 Truncated' goes picture --ts 900 --out new.out cut.rcv
leaves 'migrate, a capture ends early' 1 'capture 5 Truncated' stays migrate --sdp s.sdp --out new.out cut-old.cap
leaves 'export, a capture ends early' 1 'capture 5 Truncated' stays \
    export --a 239.1.1.1:5004 --out new.out cut.cap

# What is written of a capture is sound up to its last whole record.
rm -f new.out*
run send --base 900 --max 40 --out new.out p.pic cut.pic
alike 'what stays of a capture: the records before the fault' new.out.partial sent.cap

# The second line says where it stays; a name that is taken is left alone.
cp stood new.out.partial-2
run -v send --base 900 --max 40 --out new.out p.pic cut.pic
says 'what stays is told' 1 '' "st2110: picture 5 Truncated
  at cut.pic, octet 30; wanted more octets: the file ends before it is whole; what was written stays as new.out.partial-3"
kept 'a name that is taken' new.out.partial-2
alike 'under a third name' new.out.partial-3 sent.cap
rm -f new.out*

# Standard output is full: what was to be written does not take its name.
for words in 'send --base 900 --max 40 --out new.out p.pic' 'receive --window 900 --state new.out a.cap' \
    'merge --state new.out one.rcv two.rcv'; do
    rm -f new.out*
    cp stood new.out
    # shellcheck disable=SC2086
    "$program" $words >/dev/full 2>err
    status=$?
    : >out
    says "$words, standard output is full" 3 '' 'st2110: device'
    kept "$words, standard output is full" new.out
done

# The limit of a file's size is reached, and a disk is full, where one can be mounted.
awk 'BEGIN { for (i = 0; i < 2000; i++) print "p.pic" }' | tr '\n' ' ' >many
rm -f new.out*
cp stood new.out
# shellcheck disable=SC2046
(trap '' XFSZ && ulimit -f 1 && exec "$program" send --base 900 --max 40 --out new.out $(cat many)) >out 2>err
status=$?
says 'send, a file may not be so large' 3 'sent 4000' 'st2110: device'
kept 'send, a file may not be so large' new.out
only 'send, a file may not be so large: what was written lies beside it' new.out new.out.partial
rm -f new.out*
mkdir full
if mount -t tmpfs -o size=64k st2110-test full 2>/dev/null; then
    cp stood full/new.out
    # shellcheck disable=SC2046
    run send --base 900 --max 40 --out full/new.out $(cat many)
    says 'send, the disk is full' 3 'sent 4000' 'st2110: device'
    kept 'send, the disk is full' full/new.out
    rm -f full/new.out.partial
    cp one.rcv full/one.rcv
    head -c 65536 /dev/zero >full/rest 2>/dev/null
    run merge --state full/one.rcv full/one.rcv two.rcv
    says 'merge, the disk is full' 3 'frame 900 present 12 missing 4 contested 0' 'st2110: device'
    alike 'merge, the disk is full: the receiver stands there' full/one.rcv one.rcv
    none 'merge, the disk is full: nothing lies beside it' full/one.rcv.partial
    umount full
fi
rm -rf full many

# ---- names

# A link's target is replaced, and the link stays; one that leads nowhere leads to the file then.
mkdir far
cp stood far/file.out
ln -s far/file.out new.out
run send --base 900 --max 40 --out new.out p.pic
alike 'a link: its target is replaced' far/file.out sent.cap
linked() {
    if [ -L new.out ]; then pass "$1"; else fail "$1" 'it is a file'; fi
}
linked 'a link stays'
rm far/file.out
run send --base 900 --max 40 --out new.out p.pic
alike 'a link that leads nowhere: its target is made' far/file.out sent.cap
linked 'a link that leads nowhere stays'
rm -rf far new.out

# What is no plain file is written as it comes.
mkfifo pipe
timeout 30 cat pipe >piped &
run send --base 900 --max 40 --out pipe p.pic
says 'to a pipe with a name' 0 'sent 2' ''
wait
alike 'to a pipe with a name: the capture' piped sent.cap
rm -f pipe piped
run send --base 900 --max 40 --out /dev/null p.pic
says 'to no file' 0 'sent 2' ''
if [ -c /dev/null ]; then pass 'no file stays'; else fail 'no file stays' 'it is replaced'; fi
run send --base 900 --max 40 --out /dev/full p.pic
says 'to a device that is full' 3 'sent 2' 'st2110: device'
"$program" send --base 900 --max 40 --out /dev/stdout p.pic 2>err | cat >piped
{ echo 'sent 2' && cat sent.cap; } >want.piped
alike 'to /dev/stdout, and what is printed there' piped want.piped

# `-` is standard output, and what is printed goes to standard error.
"$program" send --base 900 --max 40 --out - p.pic >piped 2>err
status=$?
: >out
says 'to standard output' 0 '' 'sent 2'
alike 'to standard output: the capture' piped sent.cap
"$program" receive --window 900 --state - a.cap >piped 2>err
status=$?
says 'receive, to standard output' 0 '' 'delivered 1
frame 900 present 12 missing 4 contested 0'
alike 'receive, to standard output: the receiver' piped one.rcv
"$program" send --base 900 --max 40 --out - p.pic 2>/dev/null |
    "$program" receive --sdp s.sdp --window 900 --state piped.rcv - >out 2>err
status=$?
says 'from one command to another' 0 'delivered 2
frame 900 present 16 missing 0 contested 0' ''
"$program" send --base 900 --max 40 --out - p.pic >/dev/full 2>err
status=$?
: >out
says 'to standard output, which is full' 3 '' 'sent 2
st2110: device'
rm -f piped piped.rcv want.piped

# A place that can't be written to is found before anything is read, and no file is made.
mkfifo never
: >beside
for out in no-such-folder/new.out . no-such-folder/ beside/new.out /proc/new.out ''; do
    timeout 30 "$program" send --sdp never --out "$out" never >out 2>err </dev/null
    status=$?
    says "a place that can't be written to: '$out'" 3 '' 'st2110: device'
    timeout 30 "$program" receive --sdp never --window 900 --state "$out" never >out 2>err </dev/null
    status=$?
    says "a place that can't be written to, of receive: '$out'" 3 '' 'st2110: device'
done
if [ "$(id -u)" != 0 ]; then
    mkdir closed
    cp stood closed/file.out
    chmod 555 closed
    timeout 30 "$program" send --sdp never --out closed/new.out never >out 2>err </dev/null
    status=$?
    says 'a folder that may not be written to' 3 '' 'st2110: device'
    chmod 755 closed
    chmod 444 closed/file.out
    timeout 30 "$program" send --sdp never --out closed/file.out never >out 2>err </dev/null
    status=$?
    says 'a file that may not be written to' 3 '' 'st2110: device'
    kept 'a file that may not be written to' closed/file.out
    rm -rf closed
fi
rm never beside
ls >listed
run send --sdp no-such-file --out made.cap p.pic
ls >listed.after
echo listed.after >>listed
sort -o listed listed
sort -o listed.after listed.after
alike 'a run that is refused makes no file' listed.after listed
rm -f listed listed.after

# A long name.
long=$(printf '%0250d' 7)
run send --base 900 --max 40 --out "$long" p.pic
says 'a name of 250 octets' 0 'sent 2' ''
alike 'a name of 250 octets: the capture' "$long" sent.cap
rm -f "$long"

# The folder of an output goes, or a folder takes its name, while the run reads.
mkfifo late
# feeds CHANGE COMMAND..: runs a command that reads the picture from a pipe, and changes something once it reads.
feeds() {
    change=$1
    shift
    "$program" "$@" >out 2>err </dev/null &
    sender=$!
    # (one that reads nothing isn't waited for)
    { sleep 20 && : <late; } &
    keeper=$!
    exec 3>late
    kill "$keeper"
    $change
    cat p.pic >&3
    exec 3>&-
    wait "$sender"
    status=$?
}
mkdir gone
feeds 'rmdir gone' send --base 900 --max 40 --out gone/new.out late
says 'the folder goes' 3 '' 'st2110: device'
feeds 'mkdir new.out' send --base 900 --max 40 --out new.out late
says 'a folder takes the name' 3 'sent 2' 'st2110: device'
alike 'a folder takes the name: the capture lies beside it' new.out.partial sent.cap
rmdir new.out
rm -f late new.out.partial

# ---- a signal, whenever it comes: what stood there, or all of the new

awk 'BEGIN { for (i = 0; i < 300; i++) print "p.pic" }' | tr '\n' ' ' >many
# shellcheck disable=SC2046
run send --base 900 --max 40 --out whole.cap $(cat many)
torn=0
ended=0
turn=0
while [ "$turn" -lt 100 ]; do
    cp stood new.out
    # shellcheck disable=SC2046
    timeout -s INT "0.00$((turn % 10))$((turn / 10))1" \
        "$program" send --base 900 --max 40 --out new.out $(cat many) >out 2>err </dev/null
    if cmp -s new.out whole.cap; then
        ended=$((ended + 1))
    elif ! cmp -s new.out stood; then
        torn=$((torn + 1))
    fi
    turn=$((turn + 1))
done
if [ "$torn" = 0 ]; then
    pass "a signal at a hundred moments: what stood there, or all"
else
    fail 'a signal at a hundred moments' "$torn files are neither what stood there nor whole"
fi
cd "$room" && rm -rf outputs
