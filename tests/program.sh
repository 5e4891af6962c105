#!/bin/sh
# Starts the built program, ./st2110 at the root or the one that is named, and compares status, output, faults and
# written files with what they must be. Prints a line for each test, and last 'N passed, M failed'. A second word names
# parts that are run alone.
root=$(CDPATH='' cd -- "$(dirname -- "$0")/.." && pwd) || exit 125
program=${1:-$root/st2110}
case $program in
    /*) ;;
    *) program=$(pwd)/$program ;;
esac
# (the launcher builds the whole program for a command that its part hasn't)
[ "$program" != "$root/st2110" ] || "$program" receive --help >/dev/null || exit
room=$(mktemp -d) || exit 125
trap 'rm -rf "$room"' EXIT
cd "$room" || exit 125
passed=0
failed=0

# Counts a test that passed, or one that failed for a reason.
pass() {
    passed=$((passed + 1))
    printf 'passed: %s\n' "$1"
}
fail() {
    failed=$((failed + 1))
    printf 'FAILED: %s: %s\n' "$1" "$2"
}
# Says why a part has nothing to run.
skip() {
    skipped=1
    printf 'skipped: %s\n' "$1"
}

# Writes octets that are given as hexadecimal digits, with spaces anywhere.
octets() {
    # shellcheck disable=SC2059
    printf "$(printf '%s' "$*" | tr -d ' \n' | tr a-f A-F | awk '{
        for (i = 1; i < length($0); i += 2)
            printf "\\%03o", 16 * digit(substr($0, i, 1)) + digit(substr($0, i + 1, 1))
    }
    function digit(text) { return index("0123456789ABCDEF", text) - 1 }')"
}

# Runs the program: its output, faults and status are then in the files out, err and the variable status.
run() {
    "$program" "$@" >out 2>err </dev/null
    status=$?
}

# says NAME STATUS OUTPUT FAULTS: whether the last run ended so. An empty text stands for nothing at all.
says() {
    name=$1
    if [ "$status" != "$2" ]; then
        fail "$name" "status $status in place of $2: $(head -c 200 err)"
        return
    fi
    expect "$3" >want.out
    expect "$4" >want.err
    if ! cmp -s out want.out; then
        fail "$name" "output '$(head -c 300 out)' in place of '$3'"
    elif ! cmp -s err want.err; then
        fail "$name" "faults '$(head -c 300 err)' in place of '$4'"
    else
        pass "$name"
    fi
}
expect() {
    [ -z "$1" ] || printf '%s\n' "$1"
}

# misworded NAME TEXT USAGE: whether the words of the last run were refused by the whole text that the Rust crate clap,
# version 4, has for them: what stands behind `error: `, with backslashes as for printf, and what behind `Usage: st2110`,
# or - for a text without usage. The text of missing words begins with `$missing`.
misworded() {
    shown=
    [ "$3" = - ] || shown="

Usage: st2110 $3"
    says "$1" 2 '' "error: $(printf '%b' "$2")$shown

For more information, try '--help'."
}
missing='the following required arguments were not provided:'

# holds NAME FILE DIGITS: whether a file has just these octets.
holds() {
    octets "$3" >want.file
    if cmp -s "$2" want.file; then
        pass "$1"
    else
        fail "$1" "$2 holds $(od -An -v -tx1 "$2" 2>&1 | tr -d ' \n' | head -c 300)"
    fi
}

# alike NAME FILE OTHER: whether two files have the same octets.
alike() {
    if cmp -s "$2" "$3"; then
        pass "$1"
    else
        fail "$1" "$2 holds $(od -An -v -tx1 "$2" 2>&1 | tr -d ' \n' | head -c 600)"
    fi
}

# none NAME FILE: whether there is no such file.
none() {
    if [ -e "$2" ]; then
        fail "$1" "$2 is there"
    else
        pass "$1"
    fi
}

# feed COMMAND TEXT: runs a command that reads standard input on a text, whose backslashes are those of printf.
feed() {
    printf '%b' "$2" >in
    "$program" "$1" <in >out 2>err
    status=$?
}

# shows COMMAND NAME TEXT OUTPUT: whether a command on these lines prints this and ends well.
shows() {
    feed "$1" "$3\n"
    says "$2" 0 "$4" ''
}

# stops COMMAND NAME TEXT FAULT: whether a command on these lines prints nothing and is refused so.
stops() {
    feed "$1" "$3\n"
    says "$2" 1 '' "st2110: $4"
}

# untold: leaves of the last run's faults the lines of faults alone, and nothing of what is told of lost datagrams.
untold() {
    sed -n '/^st2110: /p' err >err.rest
    mv err.rest err
}

# round_trip: sends a picture by both paths into trip.cap, eight records of 35 octets. Of these lossy3.cap lacks each third
# and lossy4.cap each fourth.
round_trip() {
    run send --out trip.cap --sdp q.sdp --base 900 --max 24 --paths both p.pic
    says 'a round trip: sent' 0 'sent 4' ''
    front=$((10 + $(wc -c <q.sdp)))
    for every in 3 4; do
        head -c "$front" trip.cap >"lossy$every.cap"
        i=0
        while [ $i -lt 8 ]; do
            if [ $(((i + 1) % every)) != 0 ]; then
                tail -c +$((front + 35 * i + 1)) trip.cap | head -c 35 >>"lossy$every.cap"
            fi
            i=$((i + 1))
        done
    done
}

# zeros COUNT: so many digits 0.
zeros() {
    head -c "$1" /dev/zero | tr '\0' 0
}

# words COUNT: so many names of a file that is not there.
words() {
    yes no-such-file | head -n "$1"
}

# pictures COUNT: the script of a rehearsal of so many pictures, of one packet each.
pictures() {
    printf 'format YCbCr-4:2:2 8 2 1 60/1\nstamp 96 0 0 1\nmax 40\nwindow 0\nreceivers 1\n'
    yes 'picture 80108011' | head -n "$1"
    printf 'send\narrive 0 A 0\n'
}

# COMMAND NAME, and a table on standard input, of which each row is a test: a script, and before it what it comes to.
# Rows of `prints` are OUTPUT|SCRIPT, of `refuses` FAULT|OUTPUT|SCRIPT, of `at_fault` LINE|SCRIPT.
prints() {
    while IFS='|' read -r output script; do
        feed "$1" "$script"
        says "$2: $script" 0 "$(printf '%b' "$output")" ''
    done
}
refuses() {
    while IFS='|' read -r fault output script; do
        feed "$1" "$script"
        says "$2: $script" 1 "$(printf '%b' "$output")" "st2110: $fault"
    done
}
at_fault() {
    while IFS='|' read -r line script; do
        feed "$1" "$script"
        says "$2: $script" 1 '' "st2110: script $line"
    done
}

# turn TEXT OLD NEW: `turned` is then the text with the new in each place of the old.
turn() {
    turned=
    rest=$1
    while :; do
        case $rest in
            *"$2"*) ;;
            *) break ;;
        esac
        turned=$turned${rest%%"$2"*}$3
        rest=${rest#*"$2"}
    done
    turned=$turned$rest
}

# What two parts or more use.
u=8010801180128013
l=8014801580168017
d1="80E00001000003840000000100000008000000008010801180128013"
d2="80E00002000003840000000100000008000100008014801580168017"
record_a='00 0000000000000000 001C'
record_b='01 0000000000000001 001C'
old_head="5332304341503031 $record_a"
frame='frame 900 present 8 missing 8 contested 0'
blank='frame 900 present 0 missing 16 contested 0'
whole='frame 900 present 16 missing 0 contested 0'
# The first lines of a script, and a schedule of two pictures, of two packets each, and of two receivers.
format='format YCbCr-4:2:2 8 4 2 60/1'
open="$format\nopen 96 any 900"
two="$format\nstamp 96 0 0 1\nmax 40\nwindow 0\nreceivers 2\npicture $u$l\npicture $u$l"
# What a receiver's file begins with, and what is known of one frame, whose second row is missing.
opened='5332305243563031 0008000400020000003C00000001 60'
known='01 80108011 01 80128013 00 00'
picture="5332305049433031 0008000400020000003C00000001 $u$l"
# The lines of the camera's text: five of a session, and two sections of five; with printf's backslashes.
lines_of() {
    sed -n "$1p" "$root/examples/camera.sdp" | sed 's/$/\\n/' | tr -d '\n'
}
session=$(lines_of 1,5)
first=$(lines_of 6,10)
second=$(lines_of 11,15)
camera=$session$first$second
read_once='standard input is read once; inspect tells its flows'
# What --version says, and where the recordings of real senders are.
version=$(sed -n '/^## /{s/^## \([0-9.]*\), .*/\1/p;q;}' "$root/CHANGELOG.md")
recordings=${RECORDINGS:-$root/examples/recordings}

# Files that each part has: the SDP text Q of the worked examples, and a longer one of the camera; captures of version 01
# of d1 by path A, of d2 by path B, of d1 by both, of a third path; one of version 02 with Q; pictures of two rows and of
# one; the receivers of d1, of any source and of source 1; and what is no capture, and nothing.
mkdir files && cd files || exit 125
cat >q.sdp <<'END'
m=video 5004 RTP/AVP 96
a=rtpmap:96 raw/90000
a=fmtp:96 sampling=YCbCr-4:2:2; width=4; height=2; exactframerate=60; depth=8; colorimetry=BT709; PM=2110GPM; SSN=ST2110-20:2017
END
cp "$root/examples/camera.sdp" camera.sdp
q_digits=$(od -An -v -tx1 q.sdp | tr -d ' \n')
q_length=$(printf '%04x' "$(wc -c <q.sdp)")
octets "$old_head $d1" >old.cap
octets 5332304341503031 "$record_b" "$d2" >second.cap
octets "$old_head $d1 $record_b $d1" >both.cap
octets '5332304341503031 02 0000000000000000 001C' "$d1" >path.cap
octets "5332304341503032 $q_length $q_digits $record_a $d1" >new.cap
octets "$picture" >p.pic
octets "5332305049433031 0008000400010000003C00000001 $u" >row.pic
octets "$opened 00 00000000 01 00000384 $known" >g.rcv
octets "$opened 01 00000001 01 00000384 $known" >other.rcv
octets '5332305049433031' >name.cap
: >empty
cd "$room" || exit 125

# The parts. Each is run by itself, in a folder of its own, which `room` then names.
parts='text examples trace-forms trace-windows rehearse sdp limits send receive receive-first receive-refusals receive-lost
    merge wholes report process picture convert forms loop migrate import packets follow inspect inspect-streams inspect-cut export
    kinds words devices outputs progress verbose faults hostile wrong-bodies launcher script-program install'
tally=$room/tally
for part in ${2:-$parts}; do
    if [ ! -f "$root/tests/program/$part.sh" ]; then
        fail "$part.sh" 'it is missing'
        continue
    fi
    rm -f "$tally"
    (
        passed=0
        failed=0
        skipped=0
        cp -R files "$part" && room=$room/$part && cd "$room" || exit 125
        . "$root/tests/program/$part.sh"
        echo "$passed $failed $skipped" >"$tally"
    )
    if [ ! -s "$tally" ]; then
        fail "$part.sh" 'it ended before its end'
        continue
    fi
    read -r more amiss skipped <"$tally"
    passed=$((passed + more))
    failed=$((failed + amiss))
    [ $((more + amiss + skipped)) -gt 0 ] || fail "$part.sh" 'it tests nothing'
    rm -rf "$part"
done
for file in "$root"/tests/program/*; do
    name=${file##*/}
    # shellcheck disable=SC2086
    printf '%s.sh\n' $parts | grep -q -x -F -e "$name" || fail "$name" 'it is no part that is run'
done

echo "$passed passed, $failed failed"
[ "$failed" = 0 ]
