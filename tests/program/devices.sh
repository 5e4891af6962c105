# Standard input, output and error of each command on the files of examples/: empty, closed, a
# folder, full.
files=$root/examples
cp "$files/path-a.cap" one.cap
run receive --window 900 --state one.rcv one.cap
traced=$(cat "$files/first-datagram.out")
camera_line=$(cat "$files/camera.out")
played=$(cat "$files/rehearsal.out")

# on COMMAND: its words, the file that it reads from standard input, what it prints, and the file
# that it writes.
on() {
    input=/dev/null
    written=
    case $1 in
        trace) set -- trace; input=$files/first-datagram.trace shown=$traced ;;
        sdp) set -- sdp; input=$files/camera.sdp shown=$camera_line ;;
        rehearse) set -- rehearse; input=$files/rehearsal.rehearse shown=$played ;;
        migrate)
            written=dev.cap shown='records 1'
            set -- migrate --sdp "$files/four-by-two.sdp" --out dev.cap \
                "$files/one-record-01.cap" ;;
        send)
            written=dev.cap shown='sent 2'
            set -- send --sdp "$files/four-by-two.sdp" --base 900 --max 40 --out dev.cap \
                "$files/four-by-two.pic" ;;
        receive)
            written=dev.rcv shown='delivered 1
frame 900 present 12 missing 4 contested 0'
            set -- receive --window 900 --state dev.rcv "$files/path-a.cap" ;;
        merge)
            written=dev.rcv shown='frame 900 present 12 missing 4 contested 0'
            set -- merge --state dev.rcv one.rcv one.rcv ;;
        process)
            written=dev.cap shown='sent 1'
            set -- process --job gain:4096 --ts 900 --fill 16,128,128 --out dev.cap one.rcv ;;
        report)
            shown='receiver YCbCr-4:2:2 8 4 2 60/1 pt 96 ssrc any
frame 900 present 12 missing 4 contested 0
missing row 1 columns 2 to 3
end'
            set -- report one.rcv ;;
        loop)
            shown='sent 2
delivered 2
frame 0 present 16 missing 0 contested 0'
            set -- loop --max 40 "$files/four-by-two.pic" ;;
    esac
    words=$*
}
# ends NAME STATUS: how the last run ended, where its output or its faults went elsewhere.
ends() {
    if [ "$status" = "$2" ]; then
        pass "$1"
    else
        fail "$1" "status $status in place of $2"
    fi
}

# shellcheck disable=SC2086
for command in trace sdp rehearse migrate send receive merge process report loop; do
    on $command
    rm -f dev.cap dev.rcv
    "$program" $words <"$input" >out 2>err
    status=$?
    says "$command, on the files of examples" 0 "$shown" ''
    [ -z "$written" ] || cp "$written" whole.file
    "$program" $words <"$input" >/dev/full 2>err
    status=$?
    : >out
    says "$command, standard output is full" 3 '' 'st2110: device'
    "$program" $words <"$input" >&- 2>err
    status=$?
    says "$command, standard output is closed" 3 '' 'st2110: device'
    if [ -n "$written" ]; then
        # What is printed goes into no file that the program opens itself.
        rm -f "$written"
        "$program" $words >&- 2>err
        if [ ! -e "$written" ] || cmp -s "$written" whole.file || [ ! -s "$written" ]; then
            pass "$command, standard output is closed, and the file is not mixed with it"
        else
            fail "$command, standard output is closed, and the file is not mixed with it" \
                "$(od -An -v -tx1 "$written" | tr -d ' \n' | head -c 300)"
        fi
    fi
    if [ "$input" = /dev/null ]; then
        "$program" $words <&- >out 2>err
        status=$?
        says "$command, standard input is closed" 0 "$shown" ''
        "$program" $words <. >out 2>err
        status=$?
        says "$command, standard input is a folder" 0 "$shown" ''
    fi
    "$program" $words <"$input" >out 2>&-
    status=$?
    : >err
    says "$command, standard error is closed, and nothing is told" 0 "$shown" ''
done

# The commands that read standard input.
for command in trace sdp rehearse; do
    case $command in
        sdp) fault='sdp 2 NoVideo' ;;
        *) fault='script 1' ;;
    esac
    "$program" $command </dev/null >out 2>err
    status=$?
    says "$command, standard input is empty" 1 '' "st2110: $fault"
    "$program" $command <. >out 2>err
    status=$?
    says "$command, standard input is a folder" 3 '' 'st2110: device'
    "$program" $command <&- >out 2>err
    status=$?
    says "$command, standard input is closed" 3 '' 'st2110: device'
    "$program" $command </dev/null >out 2>/dev/full
    status=$?
    ends "$command, standard error is full" 3
    "$program" $command </dev/null >out 2>&-
    status=$?
    ends "$command, standard error is closed" 3
done
for command in 'send --out dev.cap no-such-file' \
    'receive --window - --state dev.rcv no-such-file'; do
    # shellcheck disable=SC2086
    "$program" $command </dev/null >out 2>/dev/full
    status=$?
    ends "$command, standard error is full" 3
done

# Own refusals that come before any file is read: a file that nobody writes to isn't waited for.
mkfifo never
never() {
    timeout 30 "$program" "$@" >out 2>err </dev/null
    status=$?
}
never receive --state dev.rcv --sdp never --window x never
says 'before any file: --window' 1 '' 'st2110: receive 1 BadWindowText'
never receive --state dev.rcv --sdp never --window 900 --ssrc x never
says 'before any file: --ssrc' 1 '' 'st2110: receive 2 BadSource'
never receive --state dev.rcv --sdp never --window x --ssrc x --a x never
says 'before any file: --window, --ssrc and --a' 1 '' 'st2110: receive 1 BadWindowText'
never process --job none --ts 900 --fill 16,128,128 --hold never --out dev.cap never never
says 'before any file: --job' 1 '' 'st2110: process 1 BadJob'
never picture --ts 900 --fill x --hold never --out dev.cap never
says 'before any file: --fill of picture' 1 '' 'st2110: frame 2 BadFill'
never export --a x --out dev.cap never
says 'before any file: --a of export' 1 '' 'st2110: export 1 BadFlow'
# shellcheck disable=SC2046
never send --sdp never --out dev.cap $(awk 'BEGIN { for (i = 0; i < 10001; i++) print "never" }')
says 'before any file: 10,001 pictures' 1 '' 'st2110: send 2 TooManyPictures'
rm never

# Want of memory is told as that, also where it is for a file's buffer: from the least memory in
# which the program starts up to where all is done a run ends by status 4, and by no other.
lacking() {
    name=$1
    shift
    limit=1000
    told=0
    other=
    status=9
    while [ "$status" != 0 ] && [ "$limit" -lt 16000 ]; do
        status=$( (ulimit -v "$limit"; "$program" "$@" >out 2>err </dev/null; echo $?) 2>/dev/null)
        case $status:$(head -c 100 err) in
            '4:st2110: memory') told=$((told + 1)) ;;
            0:* | 1??:*) ;;
            *) other="status $status: $(head -c 100 err) at $limit KiB" ;;
        esac
        limit=$((limit + 16))
    done
    if [ "$told" = 0 ] || [ -n "$other" ] || [ "$status" != 0 ]; then
        fail "$name" "told $told times, and ${other:-no other way}, at last status $status"
    else
        pass "$name"
    fi
}
lacking 'want of memory: report' report one.rcv
lacking 'want of memory: send' send --max 40 --out dev.cap "$files/four-by-two.pic"
lacking 'want of memory: merge' merge --state dev.rcv one.rcv one.rcv
lacking 'want of memory: picture' picture --ts 900 --mark --out dev.pic one.rcv
