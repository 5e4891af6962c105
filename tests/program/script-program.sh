# The part of the program that the launcher builds for `trace`, `sdp` and `rehearse`: to these, to help and the version, and
# to words that are refused it answers as the whole program does. It lies beside it where both are built.
beside=${program%/*}
[ "$program" != "$root/st2110" ] || beside=$root/crates/st2110/out
built=$beside/${program##*/}
script_program=$beside/../../script_program/out/script_program
if [ ! -x "$script_program" ]; then
    skip "the part of the program, since it isn't built"
    return
fi

# answers COMMAND WORD..: what a program says on the file `in`, in the files out and err, and the variable status.
answers() {
    "$@" <in >out 2>err
    status=$?
}
# same NAME WORD..: whether both programs answer alike.
same() {
    name="script program: $1"
    shift
    answers "$built" "$@"
    wanted=$status
    mv out wanted.out
    mv err wanted.err
    answers "$script_program" "$@"
    if [ "$status" = "$wanted" ] && cmp -s out wanted.out && cmp -s err wanted.err; then
        pass "$name"
    else
        fail "$name" "status $status in place of $wanted: $(head -c 300 out) $(head -c 300 err)"
    fi
}

# The worked examples, and each as what it isn't, with what is told behind a line.
for text in "$root"/examples/*.trace "$root"/examples/*.rehearse "$root"/examples/*.sdp; do
    cp "$text" in
    same "${text##*/}" "${text##*.}"
    same "-v, ${text##*/}" -v "${text##*.}"
    case ${text##*.} in
        trace) same "${text##*/}, rehearsed" rehearse --verbose ;;
        *) same "${text##*/}, without words" -v ;;
    esac
done
cp "$root/examples/first-datagram.trace" in
same 'a script as a text' sdp --quiet -v
same 'a text of a file' -v sdp camera.sdp
same 'a text of no file' sdp no-such-file
same 'a text of a folder' sdp .
same 'a written text' sdp --write 'YCbCr-4:2:2 10 1920 1080 60000/1001' --a 239.1.1.1:5004 --b '[ff3e::1]:5006' --pt 100
same 'a written text of no format' sdp --write 'YCbCr-4:2:2 9 1920 1080 60000/1001' --a 239.1.1.1:5004
same 'a value that is no format' sdp --write '4:2:2' --a 239.1.1.1:5004
same 'a value that is no address' sdp --write 'YCbCr-4:2:2 10 1920 1080 60/1' --a here

# Help, the version, and words that are refused.
while read -r words; do
    # shellcheck disable=SC2086
    same "the words '$words'" $words
done <<'END'
--help
-h
help
help sdp
help receive
trace --help
sdp -h
rehearse --help
receive --help
--version
-V
--version --verbose
trace --version
trase
trace more
rehearse -x
--frobnicate
trace --progress
--progress
sdp --write
sdp --pt 300 --write x --a y
receive
send --max one
END
same 'a word that is empty' ''
same 'a word that is no text' trace "$(printf '\377')"

# Devices that fail, and streams that are closed.
cp "$root/examples/contested.trace" in
# device NAME REDIRECTION: whether both programs answer alike to `trace`, so redirected.
device() {
    for it in "$built" "$script_program"; do
        : >out
        : >err
        eval "\"\$it\" -v trace <in >out 2>err $2"
        echo $? >>out
        cat out err >"${it##*/}.said"
    done
    alike "script program: $1" script_program.said "${built##*/}.said"
}
device 'a full output' '>/dev/full'
device 'a full error' '</dev/full 2>/dev/full'
device 'a closed input' '<&-'
device 'a closed output' '>&-'
device 'a closed error' '<empty 2>&-'
device 'a folder as input' '<.'

# What the part hasn't is refused, and nothing is written.
answers "$script_program" receive --window 900 --state part.rcv path-a.cap
says 'script program: another command' 2 '' 'st2110: this part of the program has trace, sdp and rehearse alone'
none 'script program: another command, nothing is written' part.rcv
"$script_program" send --out part.cap p.pic >out 2>/dev/full
status=$?
: >err
says 'script program: another command, a full error' 3 '' ''
