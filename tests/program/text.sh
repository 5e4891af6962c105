# The commands that read standard input.
"$program" trace <"$root/examples/first-datagram.trace" >out 2>err
status=$?
says first-datagram 0 "kept 1
$frame" ''
"$program" <"$root/examples/first-datagram.trace" >out 2>err
status=$?
says 'without words it is trace' 0 "kept 1
$frame" ''
"$program" sdp <q.sdp >out 2>err
status=$?
says 'the canonical line' 0 'a=fmtp:96 sampling=YCbCr-4:2:2; width=4; height=2; exactframerate=60; depth=8; colorimetry=BT709; PM=2110GPM; SSN=ST2110-20:2017' ''
run sdp
says 'an empty SDP' 1 '' 'st2110: sdp 2 NoVideo'
"$program" sdp <q.sdp >/dev/full 2>err
status=$?
: >out
says 'an output that is full' 3 '' 'st2110: device'
# A datagram's octets as tshark prints them, with colons or without, become a line of a script.
for parted in 's/../&:/g; s/:$//' ''; do
    {
        printf '%b\n' 'format YCbCr-4:2:2 8 4 2 60/1\nopen 96 any 900'
        echo "$d1" | tr A-F a-f | sed "$parted" | sed 's/://g; s/^/A /'
    } >in
    "$program" trace <in >out 2>err
    status=$?
    says "digits of a recording '$parted'" 0 "kept 1
$frame" ''
done
# Lines of more octets than a page or a pipe holds.
{
    printf '%b\n' 'format YCbCr-4:2:2 8 4 2 60/1\nopen 96 any 900' "A $d1"
    yes 'cell 900 0 0 0' | head -n 20000
} >in
"$program" trace <in >out 2>err
status=$?
{
    echo 'kept 1'
    yes 'value 16' | head -n 20000
} >want
says 'as many lines as are asked for' 0 "$(cat want)
$frame" ''
"$program" trace <in 2>err | head -n 15000 >out
head -n 15000 want >part
if cmp -s out part; then
    pass 'a reader of the first lines alone'
else
    fail 'a reader of the first lines alone' "$(head -c 300 out)"
fi
run frobnicate
misworded 'a word that is no command' "unrecognized subcommand 'frobnicate'" '[OPTIONS] [COMMAND]'
