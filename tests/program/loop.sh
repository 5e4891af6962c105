# loop: a picture from one socket of this machine to another.
run loop --max 40 p.pic
says loopback 0 'sent 2
delivered 2
frame 0 present 16 missing 0 contested 0' ''
run loop p.pic
says 'loopback: one datagram' 0 'sent 1
delivered 1
frame 0 present 16 missing 0 contested 0' ''
run loop --max 40 --limit 1 p.pic
says 'loop-limits: over sockets' 0 'sent 1
delivered 1
frame 0 present 12 missing 4 contested 0' ''
run loop --max 40 --limit 0 p.pic
says 'loop: no turn' 0 'sent 0
delivered 0
frame 0 present 0 missing 16 contested 0' ''

# Files that are refused, and devices that fail.
refuse_picture() {
    octets "$2" >bad.pic
    run loop bad.pic
    says "loop: $1" 1 '' "st2110: picture $3"
}
refuse_picture 'an empty file' '' '5 Truncated'
refuse_picture 'a receiver' "5332305243563031 0008000400020000003C00000001 $u$l" '3 BadName'
refuse_picture 'version 02' "5332305049433032 0008000400020000003C00000001 $u$l" '4 BadVersion'
refuse_picture 'a depth of 14' "5332305049433031 000E000400020000003C00000001 $u$l" '6 BadField'
refuse_picture 'an octet more' "5332305049433031 0008000400020000003C00000001 $u$l 00" '7 TrailingBytes'
run loop --max 23 p.pic
says 'loop: packets that are too small' 1 '' 'st2110: plan 2 BadPacketSize'
run loop --max 9001 p.pic
says 'loop: packets that are too large' 1 '' 'st2110: plan 2 BadPacketSize'
run loop no-such-file
says 'loop: no such file' 3 '' 'st2110: device'
run loop .
says 'loop: a folder' 3 '' 'st2110: device'
"$program" loop --max 40 p.pic >/dev/full 2>err </dev/null
status=$?
: >out
says 'loop: a full output' 3 '' 'st2110: device'
run loop --verbose --max 23 p.pic
says 'verbose: loop: the size' 1 '' 'st2110: plan 2 BadPacketSize
  at --max; wanted 20 octets and a pgroup at least, and at most 9000'
run loop --verbose bad.pic
says 'verbose: loop: the picture' 1 '' 'st2110: picture 7 TrailingBytes
  at bad.pic, octet 39; wanted the end'
