# report: what a receiver's file lacks.
octets "5332305243563031 0008000400020000003C00000001 60000000000001 00000384 02000280008011 0180128013 0000" >contested.rcv
run report contested.rcv
says contested-report 0 'receiver YCbCr-4:2:2 8 4 2 60/1 pt 96 ssrc any
frame 900 present 7 missing 8 contested 1
missing row 1 columns 0 to 3
contested row 0 column 0 Y
end' ''
run receive --window 900,901 --ssrc 1 --state two.rcv --sdp q.sdp old.cap
run report two.rcv
says 'report: two timestamps' 0 'receiver YCbCr-4:2:2 8 4 2 60/1 pt 96 ssrc 1
frame 900 present 8 missing 8 contested 0
missing row 1 columns 0 to 3
frame 901 present 0 missing 16 contested 0
missing row 0 columns 0 to 3
missing row 1 columns 0 to 3
end' ''

# Files that are refused, and devices that fail.
refuse_report() {
    octets "$2" >bad.rcv
    run report bad.rcv
    says "report: $1" 1 '' "st2110: state $3"
}
refuse_report 'an empty file' '' '5 Truncated'
refuse_report 'a picture' "5332305049433031 0008000400020000003C00000001 $u$l" '3 BadName'
refuse_report 'version 02' "5332305243563032 0008000400020000003C00000001 60 00 00000000 01 00000384 00 00 00 00" '4 BadVersion'
refuse_report 'a mask of 0' "$opened 00 00000000 01 00000384 02 0000 80008011 01 80128013 00 00" '8 MixedGroup'
refuse_report 'an octet more' "$opened 00 00000000 01 00000384 00 00 00 00 00" '7 TrailingBytes'
run report --verbose bad.rcv
says 'verbose: report: an octet more' 1 '' 'st2110: state 7 TrailingBytes
  at bad.rcv, octet 38; wanted the end'
run report no-such-file
says 'report: no such file' 3 '' 'st2110: device'
run report .
says 'report: a folder' 3 '' 'st2110: device'
"$program" report contested.rcv >/dev/full 2>err </dev/null
status=$?
: >out
says 'report: a full output' 3 '' 'st2110: device'
