# migrate: captures of version 01 as captures of version 02.
migrated="5332304341503032 $q_length $q_digits 00 0000000000000000 001C $d1"

run migrate --sdp q.sdp --out new.cap old.cap
says migrated 0 'records 1' ''
holds 'migrated: the file' new.cap "$migrated"

run migrate --sdp q.sdp --out again.cap new.cap
says 'migrated again' 1 '' 'st2110: capture 4 BadVersion'
none 'migrated again: nothing is written' again.cap

run migrate --sdp q.sdp --out no.cap no-such-file
says 'migrate: no such capture' 3 '' 'st2110: device'
none 'migrate: no such capture, nothing written' no.cap
run migrate --sdp no-such-file --out no.cap old.cap
says 'migrate: no such SDP' 3 '' 'st2110: device'
run migrate --sdp q.sdp --out no.cap .
says 'migrate: a folder' 3 '' 'st2110: device'

run migrate --sdp empty --out no.cap old.cap
says 'migrate: an empty SDP' 1 '' 'st2110: sdp 2 NoVideo'
run migrate --sdp q.sdp --out no.cap empty
says 'migrate: an empty capture' 1 '' 'st2110: capture 5 Truncated'
none 'migrate: an empty capture, nothing written' no.cap

head -c 46 old.cap >cut.cap
run migrate --sdp q.sdp --out cut-new.cap cut.cap
says 'migrate: a cut capture' 1 '' 'st2110: capture 5 Truncated'
none 'migrate: a cut capture, no capture' cut-new.cap
holds 'migrate: a cut capture, its front is written' cut-new.cap.partial "5332304341503032 $q_length $q_digits"
run migrate --sdp q.sdp --out no.cap path.cap
says 'migrate: a third path' 1 '' 'st2110: capture 6 BadField'
octets '5332304341503131' >name.cap
run migrate --sdp q.sdp --out other.cap name.cap
says 'migrate: another version' 1 '' 'st2110: capture 4 BadVersion'
octets '5332305049433031' >name.cap
run migrate --sdp q.sdp --out other.cap name.cap
says 'migrate: another name' 1 '' 'st2110: capture 3 BadName'

head -c 65536 /dev/zero >long.sdp
run migrate --sdp long.sdp --out other.cap old.cap
says 'migrate: a long SDP' 1 '' 'st2110: migrate 1 SdpTooLong'
head -c 65535 /dev/zero >long.sdp
run migrate --sdp long.sdp --out other.cap old.cap
says 'migrate: an SDP of 65,535 octets' 1 '' 'st2110: sdp 2 NoVideo'
none 'migrate: nothing is written after a refusal' other.cap

run migrate --sdp q.sdp --out /dev/full old.cap
says 'migrate: a full file' 3 'records 1' 'st2110: device'
run migrate --sdp q.sdp --out no-such-folder/new.cap old.cap
says 'migrate: a file that cannot be made' 3 '' 'st2110: device'
"$program" migrate --sdp q.sdp --out full.cap old.cap >/dev/full 2>err
status=$?
: >out
says 'migrate: a full output' 3 '' 'st2110: device'
cat old.cap | "$program" migrate --sdp q.sdp --out piped.cap /dev/stdin >out 2>err
status=$?
says 'migrate: a pipe' 0 'records 1' ''
holds 'migrate: a pipe, the file' piped.cap "$migrated"

run migrate --sdp q.sdp old.cap
misworded 'migrate: without --out' "$missing\n  --out <FILE>" 'migrate --sdp <FILE> --out <FILE> <CAPTURE>'
