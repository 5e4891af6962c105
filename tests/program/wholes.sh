# wholes: files that are one, octet for octet, whatever brought the datagrams. The laws are those of crates/run_laws.
capture_front=5332304341503031
upper_row="00 0000000000000000 001C $d1"
upper_by_b="01 0000000000000005 001C $d1"
lower_row="00 0000000000000001 001C 80E00002000003840000000100000008000100008014801580168017"
lower_by_b="01 0000000000000001 001C 80E00002000003840000000100000008000100008014801580168017"
contrary_row="01 0000000000000002 001C 80E00003000003840000000100000008000000008020801180128013"
contrary_by_a="00 0000000000000000 001C 80E00003000003840000000100000008000000008020801180128013"

# receives NAME CAPTURES..: receives captures into at-once.rcv, or compares what they give with it.
receives() {
    name=$1
    shift
    run receive --state brought.rcv --sdp q.sdp --window 900,901 "$@"
    if [ "$status" != 0 ]; then
        fail "$name" "status $status: $(head -c 200 err)"
    else
        alike "$name" brought.rcv at-once.rcv
    fi
}

# Three datagrams, of which one contradicts another: in one capture, in three, in other orders, by other paths, and again.
octets "$capture_front" "$upper_row" "$lower_by_b" "$contrary_row" >at-once.cap
octets "$capture_front" "$upper_row" >upper.cap
octets "$capture_front" "$lower_row" >lower.cap
octets "$capture_front" "$contrary_by_a" >contrary.cap
octets "$capture_front" "$contrary_by_a" "$upper_by_b" "$contrary_row" "$upper_row" >repeats.cap
octets "$capture_front" >nothing.cap
run receive --state at-once.rcv --sdp q.sdp --window 900,901 at-once.cap
says 'wholes: at once' 0 'delivered 3
frame 900 present 15 missing 0 contested 1
frame 901 present 0 missing 16 contested 0' ''
receives 'wholes: a capture each' upper.cap lower.cap contrary.cap
receives 'wholes: in another order' contrary.cap lower.cap upper.cap
receives 'wholes: again, and by the other path' lower.cap repeats.cap nothing.cap lower.cap
receives 'wholes: at once, and again' at-once.cap at-once.cap

# In pieces, merged in each tree.
for piece in upper lower contrary; do
    run receive --state "$piece.rcv" --sdp q.sdp --window 900,901 "$piece.cap"
done
run merge --state left.rcv upper.rcv lower.rcv
run merge --state right.rcv lower.rcv contrary.rcv
run merge --state tree.rcv left.rcv contrary.rcv
alike 'wholes: two merged, and the third' tree.rcv at-once.rcv
run merge --state tree.rcv upper.rcv right.rcv
alike 'wholes: the first, and two merged' tree.rcv at-once.rcv
run merge --state tree.rcv contrary.rcv lower.rcv upper.rcv
alike 'wholes: three merged' tree.rcv at-once.rcv
run merge --state tree.rcv right.rcv left.rcv at-once.rcv
alike 'wholes: trees merged, and pieces twice' tree.rcv at-once.rcv

# A recording, and a capture of it.
two_cards=$root/examples/recordings/two-cards
run receive --state at-once.rcv --sdp "$two_cards.sdp" --window 900,4500 "$two_cards.pcapng"
run import --sdp "$two_cards.sdp" --out cards.cap "$two_cards.pcapng"
run receive --state brought.rcv --window 900,4500 cards.cap
alike 'wholes: a recording and its capture' brought.rcv at-once.rcv
run receive --state brought.rcv --window 900,4500 cards.cap "$two_cards.pcapng"
alike 'wholes: both' brought.rcv at-once.rcv
