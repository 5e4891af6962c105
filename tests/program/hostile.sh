# Hostile input: a few of each kind, made from a seed, and answered as by a second reading
# (docs/GATE.md). It wants python3, as the kit's rt does. The launcher, which looks at each start whether
# the program is current, has built it by now, and that is started by itself.
built=$program
[ "$program" != "$root/st2110" ] || built=$root/crates/st2110/out/st2110
if command -v python3 >python3.path; then
    python3 "$root/tests/hostile.py" "$built" >hostile.said 2>hostile.err
    amiss=$(tail -n 1 hostile.err)
else
    : >hostile.said
    amiss='there is no python3'
fi
# told KIND: what was told of the first input of a kind that was answered otherwise.
told() {
    awk -v kind="$1" '
        / of seed [0-9]+, [0-9]+ asked for: | answered alike$/ { is_told = $1 == kind }
        is_told
    ' hostile.said
}
for kind in datagrams files texts scripts pcap pcapng jobs sends reports cuts lines engines streams states; do
    if grep -q -x "$kind: [0-9]* answered alike" hostile.said; then
        pass "hostile $kind"
    else
        fail "hostile $kind" "$amiss$(told "$kind" | head -c 4000)"
    fi
done
