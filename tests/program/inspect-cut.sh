# inspect: each file of examples/recordings cut at each octet. Cuts between the same two ends of packets or blocks are given
# to one run, which counts as often the packets before them. Where these end is read of the files here, and which of them
# are datagrams is what tshark says (examples/recordings/README.md). It wants python3, as the kit's rt does.
cat >cuts.py <<'END'
import collections
import decimal
import json
import pathlib
import subprocess
import sys

PROGRAM, FOLDER = sys.argv[1], pathlib.Path(sys.argv[2])


def pcap_ends(octets):
    """Where a file of pcap is whole, and how many packets are before each such place."""
    order = "big" if octets[:4] in (b"\xa1\xb2\xc3\xd4", b"\xa1\xb2\x3c\x4d") else "little"
    place, ends = 24, [(24, 0)]
    while place + 16 <= len(octets):
        place += 16 + int.from_bytes(octets[place + 8 : place + 12], order)
        ends.append((place, len(ends)))
    return [end for end in ends if end[0] <= len(octets)]


def pcapng_ends(octets):
    """The same of a file of pcapng of one section, as the recorders here wrote it."""
    order = "big" if octets[8:12] == b"\x1a\x2b\x3c\x4d" else "little"
    place, packets, ends = 0, 0, []
    while place + 12 <= len(octets):
        packets += int.from_bytes(octets[place : place + 4], order) in (2, 3, 6)
        place += int.from_bytes(octets[place + 4 : place + 8], order)
        ends.append((place, packets))
    return [end for end in ends if end[0] <= len(octets)]


def told(lines, times):
    """What is told of the flows of so many recordings of these packets, and how many are left out."""
    flows, left_out = collections.OrderedDict(), 0
    for line in lines:
        time, _, _, protocols, four, six, port, length, payload = (line.split("\t") + [""] * 9)[:9]
        octets = bytes.fromhex(payload)
        if ":icmp" in protocols or length == "" or len(octets) != int(length) - 8:
            left_out += times
            continue
        address = four or "[%s]" % six
        flow = flows.setdefault(f"{address}:{port}", {"datagrams": 0, "octets": 0, "rtp": 0, "rtcp": 0, "streams": {}, "moments": []})
        flow["datagrams"] += times
        flow["octets"] += times * len(octets)
        flow["moments"].append(decimal.Decimal(time))
        if len(octets) >= 2 and octets[0] >> 6 == 2 and 200 <= octets[1] <= 204:
            flow["rtcp"] += times
        elif len(octets) >= 12 and octets[0] >> 6 == 2:
            flow["rtp"] += times
            stream = (octets[1] % 128, int.from_bytes(octets[8:12], "big"))
            flow["streams"].setdefault(stream, []).append(int.from_bytes(octets[4:8], "big"))
    objects = []
    for name, flow in flows.items():
        first, last = min(flow["moments"]), max(flow["moments"])
        rate = None
        if first < last:
            nanoseconds = int((last - first) * 10**9)
            rate = decimal.Decimal(flow["octets"] * 800000 // nanoseconds) / 100
        streams = [
            {"payload_type": key[0], "source": key[1], "datagrams": times * len(stamps), "first_timestamp": min(stamps), "last_timestamp": max(stamps)}
            for key, stamps in flow["streams"].items()
        ]
        objects.append(
            {"flow": name, "datagrams": flow["datagrams"], "octets": flow["octets"], "rtp": flow["rtp"], "rtcp": flow["rtcp"],
             "streams": streams, "other_streams": False, "first": first, "last": last, "mbit_per_second": rate}
        )
    return objects, left_out


def run(octets, cuts):
    """What inspect tells of a file that is cut at each of these places."""
    names = []
    for cut in cuts:
        names.append(f"cut.{cut}")
        pathlib.Path(names[-1]).write_bytes(octets[:cut])
    ended = subprocess.run([PROGRAM, "inspect", "--json", *names], capture_output=True, stdin=subprocess.DEVNULL)
    for name in names:
        pathlib.Path(name).unlink()
    objects = [json.loads(line, parse_float=decimal.Decimal) for line in ended.stdout.splitlines()]
    return ended.returncode, ended.stderr.decode(), objects


def cut(path, ends):
    """Cuts a file at each octet, and answers what is told otherwise than it should be."""
    octets, lines, wrong = path.read_bytes(), (FOLDER / (path.stem + ".txt")).read_text().splitlines(), []
    begin, packets = 0, 0
    for end, before in [*ends, (len(octets) + 1, 0)]:
        runs = [(range(begin, begin + 1), 0, "")] if begin in dict(ends) else [(range(begin, begin + 1), 1, "recording 2 Truncated")]
        runs.append((range(begin + 1, end), 1, "recording 2 Truncated"))
        for cuts, status, fault in runs:
            if not cuts:
                continue
            objects, left_out = told(lines[:packets], len(cuts))
            found = run(octets, cuts)
            last = found[2][-1] if found[2] else {}
            said = f"st2110: {fault}\n" if fault else ""
            if found[:2] != (status, said) or found[2][:-1] != objects or last.get("flows") != len(objects) or sum(last["left_out"].values()) != left_out:
                wrong.append(f"{cuts}: {found} in place of {status} {said} {objects} left out {left_out}")
        begin, packets = end, before
    return wrong


for path in sorted(FOLDER.iterdir()):
    if path.suffix in (".pcap", ".pcapng"):
        ends = (pcap_ends if path.suffix == ".pcap" else pcapng_ends)(path.read_bytes())
        wrong = cut(path, ends)
        print(path.name, "|", (wrong or [""])[0][:300].replace("\n", " "))
END
if command -v python3 >python3.path; then
    python3 cuts.py "$program" "$recordings" >cuts.said 2>cuts.err || fail 'inspect: recordings cut at each octet' "$(tail -n 1 cuts.err)"
    while IFS='|' read -r name wrong; do
        if [ "$wrong" = ' ' ]; then
            pass "inspect: ${name% } cut at each octet"
        else
            fail "inspect: ${name% } cut at each octet" "$wrong"
        fi
    done <cuts.said
    [ "$(wc -l <cuts.said)" -ge 19 ] || fail 'inspect: recordings cut at each octet' 'some are missing'
else
    fail 'inspect: recordings cut at each octet' 'there is no python3'
fi
