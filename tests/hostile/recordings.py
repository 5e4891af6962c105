"""Hostile recordings given to `import`, which writes the datagrams of flows, and to `inspect`,
which counts all of them and what is none by its reason. `inspect` prints nothing at most faults, so
that what stands before a fault is given to it by itself, many recordings in one run."""
import collections
import decimal
import json

import file_reading
import packet_reading
import receivers
import recording_reading
from files import TEXT
from programs import Trial
from recording_files import make_recording, pcap_pieces, pcapng_pieces

# How many recordings one run of `inspect` has.
BATCH = 16
# The most streams of a flow that are told.
STREAMS = 16
SOURCES = ("192.0.2.1", "192.0.2.2", "fe80::1", "2001:db8::1")
GROUPS = ("239.1.1.1", "239.1.1.2", "ff3e::1", "ff3e:1::1")


class Flow(collections.namedtuple("Flow", "interface source address port")):
    """Where datagrams go, and where they come from and were taken, if that is said."""

    def has(self, packet, datagram):
        name = packet.name.decode("latin-1") if packet.name is not None else None
        return (self.port == datagram.port and self.address in ("", str(datagram.destination))
                and self.source in ("", str(datagram.source)) and self.interface in ("", name))

    def text(self):
        address = "[%s]" % self.address if ":" in self.address else self.address
        source = "[%s]" % self.source if ":" in self.source else self.source
        place = "%s:%d" % (address, self.port) if address else "%d" % self.port
        return (self.interface and self.interface + "@") + (source and source + ">") + place


def any_flow(draws, port):
    """A flow, mostly of a port alone."""
    version = draws.below(2) * 2
    source = SOURCES[version + draws.below(2)] if draws.one_in(6) else ""
    address = GROUPS[version + draws.below(2)] if draws.one_in(4) else ""
    interface = draws.pick(("eth0", "eth1", "a" * 64)) if draws.one_in(6) else ""
    return Flow(interface, source, address, port)


def any_flows(draws):
    """A flow for each path, or for one of them, by their paths; of one port now and then, where all
    else tells them apart."""
    flows = {"a": any_flow(draws, 5004), "b": any_flow(draws, 5004 if draws.one_in(4) else 5006)}
    if draws.one_in(4) or flows["a"] == flows["b"]:
        del flows[draws.pick("ab")]
    return flows


class Contents:
    """The packets of recordings: the datagrams among them, and by which reasons the others are
    none."""

    def __init__(self, readings):
        self.datagrams, self.reasons = [], collections.Counter()
        for reading in readings:
            for packet in reading.packets:
                self.enter(packet)

    def enter(self, packet):
        try:
            self.datagrams.append((packet, packet_reading.read_packet(packet.link, packet.octets)))
        except packet_reading.Omitted as reason:
            self.reasons[str(reason)] += 1

    def record(self, flows, packet, datagram):
        """The record of a datagram: by A where it is of both flows, and None where it is of
        neither."""
        for place, path in enumerate("ab"):
            if path in flows and flows[path].has(packet, datagram):
                return file_reading.Record(place, packet.time or 0, datagram.payload)
        return None


class ImportTrial(Trial):
    """What `import` writes of a recording, and which packets it leaves out by which reasons."""

    def __init__(self, octets, flows, reading):
        found = Contents([reading])
        records = [found.record(flows, *pair) for pair in found.datagrams]
        kept = [record for record in records if record]
        command = ["import", "-v", "--sdp", "text.sdp", "--out", "-", "recording"]
        for path in sorted(flows):
            command += ["--" + path, flows[path].text()]
        fault = import_fault(octets, reading)
        begins = bool(kept) or fault is None
        output = file_reading.capture_octets(TEXT, kept) if begins else b""
        told = self.counts(found.reasons, kept, len(records) - len(kept))
        if fault is not None:
            told = "st2110: %s\n" % fault
        came = collections.Counter({"packets: datagram": len(records)})
        came.update({"packets: " + reason: count for reason, count in found.reasons.items()})
        came["recordings: %s" % (reading.fault or "read")] += 1
        came["records of the flows"] = len(kept)
        files = {"text.sdp": TEXT, "recording": octets}
        super().__init__(command, b"", int(fault is not None), output, told, came, files)

    @staticmethod
    def counts(reasons, kept, others):
        """What is told of the packets of a recording without fault."""
        by_a = sum(record.path == 0 for record in kept)
        left = sum(reasons.values()) + others
        lines = ["recorded A %d B %d left out %d" % (by_a, len(kept) - by_a, left)]
        told = [(reasons[reason], reason) for reason in packet_reading.REASONS]
        told.append((others, "of another flow"))
        lines += ["  left out %d %s" % pair for pair in told if pair[0]]
        return "\n".join(lines) + "\n"

    def view(self, answer):
        """Without the place of a fault, and without the flows that are told where nothing was
        recorded."""
        lines = answer.faults.splitlines(True)
        fronts = (b"st2110: ", b"recorded ", b"  left out ")
        return answer._replace(faults=b"".join(line for line in lines if line.startswith(fronts)))


def import_fault(octets, reading):
    """The fault that `import` tells: what doesn't begin as a recording is read as a capture."""
    if octets[:4] in recording_reading.MAGICS or octets[:4] == recording_reading.SECTION:
        return reading.fault and "recording " + reading.fault
    fault = file_reading.read_capture(octets)[2]
    return fault and "capture " + fault


class FlowCount:
    """What is told of the datagrams to one place."""

    def __init__(self):
        self.datagrams, self.octets, self.rtp, self.rtcp = 0, 0, 0, 0
        self.streams, self.moments = collections.OrderedDict(), []

    def enter(self, moment, payload):
        self.datagrams += 1
        self.octets += len(payload)
        if moment is not None:
            self.moments.append(moment)
        if len(payload) > 1 and payload[0] >> 6 == 2 and 200 <= payload[1] <= 204:
            self.rtcp += 1
        elif is_rtp(payload):
            self.rtp += 1
            key = payload[1] & 127, int.from_bytes(payload[8:12], "big")
            self.streams.setdefault(key, []).append(int.from_bytes(payload[4:8], "big"))

    def told(self, name):
        """As `inspect --json` tells it."""
        first, last = (min(self.moments), max(self.moments)) if self.moments else (None, None)
        streams = [stream_told(key, stamps) for key, stamps in list(self.streams.items())[:STREAMS]]
        rate = None
        if self.moments and first < last:
            rate = decimal.Decimal(self.octets * 800000 // (last - first)) / 100
        return {
            "flow": name, "datagrams": self.datagrams, "octets": self.octets, "rtp": self.rtp,
            "rtcp": self.rtcp, "streams": streams, "other_streams": len(self.streams) > STREAMS,
            "first": seconds(first), "last": seconds(last), "mbit_per_second": rate,
        }


def is_rtp(payload):
    try:
        receivers.rtp_payload(payload)
    except receivers.Refused:
        return False
    return True


def stream_told(key, stamps):
    """A stream's first and last timestamp: one less than 2^31 ticks ahead of the last is behind it,
    and one as much before the first is before that."""
    first = last = stamps[0]
    for stamp in stamps:
        if 0 < (stamp - last) % 2**32 < 2**31:
            last = stamp
        if 0 < (first - stamp) % 2**32 < 2**31:
            first = stamp
    return {
        "payload_type": key[0], "source": key[1], "datagrams": len(stamps),
        "first_timestamp": first, "last_timestamp": last,
    }


def seconds(nanoseconds):
    return None if nanoseconds is None else decimal.Decimal(nanoseconds).scaleb(-9)


def flows_told(readings):
    """What `inspect --json` tells of recordings, object by object."""
    found, flows = Contents(readings), collections.OrderedDict()
    for packet, datagram in found.datagrams:
        name = Flow("", "", str(datagram.destination), datagram.port).text()
        flows.setdefault(name, FlowCount()).enter(packet.time, datagram.payload)
    left_out = {reason: found.reasons[reason] for reason in packet_reading.REASONS}
    told = [flow.told(name) for name, flow in flows.items()]
    return told + [{"flows": len(flows), "left_out": left_out}]


class InspectTrial(Trial):
    """What `inspect` tells of recordings, of which the last may be at fault."""

    def __init__(self, files, readings):
        fault = readings[-1].fault
        told = flows_told(readings) if fault in (None, "2 Truncated") else []
        names = ["recording-%d" % place for place in range(len(files))]
        faults = "st2110: recording %s\n" % fault if fault else ""
        command, status = ["inspect", "--json"] + names, int(fault is not None)
        super().__init__(command, b"", status, told, faults, {}, zip(names, files))

    def view(self, answer):
        lines = answer.output.decode("latin-1").splitlines()
        try:
            told = [json.loads(line, parse_float=decimal.Decimal) for line in lines]
        except ValueError:
            return answer
        return answer._replace(output=told)


def trials(draws, count, pieces_of):
    """The trials of so many recordings."""
    sound = []
    for _ in range(count):
        octets = make_recording(draws, pieces_of)
        reading = recording_reading.Reading(octets)
        yield ImportTrial(octets, any_flows(draws), reading)
        if reading.fault:
            yield InspectTrial([octets], [reading])
        if reading.packets:
            sound.append(octets[:reading.sound])
        if len(sound) == BATCH:
            yield InspectTrial(sound, [recording_reading.Reading(octets) for octets in sound])
            sound = []
    if sound:
        yield InspectTrial(sound, [recording_reading.Reading(octets) for octets in sound])


def pcap_trials(draws, count):
    return trials(draws, count, pcap_pieces)


def pcapng_trials(draws, count):
    return trials(draws, count, pcapng_pieces)
