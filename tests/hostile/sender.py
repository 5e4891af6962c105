"""A second sender, written apart from the libraries: the datagrams of a picture (RFC 3550, 5.1; RFC
4175, 4; SMPTE ST 2110-20, general packing), and the capture that `send` and `process` write."""
import collections

import file_reading
import rehearsal_reading
import sdp_reading
from draws import longs, words

# What is sent with: the payload type, the first packet number, the timestamp and the source.
Stamp = collections.namedtuple("Stamp", "payload_type first timestamp ssrc")


def runs_of(groups, format):
    """The row, the first pgroup and the number of pgroups of each segment of a packet."""
    by_row, at, runs = format.width // format.pgroup[1], groups.start, []
    while at < groups.stop:
        count = min(groups.stop - at, by_row - at % by_row)
        runs.append((at // by_row, at % by_row, count))
        at += count
    return runs


def datagram(stamp, number, is_last, format, runs, data):
    """A packet of these runs, which have these octets."""
    size, pixels, _ = format.pgroup
    octets = words(0x8000 | is_last << 7 | stamp.payload_type, number)
    octets += longs(stamp.timestamp, stamp.ssrc) + words(number >> 16)
    for place, (row, first, count) in enumerate(runs, 1):
        octets += words(count * size, row, (place < len(runs)) << 15 | first * pixels)
    return octets + data


def datagrams_of(stamp, most, format, picture, packets=None):
    """The datagrams of a picture's octets, of at most so many octets, or of these packets."""
    size, sent = format.pgroup[0], []
    packets = packets or rehearsal_reading.packets_of(most, format)
    for place, groups in enumerate(packets):
        number, is_last = (stamp.first + place) % 2**32, place + 1 == len(packets)
        data = picture[groups.start * size:groups.stop * size]
        sent.append(datagram(stamp, number, is_last, format, runs_of(groups, format), data))
    return sent


def sdp_of(format, payload_type):
    """An SDP text of a format, as `receive` opens a receiver by it."""
    line = sdp_reading.canonical_line(
        sdp_reading.Leg(payload_type, format, b"NARROW", b"BT709")
    )
    text = "m=video 5004 RTP/AVP %d\na=rtpmap:%d raw/90000\n%s\n"
    return (text % (payload_type, payload_type, line)).encode()


def capture_of(datagrams, text=b"", path=0):
    """The capture of datagrams of one path, each at the next moment."""
    records = [file_reading.Record(path, *record) for record in enumerate(datagrams)]
    return file_reading.capture_octets(text, records)


def picture_file(format, picture):
    """The file of a picture's octets (docs/FORMATS.md, "Picture files")."""
    return b"S20PIC01" + file_reading.block_octets(format) + picture
