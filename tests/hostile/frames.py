"""Hostile packets, mostly sound: a header of the link layer, IPv4 or IPv6, and mostly UDP."""
from draws import big, longs, words

# The link layers, each as often as it stands here; the last ones aren't read.
LINKS = (1, 1, 1, 1, 1, 0, 101, 108, 113, 113, 228, 229, 276, 276, 105, 147)
# How many tags of a VLAN stand before a packet, each number as often as it stands here.
TAGS = (0, 0, 0, 0, 0, 1, 1, 2, 2, 3)
# Families of addresses: of IPv6 in the BSDs and macOS; the last one is Linux's.
FAMILIES = (24, 28, 30, 24, 28, 30, 30, 10)
# How many words of options IPv4 has; its flags without a fragment, and those of fragments: first,
# middle and last ones.
OPTIONS = (0, 0, 0, 0, 1, 3, 10)
WHOLE = (0, 0x4000, 0x4000, 0x8000)
FRAGMENTS = (0x2000, 0x2000, 0xA000, 0x20B9, 0x00B9)
# How many extensions IPv6 has, and which; and what isn't UDP behind them: a fragment, and other
# protocols.
EXTENSIONS = (0, 0, 0, 0, 1, 1, 2, 3)
PASSED = (0, 43, 60)
OTHERS = (44, 44, 44, 6, 58, 59, 51, 135)
# How many octets a datagram has, and how many stand behind the packet.
PAYLOADS = (0, 1, 8, 12, 20, 33)
BEHIND = (0, 0, 0, 0, 0, 1, 4, 18)
# Addresses and ports, of which flows are made; others come too.
SOURCES = {
    4: (b"\xc0\0\2\1", b"\xc0\0\2\2"),
    6: (b"\xfe\x80" + b"\0" * 13 + b"\1", b"\x20\1\x0d\xb8" + b"\0" * 11 + b"\1"),
}
GROUPS = {
    4: (b"\xef\1\1\1", b"\xef\1\1\2"),
    6: (b"\xff\x3e" + b"\0" * 13 + b"\1", b"\xff\x3e\0\1" + b"\0" * 11 + b"\1"),
}
PORTS = (5004, 5004, 5006, 5008)


def any_link(draws):
    """A link layer, mostly one that is read."""
    return draws.below(65536) if draws.one_in(64) else draws.pick(LINKS)


def frame(draws, link):
    """A packet of a link layer."""
    version = 6 if draws.one_in(3) else 4
    if link in (228, 229) and not draws.one_in(32):
        version = 4 if link == 228 else 6
    packet = packet_4(draws) if version == 4 else packet_6(draws)
    return link_header(draws, link, version) + packet + draws.octets(draws.pick(BEHIND))


def link_header(draws, link, version):
    if link in (0, 108):
        family = longs(draws.rarely(2 if version == 4 else draws.pick(FAMILIES), 2**32 - 1))
        return family[::-1] if link == 0 and draws.one_in(2) else family
    if link in (1, 113):
        octets = draws.octets(12 if link == 1 else 14)
        for _ in range(draws.pick(TAGS)):
            octets += words(draws.pick((0x8100, 0x88A8))) + draws.octets(2)
        return octets + ethernet_type(draws, version)
    return ethernet_type(draws, version) + draws.octets(18) if link == 276 else b""


def ethernet_type(draws, version):
    return words(draws.one_of(24, 65536, 0x0800 if version == 4 else 0x86DD))


def addresses(draws, version):
    """A source and a destination, mostly known ones."""
    octets = b""
    for known in (SOURCES, GROUPS):
        address = draws.pick(known[version])
        octets += draws.octets(len(address)) if draws.one_in(12) else address
    return octets


def packet_4(draws):
    """A packet of IPv4 (RFC 791, 3.1)."""
    options, carried = draws.pick(OPTIONS), datagram(draws)
    length = draws.rarely(options + 5, 15) % 16
    total = draws.rarely(20 + 4 * options + len(carried), 65535)
    total = draws.at_bound(total, (19, 20, 19 + 4 * options), 96)
    flags = draws.one_of(32, 65536, draws.pick(FRAGMENTS if draws.one_in(16) else WHOLE))
    octets = big(draws.rarely(4, 15) << 4 | length, 1) + draws.octets(1) + words(total)
    octets += draws.octets(2) + words(flags)
    octets += b"\x40" + big(draws.one_of(16, 256, 17), 1) + draws.octets(2) + addresses(draws, 4)
    return octets + draws.octets(4 * options) + carried


def packet_6(draws):
    """A packet of IPv6 (RFC 8200, 3 and 4)."""
    kinds = [draws.pick(PASSED) for _ in range(draws.pick(EXTENSIONS))]
    kinds.append(draws.pick(OTHERS) if draws.one_in(8) else 17)
    payload = b""
    for following in kinds[1:]:
        size = draws.below(3)
        payload += big(following, 1) + big(draws.rarely(size, 255), 1) + draws.octets(8 * size + 6)
    payload += datagram(draws)
    octets = big(draws.rarely(6, 15) << 4, 1) + draws.octets(3)
    octets += words(draws.rarely(len(payload), 65535))
    return octets + big(kinds[0], 1) + b"\x40" + addresses(draws, 6) + payload


def datagram(draws):
    """A datagram of UDP (RFC 768)."""
    payload = draws.octets(draws.pick(PAYLOADS))
    port = draws.below(65536) if draws.one_in(16) else draws.pick(PORTS)
    length = draws.at_bound(draws.rarely(len(payload) + 8, 65535), (0, 7, 8), 48)
    return draws.octets(2) + words(port, length) + draws.octets(2) + payload
