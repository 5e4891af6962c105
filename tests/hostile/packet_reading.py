"""A second reading of recorded packets, written apart from the libraries: the datagram, or why
there is none (the registry of link-layer header types; IEEE 802.1Q; RFC 791, 3.1; RFC 8200, 3 and
4; RFC 768; docs/FAULTS.md, NoDatagram)."""
import collections
import ipaddress

REASONS = ("CutShort", "NotIp", "BadIpHeader", "NotUdp", "Fragment", "BadUdpLength")
# Versions of IP by the family of addresses, 2 everywhere, and 24, 28 and 30 of the BSDs and macOS;
# and by Ethernet's type.
FAMILIES = {2: 4, 24: 6, 28: 6, 30: 6}
TYPES = {0x0800: 4, 0x86DD: 6}
TAGS = (0x8100, 0x88A8)

Datagram = collections.namedtuple("Datagram", "source destination port payload")


class Omitted(Exception):
    """A packet is no datagram: the reason's name."""


def number(octets, at, count, order="big"):
    """A number; octets behind the end count as 0."""
    return int.from_bytes(octets[at:at + count].ljust(count, b"\0"), order)


def part(octets, at, count, reason):
    if at + count > len(octets):
        raise Omitted(reason)
    return octets[at:at + count]


def behind(octets, count, version):
    """What is behind a header of so many octets, which says a version of IP."""
    part(octets, 0, count, "CutShort")
    if version is None:
        raise Omitted("NotIp")
    return version, octets[count:]


def behind_tags(octets, at):
    """What is behind so many octets, up to two tags, and a type."""
    for _ in range(2):
        if number(octets, at, 2) in TAGS:
            at += 4
    return behind(octets, at + 2, TYPES.get(number(octets, at, 2)))


def behind_link(link, octets):
    """The version of IP and its packet, behind the header of a link layer."""
    family = FAMILIES.get(number(octets, 0, 4))
    if link == 0:
        return behind(octets, 4, family or FAMILIES.get(number(octets, 0, 4, "little")))
    if link in (1, 113):
        return behind_tags(octets, 12 if link == 1 else 14)
    if link == 101:
        version = number(octets, 0, 1) >> 4
        return behind(octets, 0, version if version in (4, 6) else None)
    if link == 108:
        return behind(octets, 4, family)
    if link in (228, 229):
        return (4 if link == 228 else 6), octets
    if link == 276:
        return behind(octets, 20, TYPES.get(number(octets, 0, 2)))
    raise Omitted("NotIp")


def read_packet_4(octets):
    header = part(octets, 0, 20, "CutShort")
    length, total = 4 * (header[0] & 15), number(header, 2, 2)
    if header[0] >> 4 != 4 or length < 20 or total < length:
        raise Omitted("BadIpHeader")
    packet = part(octets, 0, total, "CutShort")
    if header[9] != 17:
        raise Omitted("NotUdp")
    if number(header, 6, 2) & 0x3FFF:
        raise Omitted("Fragment")
    return read_udp(header[12:16], header[16:20], packet[length:])


def read_packet_6(octets):
    header = part(octets, 0, 40, "CutShort")
    if header[0] >> 4 != 6:
        raise Omitted("BadIpHeader")
    payload, following = part(octets, 40, number(header, 4, 2), "CutShort"), header[6]
    while following in (0, 43, 60):
        extension = part(payload, 0, 8 + 8 * number(payload, 1, 1), "BadIpHeader")
        following, payload = extension[0], payload[len(extension):]
    if following != 17:
        raise Omitted("Fragment" if following == 44 else "NotUdp")
    return read_udp(header[8:24], header[24:40], payload)


def read_udp(source, destination, carried):
    part(carried, 0, 8, "BadUdpLength")
    length = number(carried, 4, 2)
    if length < 8:
        raise Omitted("BadUdpLength")
    payload = part(carried, 0, length, "BadUdpLength")[8:]
    source, destination = ipaddress.ip_address(source), ipaddress.ip_address(destination)
    return Datagram(source, destination, number(carried, 2, 2), payload)


def read_packet(link, octets):
    """The datagram in the packet of a link layer."""
    version, packet = behind_link(link, octets)
    return read_packet_4(packet) if version == 4 else read_packet_6(packet)
