"""Worked files, as they are and with another octet at a place, cut at each octet: what their first
octets are refused for, or what is written of them. A field that isn't whole is told before its
content."""
import files

# capture-of-one of version 01 and 02, with the text `v=0`, and of both paths.
DATAGRAM = bytes.fromhex("80E00001000003840000000100000008000000008010801180128013")
BY_A = bytes.fromhex("000000000000000000001C") + DATAGRAM
BY_B = bytes.fromhex("010000000000000001001C") + DATAGRAM
OLD, NEW = b"S20CAP01" + BY_A, b"S20CAP02\0\0" + BY_A
WITH_TEXT = b"S20CAP02\0\3v=0" + BY_A
BOTH_OLD, BOTH_NEW = OLD + BY_B, WITH_TEXT + BY_B
# picture-file and contested-state-file.
FORMAT = bytes.fromhex("0008000400020000003C00000001")
PICTURE = b"S20PIC01" + FORMAT + bytes.fromhex("80108011801280138014801580168017")
RECEIVER = b"S20RCV01" + FORMAT
RECEIVER += bytes.fromhex("60000000000001000003840200028000801101801280130000")
# A file, a place and the octet that stands there, or behind it; the first rows change nothing.
CAPTURES = (
    (OLD, 0, b"S"), (NEW, 0, b"S"), (WITH_TEXT, 0, b"S"), (BOTH_OLD, 0, b"S"), (BOTH_NEW, 0, b"S"),
    (OLD, 0, b"T"), (OLD, 5, b"Q"), (OLD, 6, b"1"), (NEW, 7, b"3"), (OLD, 8, b"\2"),
    (BOTH_OLD, 47, b"\2"), (OLD, 18, b"\x1d"), (WITH_TEXT, 9, b"\x2b"), (BOTH_OLD, 7, b"3"),
)
PICTURES = (
    (38, b"\0"), (0, b"T"), (5, b"P"), (6, b"1"), (7, b"2"), (8, b"\3"), (9, b"\x0e"), (11, b"\3"),
    (13, b"\0"), (17, b"\0"), (21, b"\2"),
)
RECEIVERS = (
    (47, b"\0"), (0, b"T"), (5, b"P"), (6, b"1"), (7, b"2"), (8, b"\3"), (9, b"\x0e"), (21, b"\2"),
    (22, b"\x80"), (23, b"\2"), (24, b"\1"), (28, b"\0"), (28, b"\x11"), (28, b"\2"), (33, b"\3"),
    (35, b"\0"), (35, b"\x12"), (37, b"\1"), (40, b"\3"), (46, b"\3"),
)


def cuts(file, place, octet):
    """The first octets of a file with another octet, however many."""
    octets = file[:place] + octet + file[place + 1:]
    return [octets[:end] for end in range(len(octets) + 1)]


def trials(draws, count):
    for change in CAPTURES:
        for octets in cuts(*change):
            yield files.capture_trial(draws, octets)
    for place, octet in PICTURES:
        for octets in cuts(PICTURE, place, octet):
            yield files.picture_trial(octets)
    for place, octet in RECEIVERS:
        for octets in cuts(RECEIVER, place, octet):
            yield files.state_trial(octets)
