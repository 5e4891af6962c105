#!/usr/bin/env python3
"""What tests/interop/record.sh sends beside the streams of GStreamer and FFmpeg, in a network of its own.

usage: senders.py relay COUNT [--skew SECONDS] [--hold COUNT FILE] TARGET..
       senders.py stray DEVICE ADDRESS PORT
       senders.py tunnel DEVICE FILE

relay takes COUNT datagrams at 127.0.0.1 port 6000 and sends each on to every TARGET, in the order of these. A TARGET is
DEVICE,ADDRESS,PORT,LOST with LOST numbers of datagrams, from 0 on and parted by +, that it doesn't get, or -. With ,TAGS
behind it, as 8100.000a or 88a8.0064+8100.000a, frames of Ethernet with these tags of IEEE 802.1Q are sent. --skew waits
before each next target; --hold waits behind so many datagrams until there is a file of that name.
stray sends to ADDRESS what is no datagram of a stream, a question of DNS and a try of TCP, and to its PORT an empty one.
tunnel holds a device of IP packets, without a link layer, until there is a file of that name.
"""
import fcntl
import os
import socket
import struct
import sys
import time

SECONDS = 20
GATE = "127.0.0.1", 6000


def wait_for(name):
    """Waits until there is a file of that name."""
    end = time.monotonic() + SECONDS
    while not os.path.exists(name):
        if time.monotonic() > end:
            sys.exit(f"senders.py: there is no {name}")
        time.sleep(0.01)


def checksum(octets):
    """The checksum of RFC 1071."""
    total = sum(struct.unpack(f"!{(len(octets) + 1) // 2}H", octets + bytes(len(octets) % 2)))
    while total > 0xFFFF:
        total = (total & 0xFFFF) + (total >> 16)
    return 0xFFFF - total


def packet_of(address, port, payload):
    """An IPv4 packet of UDP from 192.0.2.1, port 5000 (RFC 791, RFC 768)."""
    ends = socket.inet_aton("192.0.2.1") + socket.inet_aton(address)
    size = 8 + len(payload)
    header = struct.pack("!HHH", 5000, port, size)
    found = checksum(ends + struct.pack("!HH", 17, size) + header + bytes(2) + payload) or 0xFFFF
    head = struct.pack("!BBHHHBB", 0x45, 0, 20 + size, 0, 0x4000, 64, 17)
    return head + struct.pack("!H", checksum(head + bytes(2) + ends)) + ends + header + struct.pack("!H", found) + payload


class Plain:
    """Sends datagrams by a device to an address and port of IPv4."""

    def __init__(self, device, address, port):
        self.socket = socket.socket(socket.AF_INET, socket.SOCK_DGRAM)
        self.socket.setsockopt(socket.SOL_SOCKET, socket.SO_BINDTODEVICE, device.encode())
        self.socket.setsockopt(socket.IPPROTO_IP, socket.IP_MULTICAST_TTL, 8)
        self.to = address, port

    def send(self, payload):
        self.socket.sendto(payload, self.to)


class Tagged:
    """Sends frames with tags, as no device that adds them need be there, to a group of IPv4."""

    def __init__(self, device, address, port, tags):
        self.socket = socket.socket(socket.AF_PACKET, socket.SOCK_RAW)
        self.socket.bind((device, 0))
        self.to = address, port
        group = socket.inet_aton(address)
        source = self.socket.getsockname()[4]
        words = b"".join(bytes.fromhex(tag.replace(".", "")) for tag in tags.split("+"))
        self.head = bytes([1, 0, 0x5E, group[1] & 0x7F]) + group[2:] + source + words + b"\x08\x00"

    def send(self, payload):
        self.socket.send(self.head + packet_of(*self.to, payload))


def target_of(text):
    """A target and the numbers of the datagrams that it doesn't get."""
    device, address, port, lost, *tags = text.split(",")
    target = Tagged(device, address, int(port), *tags) if tags else Plain(device, address, int(port))
    return target, set() if lost == "-" else {int(number) for number in lost.split("+")}


def relay(words):
    count = int(words.pop(0))
    skew, held, name = 0.0, None, None
    while words[0].startswith("--"):
        option = words.pop(0)
        if option == "--skew":
            skew = float(words.pop(0))
        else:
            held, name = int(words.pop(0)), words.pop(0)
    targets = [target_of(text) for text in words]
    gate = socket.socket(socket.AF_INET, socket.SOCK_DGRAM)
    gate.bind(GATE)
    gate.settimeout(SECONDS)
    print("ready", flush=True)
    for number in range(count):
        if number == held:
            wait_for(name)
        payload = gate.recv(65536)
        for target, lost in targets:
            if number not in lost:
                target.send(payload)
            time.sleep(skew)


def stray(words):
    device, address, port = words
    question = bytes.fromhex("2a2a01000001000000000000") + b"\x07example\x00\x00\x01\x00\x01"
    Plain(device, address, 53).send(question)
    Plain(device, address, int(port)).send(b"")
    stream = socket.socket(socket.AF_INET, socket.SOCK_STREAM)
    stream.settimeout(1)
    try:
        stream.connect((address, 80))
    except OSError:
        pass


def tunnel(words):
    device, name = words
    held = os.open("/dev/net/tun", os.O_RDWR | os.O_NONBLOCK)
    # TUNSETIFF; IFF_TUN, IFF_NO_PI.
    fcntl.ioctl(held, 0x400454CA, struct.pack("16sH14x", device.encode(), 0x1001))
    print("ready", flush=True)
    wait_for(name)


if __name__ == "__main__":
    commands = {"relay": relay, "stray": stray, "tunnel": tunnel}
    if len(sys.argv) < 3 or sys.argv[1] not in commands:
        sys.exit(__doc__)
    commands[sys.argv[1]](sys.argv[2:])
