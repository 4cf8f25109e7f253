#!/usr/bin/env python3
"""Writes a capture of 429 packets, of all kinds that the programs of this folder look at: traffic.py FILE.

The packets are drawn from a fixed seed: TCP segments with sound and odd flags, knocks on ports, UDP datagrams, DNS queries and answers, pings,
fragments, headers with a wrong checksum, tagged frames, ARP and IPv6, from twelve senders, with gaps from none to 0.8 seconds between them;
amid them come a burst of connections and three right knocks.
"""
import random
import struct
import sys

draw = random.Random(1)
SERVICE = bytes([192, 0, 2, 10])


def checksum(data):
    """The Internet checksum (RFC 1071)."""
    total = sum(struct.unpack(f"!{len(data) // 2 + len(data) % 2}H", data + bytes(len(data) % 2)))
    while total >> 16:
        total = (total & 0xFFFF) + (total >> 16)
    return ~total & 0xFFFF


def with_checksum(data, at, before=b""):
    """The data with the checksum of all of it, and of what is counted before it, put at a place."""
    return data[:at] + struct.pack("!H", checksum(before + data) or 0xFFFF) + data[at + 2 :]


def station(number):
    return bytes([2, 0, 0, 0, 0, number])


def address(number):
    return bytes([198, 51, 100, number])


def ethernet(sender, kind, data):
    return (station(draw.randrange(12)) + station(sender) + struct.pack("!H", kind) + data).ljust(60, b"\0")


def ipv4(sender, protocol, data, to=SERVICE, fragment=0, ttl=64, is_wrong=False):
    head = struct.pack("!BBHHHBBH4s4s", 0x45, 0, 20 + len(data), draw.randrange(65536), fragment, ttl, protocol, 0, address(sender), to)
    head = with_checksum(head, 10)
    return ethernet(sender, 0x0800, (head[:10] + b"\x12\x34" + head[12:] if is_wrong else head) + data)


def counted(sender, protocol, data, to=SERVICE):
    """What is counted before a datagram or a segment."""
    return address(sender) + to + struct.pack("!BBH", 0, protocol, len(data))


def tcp(sender, to_port, flags, from_port=None, size=0):
    head = struct.pack("!HHIIBBHHH", from_port or 40000 + sender, to_port, draw.randrange(1 << 32), 0, 5 << 4, flags, 64240, 0, 0)
    data = head + bytes(size)
    return ipv4(sender, 6, with_checksum(data, 16, counted(sender, 6, data)))


def udp(sender, from_port, to_port, payload):
    data = struct.pack("!HHHH", from_port, to_port, 8 + len(payload), 0) + payload
    return ipv4(sender, 17, with_checksum(data, 6, counted(sender, 17, data)))


def payload(most):
    return bytes(draw.randrange(256) for _ in range(draw.randrange(8, most)))


def dns(sender):
    number = draw.randrange(4)
    if draw.random() < 0.5:
        return udp(sender, 5353, 53, struct.pack("!HH", number, 0x0100) + bytes(12))
    data = struct.pack("!HHHH", 53, 5353, 24, 0) + struct.pack("!HH", number, 0x8180) + bytes(12)
    head = struct.pack("!BBHHHBBH4s4s", 0x45, 0, 44, 1, 0, 64, 17, 0, SERVICE, address(sender))
    return ethernet(0, 0x0800, with_checksum(head, 10) + data)


def packet(kind, sender):
    if kind < 8:
        return tcp(sender, draw.choice([80, 443, 22, 8080]), draw.choice([2, 2, 16, 16, 24, 17, 4, 0, 3]), size=draw.randrange(600))
    if kind < 10:
        return tcp(sender, draw.choice([7001, 7002, 7003, 22]), 2)
    if kind < 12:
        return udp(sender, draw.choice([5004, 1812, 50000]), draw.choice([80, 9000, 7]), payload(200))
    if kind < 14:
        return udp(sender, 50000 + sender, 9000, payload(1400))
    if kind < 17:
        return dns(sender)
    if kind == 17:
        return ipv4(sender, 1, with_checksum(struct.pack("!BBHHH", 8, 0, 0, 7, 1) + bytes(range(32)), 2))
    if kind == 18:
        return ipv4(sender, 17, bytes(64), fragment=draw.choice([0x2000, 0x00B9]))
    if kind == 19:
        return ipv4(sender, 6, bytes(40), ttl=draw.randrange(3), is_wrong=draw.random() < 0.5)
    if kind < 22:
        return ethernet(sender, 0x8100, struct.pack("!HH", draw.randrange(8) << 13 | draw.choice([1, 100, 200]), 0x0800) + bytes(46))
    return ethernet(sender, draw.choice([0x0806, 0x86DD]), bytes(46))


def packets():
    """Each with the microseconds since the one before."""
    for i in range(400):
        if i == 200:
            yield from ((0, tcp(5, 443, 2)) for _ in range(24))
            yield from ((100, tcp(9, port, 2)) for port in (7001, 7002, 7003, 22, 22))
        yield draw.choice([0, 3, 40, 700, 9000, 90_000, 800_000]), packet(draw.randrange(24), draw.randrange(1, 13))


def main():
    now = 1_700_000_000_000_000
    with open(sys.argv[1], "wb") as file:
        file.write(struct.pack("<IHHiIII", 0xA1B2C3D4, 2, 4, 0, 0, 65535, 1))
        for gap, data in packets():
            now += gap
            file.write(struct.pack("<IIII", now // 1_000_000, now % 1_000_000, len(data), len(data)) + data)


main()
