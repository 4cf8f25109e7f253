#!/usr/bin/env python3
"""Writes a capture of six valid packets: packets.py FILE.

In order: an ARP request, a UDP datagram over IPv4, a TCP segment (SYN) over IPv4, an ICMP echo request, a UDP datagram over IPv6, and a UDP
datagram over IPv4 that fills an Ethernet frame. The file is little-endian, in microseconds (libpcap 2.4, Ethernet).
"""
import struct
import sys

OURS, THEIRS = bytes.fromhex("02000000000a"), bytes.fromhex("02000000000b")
OURS_4, THEIRS_4 = bytes([192, 0, 2, 10]), bytes([192, 0, 2, 11])
OURS_6, THEIRS_6 = bytes.fromhex("20010db80000000000000000000000 0a"), bytes.fromhex("20010db80000000000000000000000 0b")


def checksum(data):
    """The Internet checksum (RFC 1071)."""
    total = sum(struct.unpack(f"!{len(data) // 2 + len(data) % 2}H", data + bytes(len(data) % 2)))
    while total >> 16:
        total = (total & 0xFFFF) + (total >> 16)
    return ~total & 0xFFFF


def with_checksum(data, at, before=b""):
    """The data with the checksum of all of it, and of what is counted before it, put at a place."""
    return data[:at] + struct.pack("!H", checksum(before + data) or 0xFFFF) + data[at + 2 :]


def ethernet(kind, data):
    return (OURS + THEIRS + struct.pack("!H", kind) + data).ljust(60, b"\0")


def ipv4(protocol, data):
    head = struct.pack("!BBHHHBBH4s4s", 0x45, 0, 20 + len(data), 1, 0, 64, protocol, 0, THEIRS_4, OURS_4)
    return ethernet(0x0800, with_checksum(head, 10) + data)


def over_4(protocol, data):
    """What is counted before a datagram or segment over IPv4."""
    return THEIRS_4 + OURS_4 + struct.pack("!BBH", 0, protocol, len(data))


def udp(data, port=53):
    return struct.pack("!HHHH", 40000, port, 8 + len(data), 0) + data


def packets():
    yield ethernet(0x0806, struct.pack("!HHBBH", 1, 0x0800, 6, 4, 1) + THEIRS + THEIRS_4 + bytes(6) + OURS_4)
    query = udp(bytes.fromhex("000101000001000000000000076578616d706c6503636f6d0000010001"))
    yield ipv4(17, with_checksum(query, 6, over_4(17, query)))
    syn = struct.pack("!HHIIBBHHH", 40001, 80, 1000, 0, 5 << 4, 2, 64240, 0, 0)
    yield ipv4(6, with_checksum(syn, 16, over_4(6, syn)))
    yield ipv4(1, with_checksum(struct.pack("!BBHHH", 8, 0, 0, 7, 1) + bytes(range(32)), 2))
    over_6 = udp(b"hello", 7)
    counted = THEIRS_6 + OURS_6 + struct.pack("!II", len(over_6), 17)
    yield ethernet(0x86DD, struct.pack("!IHBB", 6 << 28, len(over_6), 17, 64) + THEIRS_6 + OURS_6 + with_checksum(over_6, 6, counted))
    full = udp(bytes(i % 251 for i in range(1472)), 9)
    yield ipv4(17, with_checksum(full, 6, over_4(17, full)))


def main():
    with open(sys.argv[1], "wb") as file:
        file.write(struct.pack("<IHHiIII", 0xA1B2C3D4, 2, 4, 0, 0, 65535, 1))
        for i, packet in enumerate(packets()):
            file.write(struct.pack("<IIII", 1_700_000_000 + i // 2, i * 1000, len(packet), len(packet)) + packet)


main()
