"""Packets of every kind, one after the other, with the lines that show them."""
import struct


def packet(n):
    """The n-th packet and its line; the kinds take turns."""
    act, other, ep, grant, number = n % 64, (n + 7) % 64, n % 16, n % 4096 + 1, n + 1
    name = f"{act}.{number}"
    payload = bytes((n + i) % 256 for i in range(n % 65))
    issued = struct.pack("<BI", act, number)
    kind = n % 7
    if kind == 0:
        header = struct.pack("<BBBBHHIIIQ", 0, ep, act, 0, len(payload), 0, grant, grant, number, n)
        to = struct.pack("<BBI", other, ep, grant)
        line = f"message {name} to {other} ep {ep} grant {grant} send {grant} label {n} reply {ep} grant {grant}"
        return b"\x01" + to + header + payload, f"{line} {payload.hex() or '-'}"
    if kind == 1:
        return b"\x02" + issued + struct.pack("<BI", other, grant), f"credit {name} to {other} grant {grant}"
    if kind == 2:
        return b"\x03" + issued + struct.pack("<IIH", grant, n, 64), f"read {name} grant {grant} place {n} len 64"
    if kind == 3:
        fields = struct.pack("<IIH", grant, n, len(payload))
        return b"\x04" + issued + fields + payload, f"write {name} grant {grant} place {n} {payload.hex() or '-'}"
    if kind == 4:
        fields = struct.pack("<BH", 3, len(payload))
        return b"\x05" + issued + fields + payload, f"answer {name} bytes {payload.hex() or '-'}"
    at = struct.pack("<IBB", number, other, ep)
    if kind == 5:
        record = struct.pack("<BIBBIQHB", 1, grant, act, ep, grant, n, 64, 8)
        line = f"install k.{number} to {other} ep {ep} send grant {grant} to {act} ep {ep} grant {grant}"
        return b"\x06" + at + record, f"{line} label {n} size 64 credits 8"
    return b"\x07" + at + struct.pack("<I", grant), f"close k.{number} to {other} ep {ep} grant {grant}"


def small(n):
    """The n-th packet of 7 bytes: that a command was sent."""
    act, number = n % 64, n + 1
    return b"\x05" + struct.pack("<BIB", act, number, 0), f"answer {act}.{number} sent"


def large(n):
    """The n-th packet of 4,096 bytes that were read."""
    act, number = n % 64, n + 1
    payload = bytes((n + i) % 256 for i in range(4096))
    return b"\x05" + struct.pack("<BIBH", act, number, 3, len(payload)) + payload, f"answer {act}.{number} bytes {payload.hex()}"


def make(size, packet=packet):
    """At most this many bytes of packets, their lines, and how many they are."""
    data, lines = bytearray(), []
    while True:
        spelled, line = packet(len(lines))
        if len(data) + len(spelled) > size:
            return bytes(data), "\n".join([*lines, ""]).encode(), len(lines)
        data += spelled
        lines.append(line)


def make_small(size):
    return make(size, small)


def make_large(size):
    return make(size, large)
