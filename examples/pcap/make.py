#!/usr/bin/env python3
"""Writes a capture of three packets with Python's struct module, and with its json module the infoset that it has."""
import json
import pathlib
import struct

folder = pathlib.Path(__file__).parent
station, router = bytes.fromhex("020000000001"), bytes.fromhex("020000000002")


def checksum(octets):
    """The internet checksum of an even number of bytes."""
    total = sum(struct.unpack(f">{len(octets) // 2}H", octets))
    while total >> 16:
        total = (total & 0xFFFF) + (total >> 16)
    return ~total & 0xFFFF


def arp():
    """Who has 192.0.2.1? Tell 192.0.2.7."""
    asked = struct.pack(">HHBBH6s4s6s4s", 1, 0x0800, 6, 4, 1, station, bytes([192, 0, 2, 7]), bytes(6), bytes([192, 0, 2, 1]))
    return b"\xff" * 6 + station + struct.pack(">H", 0x0806) + asked


def echo(kind, source, target, ends):
    """An echo request or reply of 56 bytes of data."""
    data = bytes(range(56))
    body = struct.pack(">BBHHH", kind, 0, 0, 7, 1) + data
    body = body[:2] + struct.pack(">H", checksum(body)) + body[4:]
    addresses = bytes([192, 0, 2, ends[0], 192, 0, 2, ends[1]])
    head = struct.pack(">BBHHHBBH8s", 0x45, 0, 20 + len(body), 1, 0, 64, 1, 0, addresses)
    head = head[:10] + struct.pack(">H", checksum(head)) + head[12:]
    return target + source + struct.pack(">H", 0x0800) + head + body


snaplen = 64
capture = struct.pack("<IHHiIII", 0xA1B2C3D4, 2, 4, 0, 0, snaplen, 1)
packets = []
frames = [arp(), echo(8, station, router, (7, 1)), echo(0, router, station, (1, 7))]
for number, frame in enumerate(frames):
    # A longer packet is cut.
    kept = frame[:snaplen]
    seconds, micros = 1700000000 + number, 250 * number
    capture += struct.pack("<IIII", seconds, micros, len(kept), len(frame)) + kept
    packets.append({"ts_sec": str(seconds), "ts_usec": str(micros), "incl_len": str(len(kept)),
                    "orig_len": str(len(frame)), "data": kept.hex().upper()})
header = {"magic": "D4C3B2A1", "version": {"major": "2", "minor": "4"}, "thiszone": "0", "sigfigs": "0",
          "snaplen": str(snaplen), "network": "1"}
infoset = {"pcap": {"header": header, "packet": packets}}
(folder / "pcap.pcap").write_bytes(capture)
text = json.dumps(infoset, ensure_ascii=False, separators=(",", ":"), sort_keys=True)
(folder / "pcap.json").write_text(text + "\n", encoding="utf-8")
