#!/usr/bin/env python3
"""Writes payroll.bin, records of 80 bytes with packed and zoned fields, and payroll.json with Python's json module."""
import json
import pathlib
from decimal import Decimal

folder = pathlib.Path(__file__).parent


def digits(value, count):
    return str(abs(int(Decimal(value).scaleb(2)))).zfill(count)


def packed(value, size):
    sign = "D" if Decimal(value) < 0 else "C"
    return bytes.fromhex(digits(value, 2 * size - 1) + sign)


def zoned(value, size):
    text = digits(value, size)
    last = ("}JKLMNOPQR" if Decimal(value) < 0 else "{ABCDEFGHI")[int(text[-1])]
    return (text[:-1] + last).encode("ascii")


def shortest(value):
    text = format(Decimal(value).normalize(), "f")
    return text


people = [
    (4711, "LOVELACE, ADA", "12.50", "37.25", "1024.64"),
    (4712, "HOPPER, GRACE", "99999.99", "0", "-7.05"),
    (12, "TURING, ALAN", "-0.10", "160", "0"),
]
data = b""
items = []
for number, name, rate, hours, balance in people:
    record = str(number).zfill(6).encode() + name.ljust(30).encode() + packed(rate, 4) + packed(hours, 3) + zoned(balance, 9)
    data += record.ljust(80)
    items.append({"number": str(number), "name": name, "rate": shortest(rate), "hours": shortest(hours), "balance": shortest(balance)})
(folder / "payroll.bin").write_bytes(data)
text = json.dumps({"payroll": {"person": items}}, separators=(",", ":"), sort_keys=True)
(folder / "payroll.json").write_text(text + "\n")
