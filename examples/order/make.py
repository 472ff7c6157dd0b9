#!/usr/bin/env python3
"""Writes order.edi and, with Python's json module, order.json, from one list of segments."""
import json
import pathlib

folder = pathlib.Path(__file__).parent


def released(text):
    """The text with the release character before each character that means something."""
    return "".join("?" + c if c in "?+'" else c for c in text)


def segment(tag, fields):
    """A segment: fields that are missing at the end are left out with their separators."""
    while fields and fields[-1] is None:
        fields = fields[:-1]
    return tag + "".join("+" + released(field or "") for field in fields) + "'\n"


header = {"number": "4711", "buyer": "O'Hara + Sons"}
items = [
    {"article": "bolt M8", "quantity": "200", "price": "0.35"},
    {"article": "nut M8", "quantity": "200"},
    {"article": "sealant?", "quantity": "-1", "tag": ["returned"]},
    {"article": "washer", "quantity": "1000", "price": "12.5", "tag": ["zinc", "A+", "box of 1000"]},
]
lines = [segment("HDR", [header["number"], header["buyer"], header.get("note")])]
for item in items:
    tags = item.get("tag", [])
    fields = [item["article"], item["quantity"], item.get("price", "" if tags else None), *tags]
    lines.append(segment("ITM", fields))
(folder / "order.edi").write_text("".join(lines), encoding="utf-8")
text = json.dumps({"order": {"header": header, "item": items}}, ensure_ascii=False, separators=(",", ":"), sort_keys=True)
(folder / "order.json").write_text(text + "\n", encoding="utf-8")
