#!/usr/bin/env python3
"""Writes two invoices, of both versions of the form, and with Python's json and decimal modules the infosets that they have."""
import decimal
import json
import pathlib

folder = pathlib.Path(__file__).parent
rows = [(3, "12.50", "A-100", "chair"), (1, "99.90", "B-7", "table"), (12, "0.35", "C-12", "screw, brass")]


def plain(number):
    """A decimal as the infoset has it: without zeros at the end of its fraction."""
    text = f"{number:f}"
    return text.rstrip("0").rstrip(".") if "." in text else text


def write(name, version, number):
    lines, items = [f"INV;{version};{number}"], []
    for quantity, price, code, goods in rows:
        exact = decimal.Decimal(price)
        item = {"quantity": str(quantity), "price": plain(exact), "amount": plain(quantity * exact)}
        if version == 2:
            lines.append(f"LINE;{quantity};{price};{code};{goods}")
            item["goods"] = {"code": code, "name": goods}
        else:
            lines.append(f"LINE;{quantity};{price};{goods}")
            item["name"] = goods
        items.append(item)
    lines.append(f"END;{len(rows)}")
    (folder / f"{name}.txt").write_text("\n".join(lines) + "\n", encoding="utf-8")
    infoset = {"invoice": {"head": {"form": str(version), "number": str(number)}, "line": items, "end": str(len(rows))}}
    text = json.dumps(infoset, ensure_ascii=False, separators=(",", ":"), sort_keys=True)
    (folder / f"{name}.json").write_text(text + "\n", encoding="utf-8")


write("old", 1, 4711)
write("new", 2, 4712)
