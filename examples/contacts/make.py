#!/usr/bin/env python3
"""Writes contacts.csv with Python's csv module, and contacts.json with its json module, from one list of rows."""
import csv
import json
import pathlib

folder = pathlib.Path(__file__).parent
columns = ["name", "street", "town", "year", "note"]
rows = [
    ["Ada Lovelace", "12 St James's Square", "London", "1815", "wrote \"Note G\", and more"],
    ["Grace Hopper", "", "New York, NY", "1906", ""],
    ["Émilie du Châtelet", "rue Traversière", "Paris", "1706", "two lines:\none, and two"],
    ["Katherine Johnson", "White Sulphur Springs", "West Virginia", "1918", "checked the \"numbers\""],
]
with open(folder / "contacts.csv", "w", encoding="utf-8", newline="") as file:
    writer = csv.writer(file, lineterminator="\r\n")
    writer.writerow(columns)
    writer.writerows(rows)
infoset = {"contacts": {"title": {"column": columns}, "contact": [dict(zip(columns, row)) for row in rows]}}
text = json.dumps(infoset, ensure_ascii=False, separators=(",", ":"), sort_keys=True)
(folder / "contacts.json").write_text(text + "\n", encoding="utf-8")
