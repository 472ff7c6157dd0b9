#!/usr/bin/env python3
"""Writes letter.txt and, with Python's json module, letter.json, from one letter."""
import json
import pathlib

folder = pathlib.Path(__file__).parent
letter = {
    "from": "Ada",
    "to": ["Charles", "Mary"],
    "priority": "2",
    "subject": "the engine: notes",
    "body": ["Dear both,", "", "> can it compose?", "It might, of any complexity."],
}
lines = [f"From: {letter['from']}"]
lines += [f"TO: {to}" for to in letter["to"]]
lines += [f"Priority: {letter['priority']}", f"Subject: {letter['subject']}", "X-Trace: 17 bytes", ""]
lines += letter["body"]
(folder / "letter.txt").write_text("\n".join(lines) + "\n", encoding="utf-8")
body = {"line": [{"quote" if line.startswith(">") else "text": line} for line in letter["body"]]}
text = json.dumps({"letter": {**letter, "body": body}}, ensure_ascii=False, separators=(",", ":"), sort_keys=True)
(folder / "letter.json").write_text(text + "\n", encoding="utf-8")
