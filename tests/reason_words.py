"""Refusals in sentences, by tools/reasons.json: a plain model for tests/captures.py."""
import json
import os
import re

# The receiver's limit if no option gives another.
LIMIT = 262_144

with open(os.path.join(os.path.dirname(os.path.dirname(os.path.abspath(__file__))), "tools", "reasons.json"), encoding="utf8") as file:
    REASONS = json.load(file)
IDS = {0: "choke", 1: "unchoke", 2: "interested", 3: "not interested", 4: "have", 5: "bitfield", 6: "request", 7: "piece",
       8: "cancel", 9: "port", 13: "suggest piece", 14: "have all", 15: "have none", 16: "reject request", 17: "allowed fast",
       20: "extended"}
LENGTHS = {0: "1", 1: "1", 2: "1", 3: "1", 4: "5", 6: "13", 7: "9 or more", 8: "13", 9: "3", 13: "5", 14: "1", 15: "1",
           16: "13", 17: "5", 20: "2 or more"}


def lengths_of(kind, pieces):
    """The lengths that an id allows, in words."""
    if kind != 5:
        return LENGTHS.get(kind, "another")
    return "1 or more" if pieces is None else "%d for %d pieces" % (1 + -(-pieces // 8), pieces)


def variant_of(reason, message, inside, data):
    """Which of a reason's sentences fits, by the end of its name in the table."""
    if reason == "EndInside":
        return "_handshake" if message == 0 else "_length" if inside < 4 else ""
    if reason == "BadField":
        return "" if data[5] == 0 else "_metadata"
    return "_cut" if reason == "BadBencode" and inside >= len(data) else ""


def reason_words(reason, message, at, start, data, pieces):
    """A refusal in a sentence. `data` is the message that starts at `start`, as far as it is there."""
    inside, kind = at - start, data[4] if len(data) > 4 else None
    number = lambda place: int.from_bytes(data[place:place + 4], "big") if place + 4 <= len(data) else "?"
    facts = {
        "at": at, "inside": inside, "id": kind, "length": number(0), "pieces": pieces, "last": (pieces or 0) - 1, "limit": LIMIT,
        "byte": "0x%02x" % data[inside] if inside < len(data) else "none", "name": IDS.get(kind, "unknown (%s)" % kind),
        "index": number(inside), "whole": number(0) + 4 if len(data) >= 4 else "?", "lengths": lengths_of(kind, pieces),
        "extension": "Extension Protocol" if kind == 20 else "Fast Extension",
    }
    words = REASONS[reason]["words" + variant_of(reason, message, inside, data)]
    return re.sub(r"\{(\w+)\}", lambda found: str(facts[found.group(1)]), words)
