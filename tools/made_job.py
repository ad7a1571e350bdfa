#!/usr/bin/env python3
"""Prints the made job of a number, whose sessions `load N` runs, as the JSON text of a job: drawn here anew, by the
text of docs/report.md.

    tools/made_job.py N
"""

import hashlib
import json
import sys

PLACES = ["p%d" % place for place in range(8)]
ASPS = ["a%d" % asp for asp in range(8)]
SIGNS = [("+", "+"), ("+", "-"), ("-", "+"), ("-", "-")]


class Draws:
    """What is drawn, one number after the other, from a number on."""

    def __init__(self, number):
        self.from_here = number

    def draw(self, count):
        self.from_here = (1664525 * self.from_here + 1013904223) % 2**32
        return self.from_here // 65536 % count


def bracketed(text, forms):
    """A part's text, in brackets where the part is of one of these forms."""
    return "(%s)" % text[1] if text[0] in forms else text[1]


def chain(left, right):
    return "chain", "%s -> %s" % (bracketed(left, ["branch"]), bracketed(right, ["branch", "chain"]))


def branch(operator, signs, left, right):
    arms = [bracketed(arm, ["branch"]) for arm in (left, right)]
    return "branch", "%s %s%s%s %s" % (arms[0], signs[0], operator, signs[1], arms[1])


def make(depth, draw):
    """A drawn phrase whose parts nest this deep: its form, and its text."""
    if depth == 0:
        if draw(2) == 0:
            return "leaf", "USM a%d" % draw(8)
        target = draw(8)
        return "leaf", "KIM p%d a%d" % (target, draw(8))
    form = draw(6)
    if form == 0:
        left = make(depth - 1, draw)
        return chain(left, make(depth - 1, draw))
    if form == 1:
        asked = draw(8)
        return "request", "@p%d [%s]" % (asked, make(depth - 1, draw)[1])
    if form in (2, 3):
        signs = SIGNS[draw(4)]
        left = make(depth - 1, draw)
        return branch("<" if form == 2 else "~", signs, left, make(depth - 1, draw))
    return chain(make(depth - 1, draw), ("leaf", "SIG" if form == 4 else "HSH"))


def phrase(draw):
    arms = [make(3, draw) for _ in range(4)]
    whole = arms.pop()
    while arms:
        whole = branch("~", SIGNS[0], arms.pop(), whole)
    return whole[1]


def made_job(number):
    draw = Draws(number).draw
    places = [
        {"name": name, "key": bytes(16 * place + byte for byte in range(32)).hex(), "asks": PLACES, "sees": PLACES, "offers": ASPS}
        for place, name in enumerate(PLACES)
    ]
    artefacts = {(place, asp): bytes(draw(256) for _ in range(64)) for place in PLACES for asp in ASPS}
    sessions = [
        {"root": PLACES[s % 8], "nonce": (number.to_bytes(8, "big") + s.to_bytes(8, "big")).hex(), "phrase": phrase(draw)}
        for s in range(256)
    ]

    def answer(place, asp):
        return hashlib.sha256(asp.encode() + b"\0" + artefacts[place, asp]).hexdigest()

    references = [{"place": place, "asp": asp, "answer": answer(place, asp)} for place in PLACES for asp in ASPS]
    references += [
        {"place": place, "target": target, "asp": asp, "answer": answer(target, asp)}
        for place in PLACES for target in PLACES for asp in ASPS
    ]
    return {
        "places": places,
        "artefacts": [{"place": place, "name": asp, "bytes": found.hex()} for (place, asp), found in artefacts.items()],
        "sessions": sessions,
        "references": references,
    }


def main():
    if len(sys.argv) != 2 or not sys.argv[1].isdigit() or int(sys.argv[1]) >= 2**32:
        sys.exit("usage: %s N" % sys.argv[0])
    print(json.dumps(made_job(int(sys.argv[1])), separators=(",", ":")))


if __name__ == "__main__":
    main()
