#!/usr/bin/env python3
"""Plays sessions apart from the crates, and compares the runs that the tests of session_core know with them.

    tools/runs.py           reads crates/session_core/src/run_table.rt: plays each of its runs, and all orders of its
                            three phrases; says what differs, with exit status 1
    tools/runs.py SEED      prints a table of 40 phrases that are drawn by this number, with five runs each

The head of that file says how phrases and runs are written. A block of a session is a generator here: it yields what
the block does next, and goes on once that is done. So there is no code and no machine, and what a run is compared with
owes nothing to the compiler.
"""

import hashlib
import hmac
import os
import random
import re
import sys

TOP = os.path.dirname(os.path.dirname(os.path.abspath(__file__)))
TABLE = os.path.join(TOP, "crates", "session_core", "src", "run_table.rt")

NONCE = bytes(range(16))
PLACES = ["bank", "q", "us", "ks"]
KEYS = {place: bytes([1 + index]) * 16 for index, place in enumerate(PLACES)}
ROOT = -1

LEAVES = {
    "C": ("copy",), "S": ("seal",), "H": ("hash",), "N": ("null",),
    "a": ("usm", "a"), "b": ("usm", "b"), "c": ("usm", "scan"),
    "x": ("kim", "q", "a"), "y": ("kim", "us", "b"),
}


def phrase_of(letters):
    """The phrase of these letters, each of which stands behind its parts."""
    parts = []
    for letter in letters:
        if letter in LEAVES:
            parts.append(LEAVES[letter])
        elif letter in "0123":
            parts.append(("request", PLACES[int(letter)], parts.pop()))
        else:
            right, left = parts.pop(), parts.pop()
            bits = ord(letter) - ord("4")
            signs = (not bits & 2, not bits & 1)
            form = "chain" if letter == ">" else "sequence" if bits < 4 else "parallel"
            parts.append((form, signs, left, right))
    phrase, = parts
    return phrase


def event_count(phrase):
    if phrase[0] == "request":
        return 2 + event_count(phrase[2])
    if phrase[0] in ("chain", "sequence", "parallel"):
        return (0 if phrase[0] == "chain" else 2) + event_count(phrase[2]) + event_count(phrase[3])
    return 1


def be32(number):
    return number.to_bytes(4, "big")


def of_leaf(phrase, event, place, value, answer):
    """The bytes of the value that a leaf makes of this one."""
    form = phrase[0]
    if form == "copy":
        return value
    if form == "null":
        return b"\0"
    if form == "hash":
        return b"\5" + be32(event) + hashlib.sha256(b"H" + value).digest()
    if form == "seal":
        name = place.encode()
        covered = b"S" + bytes([len(name)]) + name + NONCE + be32(event) + value
        return b"\4" + be32(event) + hmac.new(KEYS[place], covered, hashlib.sha256).digest() + value
    tag = b"\2" if form == "usm" else b"\3"
    return tag + be32(event) + len(answer).to_bytes(2, "big") + answer + value


class Session:
    """A session that is played move by move."""

    def __init__(self, letters):
        self.state = "open"
        self.trace = []
        self.bundle = None
        self.failed = None
        self.waiting = {place: [] for place in PLACES}
        self.results = {}
        self.in_flight = {}
        self.blocks = {}
        self.start(ROOT, self.root(phrase_of(letters)))

    def start(self, name, block):
        self.blocks[name] = [block, next(block)]

    def root(self, phrase):
        value = yield from self.part(phrase, 0, "bank", b"\1" + NONCE)
        yield "run", None, None
        self.bundle = b"CPLB\1" + be32(len(value)) + value
        self.state = "done"

    def other(self, name, phrase, first, place, value):
        """A block that runs a request or a right arm."""
        value = yield from self.part(phrase, first, place, value)
        yield "run", None, None
        self.results[name] = value

    def part(self, phrase, first, place, value):
        """A part of a phrase, whose events begin with this number, on a value: the value that it makes."""
        form = phrase[0]
        if form in ("usm", "kim"):
            names = [place] + list(phrase[1:])
            answer = yield "ask", first, "".join(names).encode()
            return of_leaf(phrase, first, place, value, answer)
        if form == "request":
            yield "run", first, None
            self.waiting[phrase[1]].append((first, phrase[2], value))
            return (yield from self.result(first, first + 1 + event_count(phrase[2])))
        if form == "chain":
            left = yield from self.part(phrase[2], first, place, value)
            return (yield from self.part(phrase[3], first + event_count(phrase[2]), place, left))
        if form in ("sequence", "parallel"):
            return (yield from self.branch(phrase, first, place, value))
        yield "run", first, None
        return of_leaf(phrase, first, place, value, None)

    def branch(self, phrase, first, place, value):
        form, signs, left_arm, right_arm = phrase
        middle = first + 1 + event_count(left_arm)
        last = middle + event_count(right_arm)
        left, right = (value if sign else b"\0" for sign in signs)
        yield "run", first, None
        if form == "sequence":
            left = yield from self.part(left_arm, first + 1, place, left)
            yield "run", None, None
            right = yield from self.part(right_arm, middle, place, right)
            yield "run", last, None
            return b"\6" + left + right
        self.start(first, self.other(first, right_arm, middle, place, right))
        left = yield from self.part(left_arm, first + 1, place, left)
        right = yield from self.result(first, last)
        return b"\7" + left + right

    def result(self, name, event):
        """The result of another block, once it is there."""
        yield "run", event, name
        return self.results[name]

    def go_on(self, name, sent=None):
        block = self.blocks[name]
        try:
            block[1] = block[0].send(sent)
        except StopIteration:
            del self.blocks[name]

    def asks(self):
        return sorted(self.in_flight)

    def moves(self):
        """The possible moves in their order, each with its letter."""
        if self.state != "open":
            return []
        delivered = [("0123"[index], "deliver", place) for index, place in enumerate(PLACES) if self.waiting[place]]
        silent, others = [], []
        for name, (_, (kind, event, extra)) in sorted(self.blocks.items()):
            if kind == "ask" and event not in self.in_flight:
                others.append((event, ("?" if name == ROOT else chr(ord("A") + name), "ask", name)))
            if kind == "run" and (extra is None or extra in self.results):
                found = ("." if name == ROOT else chr(ord("a") + name), "run", name)
                if event is None:
                    silent.append(found)
                else:
                    others.append((event, found))
        return delivered + silent + [found for _, found in sorted(others)]

    def play(self, kind, subject):
        if kind == "deliver":
            name, body, value = self.waiting[subject].pop(0)
            self.start(name, self.other(name, body, name + 1, subject, value))
            return
        _, event, _ = self.blocks[subject][1]
        if kind == "ask":
            self.in_flight[event] = subject
            return
        if event is not None:
            self.trace.append(event)
        self.go_on(subject)

    def record(self, event, result):
        name = self.in_flight.pop(event)
        if result == "answer":
            _, _, answer = self.blocks[name][1]
            self.trace.append(event)
            self.go_on(name, answer)
        else:
            self.state = result
            self.failed = event

    def candidates(self):
        return self.asks() + self.moves()

    def take(self, code):
        """Takes the candidate of a code."""
        base, result = ("a", "failed") if code.islower() else ("A", "starved") if code.isupper() else ("0", "answer")
        chosen = self.candidates()[ord(code) - ord(base)]
        if isinstance(chosen, tuple):
            self.play(chosen[1], chosen[2])
        else:
            self.record(chosen, result)

    def tells(self):
        """What is in flight and what can be done, in letters."""
        return letters_of(self.asks()) + "/" + "".join(move[0] for move in self.moves())

    def end(self):
        if self.state == "done":
            return "D" + letters_of(self.trace)
        if self.state == "failed":
            return "F" + letters_of([self.failed]) + letters_of(self.trace)
        return "S"


def letters_of(events):
    return "".join(chr(ord("A") + event) for event in events)


def words_of(letters, codes):
    """The words of a run of a phrase that takes the candidates of these codes, and its bundle."""
    session = Session(letters)
    words = []
    for code in codes:
        words.append(code + session.tells())
        session.take(code)
    return words + ["=" + session.tells() + session.end()], session.bundle


def order_count(letters, bundle):
    """In how many orders a phrase can run, each of which ends with this bundle."""
    count, codes = 0, []
    while True:
        session, sizes = Session(letters), []
        while session.state == "open":
            if len(sizes) == len(codes):
                codes.append(0)
            sizes.append(len(session.candidates()))
            session.take(chr(ord("0") + codes[len(sizes) - 1]))
        if session.bundle != bundle:
            sys.exit("an order of %s has another bundle" % letters)
        count += 1
        while codes and codes[-1] + 1 == sizes[len(codes) - 1]:
            codes.pop()
        if not codes:
            return count
        codes[-1] += 1


def runs_in(table):
    """The phrases of a table, each with its bundle and the codes and words of its runs."""
    for line in table.splitlines():
        if line.startswith(": "):
            _, letters, bundle = line.split()
            yield letters, bundle, None
        elif line:
            yield letters, bundle, line.split()


def compare(text):
    faults = phrases = runs = 0
    table = re.search(r'RUNS: &str = r"\n(.*?)";', text, re.S).group(1)
    for letters, bundle, words in runs_in(table):
        if words is None:
            phrases += 1
            continue
        runs += 1
        found, made = words_of(letters, [word[0] for word in words[:-1]])
        if found != words or made not in (None, bytes.fromhex(bundle)):
            faults += 1
            print("%s: %s, and not %s" % (letters, " ".join(found), " ".join(words)))
    orders = re.findall(r'\(\s*"([^"]+)",\s*"([0-9a-f]+)",\s*(\d+),?\s*\)', text)
    for letters, bundle, count in orders:
        found = order_count(letters, bytes.fromhex(bundle))
        if found != int(count):
            faults += 1
            print("%s: %d orders, and not %s" % (letters, found, count))
    if not runs or not orders:
        sys.exit("no runs or no orders in %s" % TABLE)
    print("%d runs of %d phrases, and all orders of %d" % (runs, phrases, len(orders)))
    sys.exit(1 if faults else 0)


def drawn_phrase(draw, size):
    """Letters of a phrase of about so many events."""
    if size < 3:
        return draw.choice("CSHNabcabcxy")
    form = draw.choice("r>>ss||")
    if form == "r":
        return drawn_phrase(draw, size - 2) + draw.choice("0123")
    left = draw.randrange(1, size - 1)
    letter = ">" if form == ">" else draw.choice("4567" if form == "s" else "89:;")
    return drawn_phrase(draw, left) + drawn_phrase(draw, size - left) + letter


def drawn_codes(draw, letters, ending):
    """The codes of a run, which fails or starves at an ask if it is to and one is in flight late enough."""
    session, codes, patience = Session(letters), "", draw.randrange(1, 12)
    while session.state == "open":
        asks, count = len(session.asks()), len(session.candidates())
        index = draw.randrange(count)
        base = "0"
        if index < asks and ending and len(codes) >= patience:
            base = ending
        code = chr(ord(base) + index)
        session.take(code)
        codes += code
    return codes


def draw_table(seed):
    draw = random.Random(seed)
    phrases = set()
    while len(phrases) < 40:
        letters = drawn_phrase(draw, draw.randrange(3, 17))
        if letters in phrases or event_count(phrase_of(letters)) > 20 or not set(letters) & set("abcxy"):
            continue
        phrases.add(letters)
        runs = [words_of(letters, drawn_codes(draw, letters, ending))[0] for ending in ("", "", "", "a", "A")]
        bundle = words_of(letters, drawn_codes(draw, letters, ""))[1]
        print(":", letters, bundle.hex())
        for words in runs:
            print(" ".join(words))


def main():
    if len(sys.argv) > 1:
        draw_table(int(sys.argv[1]))
        return
    with open(TABLE, encoding="utf-8") as source:
        compare(source.read())


main()
