#!/usr/bin/env python3
"""Writes the fixed list of pieces, stdin, and the answers that 02, 2 and 7 ask for, stdout, into the folder of this file or another one.

    crates/run_pieces/expected.py [FOLDER]

`Reassembly` is written from the wording of 02, 2 and 7 and keeps whole pieces; no Rattle takes part, and rt is not needed. The files are always the
same. `rt ci run_pieces` runs the program on stdin and compares what it writes with stdout.

A line is a letter, a space and bytes in lowercase hexadecimal; integers are big-endian.

    e                                the content of a record is begun anew: it is empty
    p  header (12), salt (1)         a piece is laid behind it: the header as it is, then as many bytes as its piece length says; byte i of the message
                                     is 7 * i + i / 256 + salt, its low byte, so that a byte tells its place and its piece
    x  bytes                         these bytes are laid behind it
    s  length (2)                    it is cut to so many bytes
    f                                a fresh state; every byte of the buffer is EE
    w  place (1), value (8)          a word of the state is set: to come to message numbers near 65,535, and out of its range
    b                                a record of the content's length is begun
    n  length (8)                    a record of this length is begun, whatever the content
    t  length (2)                    the next piece is taken, with so many bytes of the buffer lent
    v                                what is held

Every line is answered by one with the same letter: kind (1), refusal (1), type (1), number (2), length (4), the Adler-32 of a message's body (4, else 0)
and that of the first 16,384 bytes of the buffer (4). For v: 0, how many pieces are held, and of the first of them type and total; between them the
number expected. What does not apply is 0.
"""
import os
import sys
import zlib

MOST_BYTES = 16384
MOST_PIECES = 50
LAST_NUMBER = 65535
HEADER = 12
BUFFER = 16640
CONTENT = 20480
STDIN = 65536

REFUSED, END, OTHER, SAME, HELD, MESSAGE = range(6)
OUT_OF_RANGE, NOT_AS_BEGUN, TOO_SMALL, BAD_PIECE, TOO_MANY, DISAGREE = 12, 15, 16, 24, 25, 28

# Words by their places.
EXPECTED, COUNT, TYPE, TOTAL, SIZE, PLACE = range(6)


class Piece:
    """A piece with its header's fields and its body, which a record may cut short."""

    def __init__(self, content):
        self.kind = content[0]
        self.total = int.from_bytes(content[1:4], "big")
        self.number = int.from_bytes(content[4:6], "big")
        self.offset = int.from_bytes(content[6:9], "big")
        self.length = int.from_bytes(content[9:12], "big")
        self.body = content[HEADER : HEADER + self.length]
        self.end = self.offset + self.length

    def agrees(self, other):
        """02, 7: type and total are the other's, and the bytes in places that both have."""
        start, end = max(self.offset, other.offset), min(self.end, other.end)
        shared = [piece.body[start - piece.offset : max(start, end) - piece.offset] for piece in (self, other)]
        return (self.kind, self.total) == (other.kind, other.total) and shared[0] == shared[1]


class Reassembly:
    """02, 2 and 7: whole pieces are held, and the message is read from them."""

    def __init__(self):
        self.expected = 0
        self.held = []
        self.size = 0
        self.place = 0
        self.buffer = bytearray(b"\xee" * BUFFER)
        self.spoiled = {}

    def begin(self, size):
        if self.spoiled:
            return OUT_OF_RANGE
        self.size, self.place = size, 0
        return 0

    def take(self, content, lent):
        """The next piece of the record: the tests in the order of 02."""
        if lent < MOST_BYTES:
            return REFUSED, TOO_SMALL, 0, 0, MOST_BYTES
        if self.spoiled:
            return REFUSED, OUT_OF_RANGE, 0, 0, 0
        if len(content) != self.size:
            return REFUSED, NOT_AS_BEGUN, 0, 0, 0
        rest = content[self.place :]
        if not rest:
            return END, 0, 0, 0, 0
        if len(rest) < HEADER or len(Piece(rest).body) < Piece(rest).length:
            return self.end_record(BAD_PIECE)
        piece = Piece(rest)
        if refusal := piece.number == self.expected and self.refusal_of(piece):
            return self.end_record(refusal)
        self.place += HEADER + piece.length
        if piece.number != self.expected:
            return OTHER, 0, 0, piece.number, 0
        return (SAME, 0, 0, 0, 0) if self.is_same(piece) else self.hold(piece)

    def refusal_of(self, piece):
        """Of a piece of the number expected: 24, 28, and 25 if it is not the same as one held; else 0."""
        if not self.is_fit(piece):
            return BAD_PIECE
        if not all(piece.agrees(each) for each in self.held):
            return DISAGREE
        return TOO_MANY if len(self.held) == MOST_PIECES and not self.is_same(piece) else 0

    def is_same(self, piece):
        """02, 7: number, type, total, offset, length and every byte."""
        return any(vars(piece) == vars(each) for each in self.held)

    def end_record(self, refusal):
        self.place = self.size
        return REFUSED, refusal, 0, 0, 0

    def is_fit(self, piece):
        totals = [piece.total] + [each.total for each in self.held[:1]]
        return self.expected != LAST_NUMBER and piece.total <= MOST_BYTES and piece.end <= min(totals)

    def hold(self, piece):
        self.held.append(piece)
        for each in self.held:
            self.buffer[each.offset : each.end] = each.body
        first = self.held[0]
        missing = set(range(first.total)).difference(*(range(each.offset, each.end) for each in self.held))
        if missing:
            return HELD, 0, 0, 0, 0
        self.held = []
        self.expected += 1
        return MESSAGE, 0, first.kind, self.expected - 1, first.total

    def set_word(self, place, value):
        """The number expected is set. Another word is only taken out of its range and put back."""
        real = {COUNT: len(self.held), TOTAL: self.held[0].total if self.held else None, PLACE: self.place, SIZE: self.size}
        if place == EXPECTED and value <= LAST_NUMBER:
            self.expected = value
            for each in self.held:
                each.number = value
            self.spoiled.pop(place, None)
        elif place != EXPECTED and value == real[place]:
            self.spoiled.pop(place, None)
        else:
            self.spoiled[place] = value

    def shown(self):
        kind, total = (self.held[0].kind, self.held[0].total) if self.held else (0, 0)
        return 0, len(self.held), kind, self.expected, total


def header(number, total, offset, length, kind=11):
    return b"".join([bytes([kind]), total.to_bytes(3, "big"), number.to_bytes(2, "big"), offset.to_bytes(3, "big"), length.to_bytes(3, "big")])


def body_of(offset, length, salt):
    return bytes((7 * i + i // 256 + salt) % 256 for i in range(offset, offset + length))


class List:
    """The lines, each with the answer of the model."""

    def __init__(self):
        self.state = Reassembly()
        self.content = b""
        self.stdin, self.stdout = [], []

    def say(self, letter, given=b"", answer=(0, 0, 0, 0, 0)):
        kind, refusal, msg_type, number, length = answer
        body = zlib.adler32(self.state.buffer[:length]) if letter == "t" and kind == MESSAGE else 0
        told = bytes([kind, refusal, msg_type]) + number.to_bytes(2, "big") + length.to_bytes(4, "big")
        told += body.to_bytes(4, "big") + zlib.adler32(self.state.buffer[:MOST_BYTES]).to_bytes(4, "big")
        self.stdin.append(f"{letter} {given.hex()}\n")
        self.stdout.append(f"{letter} {told.hex()}\n")

    def fresh(self):
        self.state = Reassembly()
        self.say("f")

    def empty(self):
        self.content = b""
        self.say("e")

    def piece(self, number, total, offset, length, salt=0, kind=11):
        head = header(number, total, offset, length, kind)
        self.lay("p", head + body_of(offset, length, salt), head + bytes([salt]))

    def altered(self, number, total, offset, length, at, salt=0, kind=11):
        """A piece whose byte at this place of the message is another."""
        body = bytearray(body_of(offset, length, salt))
        body[at - offset] ^= 1
        self.raw(header(number, total, offset, length, kind) + body)

    def raw(self, content):
        self.lay("x", content, content)

    def lay(self, letter, content, given):
        self.content += content
        assert len(self.content) <= CONTENT, "the program has no room for this content"
        self.say(letter, given)

    def cut(self, length):
        self.content = self.content[:length]
        self.say("s", length.to_bytes(2, "big"))

    def begin(self):
        self.say("b", answer=(0, self.state.begin(len(self.content)), 0, 0, 0))

    def begin_length(self, length):
        self.say("n", length.to_bytes(8, "big"), (0, self.state.begin(length), 0, 0, 0))

    def take(self, lent=MOST_BYTES):
        answer = self.state.take(self.content, lent)
        self.say("t", lent.to_bytes(2, "big"), answer)
        return answer

    def word(self, place, value):
        self.state.set_word(place, value)
        self.say("w", bytes([place]) + value.to_bytes(8, "big"))

    def show(self):
        self.say("v", answer=self.state.shown())

    def record(self, *pieces, **salt):
        """A record of these pieces, taken to its end, and once more behind it."""
        self.empty()
        for piece in pieces:
            self.piece(*piece, **salt)
        self.take_all()

    def altered_record(self, *piece, **salt):
        self.empty()
        self.altered(*piece, **salt)
        self.take_all()

    def take_all(self):
        self.begin()
        while self.take()[0] != END:
            pass


# ---- the order of pieces


def orders(lines):
    """In order, reversed, doubled, and behind the message."""
    pieces = [(0, 100, 0, 40), (0, 100, 40, 40), (0, 100, 80, 20)]
    lines.fresh()
    lines.record()
    for piece in pieces:
        lines.record(piece)
        lines.show()
    lines.record((1, 30, 0, 30), salt=3, kind=20)
    lines.fresh()
    for piece in reversed(pieces):
        lines.record(piece)
    lines.show()
    lines.fresh()
    for piece in pieces:
        lines.record(piece, piece)
        lines.record(piece)
    lines.show()


def overlaps(lines):
    """Pieces that overlap are held where their bytes are equal; with another salt for each, those that share a byte with one held disagree."""
    lists = [
        [(20, 40), (0, 30), (50, 50)],
        [(10, 10), (40, 10), (70, 5), (0, 100)],
        [(0, 60), (40, 60)],
        [(40, 60), (0, 60)],
        [(30, 40), (40, 20), (20, 60), (0, 21), (79, 21)],
        [(0, 99), (1, 99)],
        [(0, 50), (0, 51), (0, 99), (0, 100)],
    ]
    for spans in lists:
        for step in [0, 17]:
            lines.fresh()
            for place, (offset, length) in enumerate(spans):
                lines.record((0, 100, offset, length), salt=step * place + 1)
                lines.show()


def sameness(lines):
    """A doubled piece changes nothing; with another byte, type or total it disagrees; with another length or offset it is another piece."""
    lines.fresh()
    lines.record((0, 100, 0, 40), salt=1)
    lines.record((0, 100, 0, 40), salt=1)
    lines.record((0, 100, 0, 40), salt=2)
    lines.record((0, 100, 0, 40), salt=1, kind=20)
    lines.record((0, 40, 0, 40), salt=1)
    lines.record((0, 101, 0, 40), salt=1)
    lines.show()
    lines.record((0, 100, 0, 39), (0, 100, 1, 39), salt=1)
    lines.show()
    lines.record((0, 100, 40, 60), salt=5)
    lines.record((0, 100, 40, 60), (0, 100, 0, 40), salt=6)
    lines.show()


# ---- pieces that disagree


def altered(lines):
    """With bytes 20 to 60 held, a piece in every position with one byte altered: at its ends, and at the ends of what it shares and beside them."""
    for offset, length in [(20, 40), (0, 100), (19, 42), (0, 21), (0, 20), (59, 41), (60, 40), (30, 1), (21, 38), (20, 1), (59, 1)]:
        for at in sorted({offset, offset + length - 1, 19, 20, 21, 40, 58, 59, 60}.intersection(range(offset, offset + length))):
            lines.fresh()
            lines.record((0, 100, 20, 40))
            lines.altered_record(0, 100, offset, length, at)
        lines.show()
        lines.record((0, 100, offset, length))
        lines.show()


def several_held(lines):
    """A byte of each of the pieces held, of one between them, of one that two have, and of one that another has brought behind a gap."""
    spans = [(10, 10), (40, 10), (45, 20), (80, 5)]
    for at in [9, 10, 19, 20, 39, 40, 44, 45, 49, 50, 64, 65, 79, 80, 84, 85]:
        lines.fresh()
        lines.record(*[(0, 100, offset, length) for offset, length in spans])
        lines.altered_record(0, 100, 5, 90, at)
    lines.show()


def long(lines):
    """A piece of 16,384 bytes over one held, at its start, its end or between: every byte altered, then the last; then right."""
    for held in [(0, MOST_BYTES - 1), (0, 1), (1, MOST_BYTES - 1), (MOST_BYTES - 1, 1), (8000, 500)]:
        lines.fresh()
        lines.record((0, MOST_BYTES, *held))
        lines.record((0, MOST_BYTES, 0, MOST_BYTES), salt=1)
        lines.show()
        lines.empty()
        lines.piece(0, MOST_BYTES, 0, MOST_BYTES)
        last = lines.content[-1] ^ 1
        lines.cut(HEADER + MOST_BYTES - 1)
        lines.raw(bytes([last]))
        lines.take_all()
        lines.record((0, MOST_BYTES, 0, MOST_BYTES))


def touching(lines):
    """A piece that ends where one held begins, or begins where it ends, shares no byte; an empty one shares none anywhere."""
    lines.fresh()
    lines.record((0, 100, 40, 20), salt=1)
    lines.record((0, 100, 20, 20), (0, 100, 60, 20), salt=2)
    lines.record((0, 100, 50, 0), (0, 100, 40, 0), (0, 100, 60, 0), (0, 100, 100, 0), salt=3)
    lines.show()
    lines.record((0, 100, 0, 20), (0, 100, 80, 20), salt=4)


def unions(lines):
    """A piece that is made of others, with their bytes, is none of them: it is held and counts."""
    lines.fresh()
    lines.record((0, 100, 0, 20), (0, 100, 20, 20), (0, 100, 0, 40), (0, 100, 10, 20), (0, 100, 0, 40))
    lines.show()
    lines.altered_record(0, 100, 0, 40, 39)
    lines.record(*[(0, 100, 0, length) for length in range(1, 48) if length not in (20, 40)])
    lines.show()
    lines.record((0, 100, 10, 30), (0, 100, 47, 53))
    lines.record((0, 100, 41, 59), (0, 100, 0, 100))
    lines.show()


def kinds_and_totals(lines):
    """Type and total count for every piece: one that shares no byte, an empty one, the same one, and one that would complete the message."""
    for first in [(0, 100, 0, 40), (0, 100, 40, 0)]:
        lines.fresh()
        lines.record(first, kind=8)
        for offset, length in [(0, 40), (50, 10), (40, 0), (100, 0), (0, 100), (40, 60)]:
            for total, kind in [(100, 9), (100, 0), (101, 8), (MOST_BYTES, 8), (101, 9), (100 - (offset + length < 100), 9)]:
                lines.record((0, total, offset, length), kind=kind)
        lines.record((0, 60, 0, 40), (0, 40, 0, 40), kind=8)
        lines.show()
        lines.record((0, 100, 40, 60), (0, 100, 0, 40), kind=8)
        lines.record((1, 7, 0, 5), kind=0)
        lines.record((1, 7, 5, 2), kind=255)
        lines.record((1, 7, 5, 2), kind=0)


def tests_in_order(lines):
    """24 before 28: past the held total with another total, type and bytes; within it 28. 28 before the same, and before 25."""
    lines.fresh()
    lines.record((0, 60, 0, 40), salt=1)
    for total in [60, 61, 100, MOST_BYTES]:
        for end in [59, 60, 61]:
            lines.record((0, total, 20, end - 20), salt=2, kind=20)
    for total in [39, 40, 41]:
        lines.record((0, total, 0, 40), salt=2, kind=20)
    lines.record((0, MOST_BYTES + 1, 0, 40), salt=2, kind=20)
    lines.word(EXPECTED, LAST_NUMBER)
    lines.record((LAST_NUMBER, 60, 0, 40), salt=2, kind=20)
    lines.word(EXPECTED, 0)
    lines.show()
    lines.record(*[(0, 60, i, 1) for i in range(49)], salt=1)
    lines.show()
    lines.record((0, 60, 3, 1), (0, 60, 3, 1), (0, 60, 40, 20), salt=1)
    lines.record((0, 60, 3, 1), salt=2)
    lines.record((0, 60, 3, 1), salt=1, kind=20)
    lines.record((0, 61, 3, 1), salt=1)
    lines.record((0, 60, 3, 2), (0, 60, 3, 1), salt=2)
    lines.record((0, 60, 0, 60), salt=2)
    lines.record((0, 60, 49, 11), salt=2)
    lines.record((0, 60, 49, 11), salt=2, kind=20)
    lines.record((0, 60, 49, 12), salt=2)
    lines.show()


def disagreed(lines):
    """28 ends the record: what stands behind the piece is left out, what is held stays, and the message comes out from pieces that agree."""
    lines.fresh()
    lines.record((0, 60, 0, 20), salt=1)
    lines.empty()
    lines.piece(0, 60, 20, 20, 1)
    lines.altered(0, 60, 10, 50, 15, 1)
    lines.piece(0, 60, 40, 20, 1)
    lines.piece(1, 5, 0, 5, 1)
    lines.take_all()
    lines.show()
    lines.record((0, 60, 0, 20), (0, 60, 20, 20), (0, 60, 10, 20), salt=1)
    lines.record((0, 60, 0, 60), (0, 60, 0, 60), salt=2)
    lines.show()
    lines.record((0, 60, 10, 50), (1, 5, 0, 4), salt=1)
    lines.record((0, 60, 0, 60), (1, 5, 0, 5), (1, 5, 4, 1), salt=2)
    lines.show()
    lines.record((1, 5, 3, 2), salt=1)
    lines.record((2, 5, 0, 5), salt=2)


# ---- lengths and limits


def cut(lines):
    """A record of one whole piece of 20 bytes, cut at every byte, from 0 on; then whole. The same of a piece of another message."""
    for number in range(2):
        lines.fresh()
        for length in range(HEADER + 21):
            lines.empty()
            lines.piece(number, 20, 0, 20)
            lines.cut(length)
            lines.begin()
            lines.take()
            lines.take()
        lines.show()


def cut_behind(lines):
    """A second piece cut in its header or its body: the first is kept."""
    lines.fresh()
    for length in [1, 11, 12, 13, 31]:
        lines.empty()
        lines.piece(0, 40, 0, 20)
        lines.piece(0, 40, 20, 20)
        lines.cut(HEADER + 20 + length)
        lines.begin()
        for _ in range(3):
            lines.take()
    lines.show()
    lines.empty()
    lines.raw(header(0, 40, 20, 20) + bytes(range(20)) + header(1, 2, 0, 2) + b"\x01")
    lines.begin()
    for _ in range(3):
        lines.take()


def fifty(lines):
    """The fiftieth piece completes the message: in order, and every seventh first."""
    for step in [1, 7]:
        lines.fresh()
        lines.record(*[(0, 100, 2 * (step * i % 50), 2) for i in range(50)])
        lines.show()


def fifty_one(lines):
    """With fifty held a different piece is 25, one that would complete the message too; a doubled one is the same, a bad one is 24."""
    lines.fresh()
    lines.record(*[(0, 60, i, 1) for i in range(49)])
    lines.record((0, 60, 50, 1), (0, 60, 51, 1), (0, 60, 3, 1))
    lines.show()
    lines.record((0, 60, 3, 1), (0, 60, 50, 1))
    lines.record((0, 60, 0, 60))
    lines.record((0, 60, 3, 2))
    lines.record((1, 60, 3, 2), (0, 60, 49, 12), (0, 60, 3, 1), salt=13)
    lines.record((0, 16385, 0, 1), salt=14)
    lines.show()


def totals(lines):
    """Totals 0, 1, 16,384 and above."""
    lines.fresh()
    lines.record((0, 0, 0, 0), kind=14)
    lines.record((1, 1, 0, 1), salt=5)
    lines.record((2, MOST_BYTES, 0, MOST_BYTES), salt=7)
    lines.record((3, MOST_BYTES + 1, 0, MOST_BYTES), salt=8)
    lines.record((3, MOST_BYTES + 1, 0, MOST_BYTES + 1), salt=8)
    lines.record((3, MOST_BYTES + 1, 0, 0))
    lines.record((3, 0xFFFFFF, 0, 10))
    lines.record((3, 0x10003, 0, 3))
    lines.record((3, 0, 1, 0))
    lines.record((3, 0, 0, 1))
    lines.record((3, 1, 1, 0), (3, 1, 0, 1), salt=9)
    lines.show()
    for offset in range(14, -1, -1):
        lines.record((4, MOST_BYTES, 1093 * offset, min(1200, MOST_BYTES - 1093 * offset)), salt=16)
    lines.show()


def numbers(lines):
    """The last number that a message has is 65,534; 65,535 as the number expected is 24, pieces of others pass."""
    lines.fresh()
    lines.word(EXPECTED, LAST_NUMBER - 1)
    lines.record((LAST_NUMBER, 5, 0, 5), (0, 5, 0, 5), (LAST_NUMBER - 1, 5, 0, 5), salt=1)
    lines.show()
    lines.record((LAST_NUMBER - 1, 5, 0, 5), (0, 5, 0, 5), (LAST_NUMBER, 5, 0, 5), (0, 5, 0, 5), salt=2)
    lines.record((LAST_NUMBER, 0, 0, 0))
    lines.show()
    lines.fresh()
    lines.record((0, 0, 0, 0), (1, 2, 0, 1))
    lines.word(EXPECTED, 256)
    lines.record((0, 2, 1, 1), (1, 2, 1, 1), (512, 2, 1, 1), (256, 2, 1, 1), salt=3)
    lines.show()


# ---- what a piece says


def past(lines):
    """A piece past its own total, past the held total, past both and by sums beyond 24 bits; nothing of it is kept."""
    lines.fresh()
    for offset, length in [(0, 101), (100, 1), (101, 0), (1, 100), (0x10000, 0), (0xFFFFFF, 1), (0xFFFFFF, 0)]:
        lines.record((0, 100, offset, length), salt=1)
    lines.show()
    lines.record((0, 100, 10, 10), salt=2)
    for total in [100, 101, MOST_BYTES]:
        for offset, length in [(50, 51), (100, 1), (101, 0), (0xFFFFFF, 1)]:
            lines.record((0, total, offset, length), salt=3)
    lines.record((0, 30, 20, 11), salt=4)
    lines.record((0, MOST_BYTES + 1, 20, 10), salt=5)
    lines.show()
    lines.record((0, 100, 0, 100), salt=2)


def first_counts(lines):
    """Type and total are those of the first piece held; the first is never one that disagrees, whatever was refused or passed over before it."""
    lines.fresh()
    lines.record((0, 60, 50, 11), kind=7)
    lines.record((1, 70, 0, 20), (0, 60, 0, 20), kind=8)
    lines.record((0, 60, 20, 30), kind=9, salt=1)
    lines.record((0, 50, 20, 30), kind=8, salt=1)
    lines.show()
    lines.record((0, 60, 20, 40), kind=8, salt=2)
    lines.record((1, 10, 0, 5), kind=0)
    lines.record((1, 10, 5, 5), kind=255, salt=3)
    lines.record((1, 10, 5, 5), kind=0, salt=3)
    lines.record((2, 7, 7, 0), kind=255)
    lines.record((2, 9, 0, 7), kind=255, salt=4)
    lines.record((2, 7, 0, 7), kind=255, salt=4)
    lines.show()


def others(lines):
    """Pieces of other messages change nothing and are only measured against the record."""
    lines.fresh()
    lines.record((0, 40, 0, 20), salt=1)
    lines.record((1, MOST_BYTES + 1, 0, 10), (5, 3, 1, 10), (LAST_NUMBER, 0xFFFFFF, 0xFFFFFF, 0), (1, 0, 0, 0), salt=2)
    lines.record((1, 20, 0, 20), (0, 40, 20, 20), (0, 40, 20, 20), (1, 20, 0, 10), salt=3)
    lines.show()
    lines.empty()
    lines.piece(7, 20, 0, 20)
    lines.raw(header(7, MOST_BYTES + 1, 0, 9) + bytes(8))
    lines.begin()
    for _ in range(3):
        lines.take()
    for length in [0x10005, 0xFFFFFF]:
        lines.empty()
        lines.raw(header(7, length, 0, length) + bytes(5))
        lines.begin()
        lines.take()
    lines.show()


def empties(lines):
    """An empty piece of a message that has bytes is a piece: held, the same when doubled, counted among the fifty."""
    lines.fresh()
    lines.record((0, 20, 0, 0), kind=2)
    lines.record((0, 20, 0, 0), (0, 20, 5, 0), (0, 20, 20, 0), (0, 20, 20, 0), (0, 20, 21, 0), kind=2)
    lines.record((0, 20, 0, 0), kind=3)
    lines.record((0, 21, 5, 0), kind=2)
    lines.show()
    lines.record((0, 20, 0, 20), kind=2)
    lines.record(*[(1, 60, i, 0) for i in range(49)])
    lines.record((1, 60, 49, 0), (1, 60, 50, 0))
    lines.record((1, 60, 0, 0), (1, 60, 0, 60))
    lines.show()


# ---- records


def several(lines):
    """Several pieces and messages in one record; a record begun anew leaves out the rest of the one before."""
    lines.fresh()
    lines.record((0, 30, 20, 10), (0, 30, 0, 10), (0, 30, 10, 10), salt=1)
    lines.record((1, 10, 0, 10), (2, 0, 0, 0), (3, 6, 3, 3), (3, 6, 0, 3), (4, 5, 0, 2), salt=2)
    lines.show()
    lines.record((4, 5, 2, 3), (5, 5, 0, 5), (4, 5, 0, 2), (6, 5, 0, 5), (7, 5, 0, 4), salt=3)
    lines.show()
    lines.empty()
    lines.piece(7, 5, 4, 1)
    lines.piece(8, 5, 0, 5)
    lines.begin()
    lines.take()
    lines.begin()
    lines.take()
    lines.take()
    lines.take()
    lines.show()


def refused(lines):
    """A refusal ends the record, its later pieces are left out, and those before are kept, as is a message that came out."""
    lines.fresh()
    lines.record((0, 40, 0, 20), (0, 40, 30, 11), (0, 40, 20, 20), salt=1)
    lines.show()
    lines.record((0, 40, 20, 20), (1, 3, 0, 2), (1, 3, 0, 4), (1, 3, 2, 1), salt=2)
    lines.show()
    lines.record((1, 3, 2, 1), salt=3)
    lines.record((2, 0x10000, 0, 0), (2, 3, 0, 3), salt=4)
    lines.record((2, 3, 0, 3), salt=5)
    lines.show()


def short(lines):
    """A buffer under 16,384 bytes is 16, tested before all else, and the same piece is asked again."""
    lines.fresh()
    lines.empty()
    lines.piece(0, 10, 0, 10, 1)
    lines.piece(1, 5, 0, 6, 2)
    lines.begin()
    lines.take(MOST_BYTES - 1)
    lines.take(0)
    lines.take(10)
    lines.show()
    lines.take(BUFFER)
    lines.take(MOST_BYTES - 1)
    lines.take(MOST_BYTES)
    lines.take(MOST_BYTES - 1)
    lines.take(MOST_BYTES + 1)
    lines.cut(3)
    lines.take(MOST_BYTES - 1)
    lines.word(EXPECTED, LAST_NUMBER + 1)
    lines.take(MOST_BYTES - 1)
    lines.take(MOST_BYTES)


def other_length(lines):
    """A content of another length than the one begun is 15, also behind the record's end; the right one goes on."""
    lines.fresh()
    lines.empty()
    lines.piece(0, 20, 0, 10, 1)
    lines.take()
    lines.piece(0, 20, 10, 10, 2)
    lines.begin()
    lines.take()
    lines.cut(HEADER + 10)
    lines.take()
    lines.piece(0, 20, 10, 10, 3)
    lines.piece(1, 20, 10, 10, 3)
    lines.take()
    lines.show()
    lines.cut(2 * (HEADER + 10))
    lines.take()
    lines.take()
    lines.cut(0)
    lines.take()
    for length in [0, 1, 2**64 - 1]:
        lines.begin_length(length)
        lines.take()
    lines.show()


def out_of_range(lines):
    """Words out of range are 12 in both calls, before 15, and nothing changes: with the words put back it goes on."""
    lines.fresh()
    lines.empty()
    lines.piece(0, 30, 0, 10, 1)
    lines.piece(0, 30, 10, 10, 2)
    lines.piece(0, 30, 20, 10, 3)
    whole = lines.content
    lines.begin()
    lines.take()
    lines.take()
    right = {EXPECTED: 0, COUNT: 2, TOTAL: 30, PLACE: 2 * (HEADER + 10)}
    wrong = {EXPECTED: LAST_NUMBER + 1, COUNT: MOST_PIECES + 1, TOTAL: MOST_BYTES + 1, PLACE: 3 * (HEADER + 10) + 1}
    for place, value in wrong.items():
        for bad in [value, 2**64 - 1]:
            lines.word(place, bad)
            lines.take()
            lines.begin()
            lines.begin_length(5)
        lines.cut(3 * (HEADER + 10) - 1)
        lines.take()
        lines.raw(whole[-1:])
        lines.word(place, right[place])
    lines.show()
    lines.take()
    lines.take()
    lines.word(EXPECTED, LAST_NUMBER + 1)
    lines.fresh()
    lines.take()
    lines.show()


def given_up(lines):
    """A fresh state holds nothing, whatever was held."""
    lines.fresh()
    lines.record((0, 30, 0, 10), salt=1)
    lines.fresh()
    lines.record((0, 30, 10, 20), salt=2)
    lines.show()
    lines.record((0, 30, 0, 10), salt=3)


CASES = [orders, overlaps, sameness, altered, several_held, long, touching, unions, kinds_and_totals, tests_in_order, disagreed]
CASES += [cut, cut_behind, fifty, fifty_one, totals, numbers, past, first_counts, others, empties, several, refused, short]
CASES += [other_length, out_of_range, given_up]


def main(folder):
    lines = List()
    for case in CASES:
        case(lines)
    assert len("".join(lines.stdin)) <= STDIN, "the program does not read so much"
    for name, text in [("stdin", lines.stdin), ("stdout", lines.stdout)]:
        with open(os.path.join(folder, name), "w") as file:
            file.writelines(text)


if __name__ == "__main__":
    if len(sys.argv) > 2 or sys.argv[1:2] and sys.argv[1].startswith("-"):
        sys.exit("usage: crates/run_pieces/expected.py [FOLDER]    (default the folder of this file)")
    main(sys.argv[1] if sys.argv[1:] else os.path.dirname(os.path.abspath(__file__)))
