#!/usr/bin/env python3
"""Turns a captured session (JSON) into lines for the host: what was delivered, in that order, to be read; that once more, late; that with each
close first; then what was sent, in the order sent, to be written again.

    session NAME
    mask-keys                                      number keys of ChaCha20 suites go to the layer as mask keys, and the host makes no mask
    message DIR TYPE BODY                          the next handshake message that the sender of DIR sent, from number 0 on
    encrypt DIR                                    the receiver of DIR turns peer encryption on; this and the next three may stand in a
                                                   datagram, too
    key-receive DIR EPOCH SUITE KEY IV SN_KEY      it keys an epoch
    remove DIR EPOCH                               it removes one
    release DIR                                    it releases application data
    oversize DIR LENGTH                            it is brought a datagram over 16,384 bytes, which must be refused
    datagram DIR BYTES                             it reads a datagram; what it must say follows, a line for each record, then `end`,
                                                   or `end 3` in place of a seventeenth reading
    plaintext NUMBER TYPE OFFSET CONTENT
    opened EPOCH NUMBER TYPE OFFSET CONTENT
    dropped WHY REFUSAL..                          the record must be dropped by one of these refusals
    again                                          what follows was delivered before: counted apart
    close-first                                    new receivers take the place of both: each side is read again with its close first
    made DIR EPOCH NUMBER TYPE CONTENT             as `datagram`, but the host seals this record under the receiver's keys
    key-send DIR EPOCH SUITE KEY IV SN_KEY         the sender of DIR keys an epoch
    write DIR EPOCH NUMBER TYPE BYTES CONTENT      it writes a record again, to these bytes if it can
    take DIR                                       it takes what it wrote, where a captured datagram ends
    done                                           nothing is missing behind this line

DIR is 0 from client to server, 1 from server to client. Bytes are hexadecimal, none is `-`. README.md says when a host keys and what it
expects of a record; here this is `Receiver`.

    flatten.py [--mask-keys] [--flip-keys] [--must-not-open] [--change-message] [--spoil WHAT] [--read-mask-keys HOW]
        [--write-mask-keys HOW] SESSION

--flip-keys changes a bit of every key, --must-not-open expects that no sealed record opens: together they must agree, alone they must
differ. Of a session that must not open nothing is written again. --change-message changes a bit of the last message, and --spoil adds a
line by which the host changes messages that come out (`byte`, `type`), keeps them back (`whole`), lets the later of two bytes stay
(`later`), tells a piece that disagrees as the same (`same`) or the number expected for a piece of another message (`number`), tells a close
as ignored (`closed`) or as beyond the close (`at-close`), a record before the close that comes late as beyond it (`late`), one beyond it as
application data (`beyond`), an ACK in plaintext as acted on (`plaintext`), a record more that an ACK marked (`marked`), what is too old as
seen (`seen`) or what is seen as too old (`old`): each must differ. --read-mask-keys and --write-mask-keys give --mask-keys other number keys, to read or to write: with a bit of
each changed (`flipped`) or those of the other direction (`swapped`); each must differ.
"""
import argparse
import copy
import json
import sys

DIRECTIONS = ["c2s", "s2c"]
SUITES = [
    "TLS_AES_128_GCM_SHA256",
    "TLS_AES_256_GCM_SHA384",
    "TLS_CHACHA20_POLY1305_SHA256",
    "TLS_AES_128_CCM_SHA256",
    "TLS_AES_128_CCM_8_SHA256",
]
SHORT_TAG = "TLS_AES_128_CCM_8_SHA256"
SPOILED = ["byte", "type", "whole", "later", "same", "number", "closed", "at-close", "late", "beyond", "plaintext", "marked", "seen", "old"]

LONGEST = 16384
WINDOW = 64
LAST_NUMBER = (1 << 48) - 1
MOST_APPLICATIONS = 4
MOST_READINGS = 16

ALERT, HANDSHAKE, APPLICATION_DATA = 21, 22, 23
PIECE_HEADER, SEALED_HEADER = 12, 5
CLOSE, USER_CANCELED = 0, 90
# Datagrams that come late, behind the close.
LATE = 8

# Refusals of the header.
TOO_MANY_READINGS, BEFORE_ENCRYPTION, NO_KEYS, TOO_SHORT, NUMBER_TOO_LARGE, SEEN, TOO_OLD, NOT_OPENED = 3, 5, 6, 7, 8, 9, 26, 10


def hex_or_dash(text):
    return text or "-"


def byte_at(datagram, offset):
    return int(datagram["hex"][2 * offset : 2 * offset + 2], 16)


def nearest(bits, block, expected):
    """The nearest to the expected number that is 0 or more and ends in these bits; at half a block's distance the one in its own block."""
    own = expected - expected % block + bits
    if own > expected + block // 2 and own >= block:
        return own - block
    return own + block if own + block // 2 < expected else own


class Receiver:
    """Keys epochs as a host does, in their order, and says what is expected of each record."""

    def __init__(self, side, session):
        self.side = side
        self.keys = dict(session["keys"].get(DIRECTIONS[side], {}))
        self.must_not_open = session["must_not_open"]
        self.encrypted = False
        self.keyed = []
        self.latest = 1
        self.opened = {}
        self.close = None

    def key_for(self, records):
        """Turns peer encryption on and keys the epochs of the sealed records of a datagram; early data alone does neither."""
        epochs = [record["epoch"] for record in records if record["protected"] and record["epoch"] > 1]
        if epochs and not self.encrypted:
            print("encrypt", self.side)
            self.encrypted = True
        for epoch in epochs:
            self.key_to(epoch)

    def key_to(self, epoch):
        """Keys every epoch up to this one that is not keyed yet."""
        for each in sorted(map(int, self.keys)):
            if self.latest < each <= epoch:
                self.key(each)

    def key(self, epoch):
        applications = [other for other in self.keyed if other >= 3]
        if epoch >= 3 and not applications:
            print("release", self.side)
        if len(applications) == MOST_APPLICATIONS:
            print("remove", self.side, applications[0])
            self.keyed.remove(applications[0])
        print("key-receive", self.side, epoch, key_words(self.keys[str(epoch)]))
        self.keyed.append(epoch)
        self.latest = epoch
        self.opened[epoch] = set()

    def resolved(self, bits):
        """The epoch that two bits mean: the last application epoch that has them, else epoch 2."""
        fitting = [epoch for epoch in self.keyed if epoch % 4 == bits]
        return fitting[-1] if fitting else None

    def rebuilt(self, record, first):
        """The number that the record's bits mean, from the next one expected."""
        block = 1 << 16 if first & 0x08 else 1 << 8
        highest = max(self.opened[record["epoch"]], default=-1)
        return nearest(record["seq"] % block, block, highest + 1)

    def refused(self, epoch, number):
        """By what a number is refused before the cipher is asked, in the order of the tests; None where it is fresh."""
        if number > LAST_NUMBER:
            return NUMBER_TOO_LARGE
        if number + WINDOW <= max(self.opened[epoch], default=0):
            return TOO_OLD
        return SEEN if number in self.opened[epoch] else None

    def dropped(self, record, first):
        """Why a sealed record must be dropped, and the refusals by which it may be; None where it must open. Under the keys of another
        epoch its number becomes one that is not known here."""
        epoch = record["epoch"]
        if not self.encrypted:
            return "early", BEFORE_ENCRYPTION
        if self.must_not_open:
            return "unopened", NO_KEYS, TOO_SHORT, NOT_OPENED
        if epoch == 1:
            return "early", NO_KEYS, TOO_SHORT, SEEN, TOO_OLD, NOT_OPENED
        if epoch not in self.keyed or self.resolved(first & 3) != epoch:
            return "left", NO_KEYS, NUMBER_TOO_LARGE, SEEN, TOO_OLD, NOT_OPENED
        if self.keys[str(epoch)]["cipher_suite"] == SHORT_TAG:
            return "short-tag", TOO_SHORT, NOT_OPENED
        number = self.rebuilt(record, first)
        refusal = self.refused(epoch, number)
        if number != record["seq"]:
            return "far", refusal or NOT_OPENED
        if refusal:
            return "old" if refusal == TOO_OLD else "replayed", refusal
        return None

    def expected(self, record, first):
        """What must be said of a record. The number of one that opens is used."""
        number, kind, content = record["seq"], record["content_type"], hex_or_dash(record["content"])
        if not record["protected"]:
            return "plaintext", number, kind, record["offset"] + 13, content
        why = self.dropped(record, first)
        if why:
            return "dropped", *why
        self.opened[record["epoch"]].add(number)
        return "opened", record["epoch"], number, kind, record["offset"] + record["header_len"], content

    def ends(self, record):
        """Whether a record that is read is an alert that ends its datagram. The place of the first close is remembered."""
        content, place = bytes.fromhex(record["content"] or ""), (record["epoch"], record["seq"])
        unprotected = self.encrypted and not record["protected"]
        if record["content_type"] != ALERT or len(content) < 2 or unprotected or self.close and place > self.close:
            return False
        if content[1] == CLOSE:
            self.close = self.close or place
        return content[1] not in (CLOSE, USER_CANCELED)

    def read(self, datagram, records):
        if len(datagram["hex"]) > 2 * LONGEST:
            print("oversize", self.side, len(datagram["hex"]) // 2)
            return
        print("datagram", self.side, hex_or_dash(datagram["hex"]))
        readings = 0
        for at, record in enumerate(records):
            if record["protected"]:
                self.key_for(records[at:])
            line = self.expected(record, byte_at(datagram, record["offset"]))
            readings += line[0] != "dropped"
            if readings > MOST_READINGS:
                print("end", TOO_MANY_READINGS)
                return
            print(*line)
            if line[0] != "dropped" and self.ends(record):
                break
        print("end")

    def read_made(self, epoch, number):
        """A record of a number that was not captured."""
        content = bytes([epoch % 256, number % 256]).hex()
        print("made", self.side, epoch, number, APPLICATION_DATA, content)
        self.opened[epoch].add(number)
        print("opened", epoch, number, APPLICATION_DATA, SEALED_HEADER, content)
        print("end")

    def read_beyond(self):
        """Two records beyond a sealed close, which must be dropped: the next number, and number 0 of the next epoch, under the same keys."""
        if self.close is None or self.close < (2, 0):
            return
        epoch, later = self.close[0], self.latest + 1
        self.read_made(epoch, max(self.opened[epoch]) + 1)
        self.keys.setdefault(str(later), self.keys[str(epoch)])
        self.key(later)
        self.read_made(later, 0)


def key_words(key):
    return " ".join([key["cipher_suite"], key["key"], key["iv"], key["sn_key"]])


def pieces_of(content):
    """Number, type, total, offset and bytes of each piece of a handshake record."""
    while len(content) >= PIECE_HEADER:
        total, number, offset, length = (int.from_bytes(content[a:b], "big") for a, b in [(1, 4), (4, 6), (6, 9), (9, 12)])
        end = PIECE_HEADER + length
        yield number, content[0], total, offset, content[PIECE_HEADER:end]
        content = content[end:]


def captured_messages(side, session, records):
    """The messages that a side sent, by their numbers: type and bytes, None for one that was not captured."""
    found = {}
    for index, datagram in enumerate(session["datagrams"]):
        for record in records[index]:
            if datagram["dir"] != DIRECTIONS[side] or record["content_type"] != HANDSHAKE:
                continue
            for number, kind, total, offset, body in pieces_of(bytes.fromhex(record["content"] or "")):
                _, known = found.setdefault(number, (kind, [None] * total))
                for i, byte in enumerate(body, offset):
                    if i < len(known) and known[i] is None:
                        known[i] = byte
    return found


def messages(session, records, change):
    """The messages of both sides, up to the first that is not wholly captured or too long to be put together."""
    lines = []
    for side in range(2):
        found = captured_messages(side, session, records)
        number = 0
        while number in found and None not in found[number][1] and len(found[number][1]) <= LONGEST:
            lines.append((side, found[number][0], bytearray(found[number][1])))
            number += 1
    if change:
        [body for _, _, body in lines if body][-1][-1] ^= 1
    for side, kind, body in lines:
        print("message", side, kind, hex_or_dash(body.hex()))


def delivered(session, records):
    """Reads what was delivered; the receivers, and by side where the close is among its datagrams, None where no sealed one is told."""
    receivers = [Receiver(side, session) for side in range(2)]
    counts, closes = [0, 0], [None, None]
    for index in session["delivery_order"]:
        datagram = session["datagrams"][index]
        side = DIRECTIONS.index(datagram["dir"])
        receivers[side].read(datagram, records[index])
        if receivers[side].close and closes[side] is None and receivers[side].close >= (2, 0):
            closes[side] = counts[side]
        counts[side] += 1
    return receivers, closes


def again(session, records, receivers):
    """Delivers the datagrams without plaintext once more: as they are, and behind a record that is as far above them as the window is wide."""
    print("again")
    for receiver in receivers:
        own = [index for index in session["delivery_order"] if session["datagrams"][index]["dir"] == DIRECTIONS[receiver.side]]
        sealed = [index for index in own if all(record["protected"] for record in records[index])]
        for index in sealed:
            receiver.read(session["datagrams"][index], records[index])
        opened = receiver.opened.get(receiver.latest)
        if opened:
            receiver.read_made(receiver.latest, max(opened) + WINDOW)
            for index in sealed:
                receiver.read(session["datagrams"][index], records[index])


def close_first(session, records, closes):
    """Reads each side that has a close again: the close in front of the datagrams before it, and two records beyond it between them."""
    if closes != [None, None]:
        print("close-first")
    for side in (side for side in range(2) if closes[side] is not None):
        receiver, at = Receiver(side, session), closes[side]
        own = [index for index in session["delivery_order"] if session["datagrams"][index]["dir"] == DIRECTIONS[side]]
        first = max(at - LATE, 0)
        for index in own[:first] + [own[at]]:
            receiver.read(session["datagrams"][index], records[index])
        receiver.read_beyond()
        for index in own[first:at] + own[at + 1 :]:
            receiver.read(session["datagrams"][index], records[index])


def sent(session, records):
    latest = [1, 1]
    for index, datagram in enumerate(session["datagrams"]):
        side = DIRECTIONS.index(datagram["dir"])
        keys = session["keys"].get(datagram["dir"], {})
        for record in records[index]:
            epoch = record["epoch"]
            for each in sorted(map(int, keys)):
                if latest[side] < each <= epoch:
                    print("key-send", side, each, key_words(keys[str(each)]))
                    latest[side] = each
            start, end = record["offset"], record["offset"] + record["length"]
            captured, content = datagram["hex"][2 * start : 2 * end], hex_or_dash(record["content"])
            print("write", side, epoch, record["seq"], record["content_type"], captured, content)
        print("take", side)


def by_datagram(session):
    """The records of each datagram in their order; None for the index of one that they do not fill."""
    records = [[] for _ in session["datagrams"]]
    for record in sorted(session["records"], key=lambda record: record["offset"]):
        records[record["datagram"]].append(record)
    for index, datagram in enumerate(session["datagrams"]):
        if 2 * sum(record["length"] for record in records[index]) != len(datagram["hex"]):
            return None, index
    return records, None


def flip(session):
    for keys in session["keys"].values():
        for key in keys.values():
            key["key"] = f"{int(key['key'][:2], 16) ^ 1:02x}" + key["key"][2:]


def other_number_keys(keys, how):
    """The keys with other number keys: a bit of each changed, or those of the other direction."""
    changed = copy.deepcopy(keys)
    for direction, other in zip(DIRECTIONS, reversed(DIRECTIONS)):
        for epoch, key in changed.get(direction, {}).items():
            if how == "flipped":
                key["sn_key"] = f"{int(key['sn_key'][:2], 16) ^ 1:02x}" + key["sn_key"][2:]
            elif how == "swapped":
                key["sn_key"] = keys[other][epoch]["sn_key"]
    return changed


def says_not_to_open(session):
    """A session whose field or name says that it must not open: its keys are wrong, or its records do not follow RFC 9147."""
    return (
        session.get("must_not_open", False)
        or not session.get("rfc9147_conforming_records", True)
        or "wrong_key" in session["name"]
        or "must_not_open" in session["name"]
    )


def left_out(session):
    if any(session.get("cid", {}).values()):
        return "left out: it has connection IDs"
    suites = {key["cipher_suite"] for keys in session["keys"].values() for key in keys.values()}
    unknown = sorted(suites - set(SUITES))
    return f"left out: no cipher for {', '.join(unknown)}" if unknown else None


def main(options):
    with open(options.session) as file:
        session = json.load(file)
    reason = left_out(session)
    if reason:
        return reason
    records, unfilled = by_datagram(session)
    if records is None:
        return f"its records do not fill datagram {unfilled}"
    session["must_not_open"] = options.must_not_open or says_not_to_open(session)
    if options.flip_keys:
        flip(session)
    keys = session["keys"]
    print("session", session["name"])
    if options.mask_keys:
        print("mask-keys")
    if options.spoil:
        print("spoil", options.spoil)
    messages(session, records, options.change_message)
    session["keys"] = other_number_keys(keys, options.read_mask_keys)
    receivers, closes = delivered(session, records)
    if not session["must_not_open"]:
        again(session, records, receivers)
    close_first(session, records, closes)
    session["keys"] = other_number_keys(keys, options.write_mask_keys)
    if not session["must_not_open"]:
        sent(session, records)
    print("done")
    return None


if __name__ == "__main__":
    parser = argparse.ArgumentParser(description="Turns a captured session into lines for the host.")
    parser.add_argument("--flip-keys", action="store_true", help="change a bit of every key")
    parser.add_argument("--must-not-open", action="store_true", help="expect that no sealed record opens")
    parser.add_argument("--change-message", action="store_true", help="change a bit of the last message")
    parser.add_argument("--spoil", choices=SPOILED, help="have the host change what the layer answers")
    parser.add_argument("--mask-keys", action="store_true", help="give the layer the number keys of ChaCha20 suites")
    parser.add_argument("--read-mask-keys", choices=["flipped", "swapped"], help="read with other number keys")
    parser.add_argument("--write-mask-keys", choices=["flipped", "swapped"], help="write with other number keys")
    parser.add_argument("session")
    reason = main(parser.parse_args())
    if reason:
        print(reason, file=sys.stderr)
        sys.exit(3)
