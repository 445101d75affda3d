#!/usr/bin/env python3
"""Conversations: recorded ones, and what becomes of them when packets are lost, doubled, swapped, turned round, cut or broken, distinguished by
the library and by a second tracker that is written from the protocol's pages.

conversations.py PROBE              the build that rt ci leaves
conversations.py --unproved [FILE]  asks it built without proof
The last line is 'N passed, N failed'."""
import lzma
import random
import re
import sys
from itertools import zip_longest
from pathlib import Path

from lines import TOP, answers, built
from tried import tried

sys.path.insert(0, str(TOP / "tests"))
from reference_decoder.conversation import CLIENT, SERVER, Refused, Session  # noqa: E402

FOLDER = TOP / "tests/captured/conversations"
LIMIT = 1000
# how many packets of a conversation are changed at the most, in each way
CHANGED = 40
# a conversation of more bytes is cut before it is changed
LONGEST = 20_000


# by the pages, payloads that come somewhere: one of each kind at least, for each of its layouts
GREETING = b"\x0a8.0.36\0" + bytes(8) + b"seedseed"[:4] + bytes(1) + bytes(2) + bytes(18) + bytes(13)
SOME = {
    CLIENT: [b"\x0e", bytes(33), b"\0\x08" + bytes(30), b"", b"x", b"\xef"],
    SERVER: [
        GREETING,
        b"\xff\x15\x04#28000no",
        b"\xff\xff\xff\x01\x01\x01\0\0\0\0",
        bytes(7),
        b"\xfe\0\0\0\0",
        b"\xfe\0\0\0\0\0\0",
        b"\xfe",
        b"\xfemysql_native_password\0",
        b"\x01\x01\x01",
        b"\x02plugin\0",
        b"\x03ask",
        b"\xfbfile",
        bytes(13),
        b"\0",
        b"1",
        b"",
    ],
}


class Packet:
    """A frame that is a payload: whose it is, its number and the payload, and whether what follows it was inside of TLS."""

    def __init__(self, side, number, payload, begins_tls=False):
        self.side, self.number, self.payload, self.begins_tls = side, number, payload, begins_tls

    def bytes(self):
        return len(self.payload).to_bytes(3, "little") + bytes([self.number]) + self.payload

    def words(self):
        return [self.side + self.bytes().hex()] + ["tls"] * self.begins_tls


def pieces_of(path):
    """The lines of a recorded conversation: a side, and bytes of its stream."""
    for line in lzma.open(path, "rt"):
        if line.strip():
            side, digits = line.split()
            yield side, bytes.fromhex(digits)


def packets_of(pieces, is_deciphered=False):
    """The payloads of both streams, in the order in which they end. Of a recording that has what was inside of TLS, the request for TLS says so."""
    streams, joined, found = {CLIENT: b"", SERVER: b""}, {CLIENT: b"", SERVER: b""}, []
    for side, piece in pieces:
        streams[side] += piece
        while len(streams[side]) >= 4:
            length, number = int.from_bytes(streams[side][:3], "little"), streams[side][3]
            if len(streams[side]) < 4 + length:
                break
            joined[side] += streams[side][4 : 4 + length]
            streams[side] = streams[side][4 + length :]
            if length < 0xFFFFFF:
                begins_tls = is_deciphered and side == CLIENT and len(found) == 1 and len(joined[side]) == 32
                found.append(Packet(side, number, joined[side], begins_tls))
                joined[side] = b""
    return found


def wanted(packets, limit=LIMIT):
    """What the second tracker says of packets, up to the first that doesn't come."""
    session, words = Session(limit), []
    for packet in packets:
        try:
            kind, number = session.next(packet.side, packet.payload)
        except Refused as refusal:
            words.append(f"{packet.side}refused:{refusal.args[0] if refusal.args else 'Unexpected'}")
            break
        words.append(f"{packet.side}{kind}#{number}")
        if packet.begins_tls:
            session.tls_established()
    words.append("may_receive" + "".join(":" + it for it in sorted(expected(session))))
    words.append("at_rest=" + ("yes" if session.is_idle() else "no"))
    return words


def expected(session):
    """The kinds that may come next: those of which the second tracker takes a payload."""
    found = set()
    for side, payloads in SOME.items():
        for payload in payloads:
            before = dict(vars(session), waiting=list(session.waiting))
            try:
                found.add(side + session.next(side, payload)[0].split(":")[0])
            except Refused as refusal:
                # (after a request to go on in TLS there is the login, deciphered)
                if refusal.args == ("Encrypted",):
                    found.add(CLIENT + "login")
            vars(session).clear()
            vars(session).update(before)
    return found


def request(packets):
    return " ".join([f"session {LIMIT}"] + [word for it in packets for word in it.words()] + ["may_receive"])


def other_kind(packets, kinds, line):
    """The first packet that the library answers to be of another kind than who sent or received it knows, or no text."""
    answered = [re.match(r"[<>]\w+", word)[0] for word in line.split() if word[0] in "<>"]
    known = [it.side + kind for it, kind in zip(packets, kinds)]
    pairs = enumerate(zip_longest(answered, known))
    return next((f"packet {at} of {len(known)} is {a}, and known as {b}" for at, (a, b) in pairs if a != b), "")


def in_pieces(packets, size):
    """The same packets, cut in pieces of a given number of bytes; a side's last piece comes before the other side's next."""
    words, run, side = [f"session {LIMIT}"], b"", None
    for packet in [*packets, Packet(None, 0, b"")]:
        if packet.side != side:
            words += [side + run[at : at + size].hex() for at in range(0, len(run), size)]
            run, side = b"", packet.side
        run += packet.bytes()
        if packet.begins_tls:
            words += [side + run[at : at + size].hex() for at in range(0, len(run), size)] + ["tls"]
            run = b""
    return " ".join([*words, "may_receive"])


def in_order(word):
    """The same word; of the kinds that may come, in the order of their names."""
    return ":".join(["may_receive", *sorted(word.split(":")[1:])]) if word.startswith("may_receive") else word


def other(side):
    return SERVER if side == CLIENT else CLIENT


def changed(packets, chance):
    """Conversations that are made of one: each is a list of packets."""
    places = range(len(packets))
    some = lambda: chance.sample(places, min(CHANGED, len(packets)))
    for at in some():
        yield packets[:at] + packets[at + 1 :]
        yield packets[: at + 1] + packets[at:]
        yield packets[:at]
    for at in some():
        if at + 1 < len(packets):
            yield packets[:at] + [packets[at + 1], packets[at]] + packets[at + 2 :]
        it = packets[at]
        yield packets[:at] + [Packet(other(it.side), it.number, it.payload)] + packets[at + 1 :]
        yield packets[:at] + [Packet(it.side, it.number, it.payload[: chance.randrange(len(it.payload) + 1)])] + packets[at + 1 :]
    for at in some():
        it = packets[at]
        if it.payload:
            place = min(chance.randrange(len(it.payload)), chance.randrange(12))
            broken = bytearray(it.payload)
            broken[place % len(broken)] = chance.choice([0, 1, 2, 0xEF, 0xFA, 0xFB, 0xFC, 0xFE, 0xFF, broken[place % len(broken)] ^ 1 << chance.randrange(8)])
            yield packets[:at] + [Packet(it.side, it.number, bytes(broken))] + packets[at + 1 :]
        source = packets[chance.randrange(len(packets))]
        yield packets[:at] + [source] + packets[at:]
    # (commands that come early)
    commands = [at for at in places if packets[at].side == CLIENT and packets[at].number == 0 and at > 2]
    for at in chance.sample(commands, min(CHANGED, len(commands))):
        to = chance.randrange(max(2, at - 6), at)
        yield packets[:to] + [packets[at]] + packets[to:at] + packets[at + 1 :]


def shortened(packets):
    """A front that is not past the longest, and of the rest the packets following it, as far as they fit."""
    size = 0
    for at, packet in enumerate(packets):
        size += len(packet.payload)
        if size > LONGEST:
            return packets[:at]
    return packets


def recorded(path):
    """The packets of a recorded conversation."""
    return packets_of(pieces_of(path), "deciphered" in recorded_end(path.name))


def asked_of(path):
    """The requests of a recorded conversation, with what is wanted of each."""
    packets = recorded(path)
    chance, front = random.Random(path.name), shortened(packets)
    asked = [(f"{path.name}: whole", request(packets), wanted(packets))]
    asked += [(f"{path.name}: in pieces of {size}", in_pieces(front, size), wanted(front)) for size in (1, 5, 1460)]
    asked += [(f"{path.name}: change {number}", request(it), wanted(it)) for number, it in enumerate(changed(front, chance))]
    return asked


def recorded_end(name):
    """How the sample's own page says that a conversation ends."""
    return {line.split()[0]: line.split()[1:] for line in (FOLDER / "ENDS.txt").read_text().splitlines() if line and not line.startswith("#")}[name]


def ends(path, words):
    """Whether a recorded conversation is taken as its line of ENDS.txt says."""
    refused = [at for at, word in enumerate(words) if "refused:" in word]
    how = f"refused {refused[0]}" if refused else ("rest" if words[-1] == "at_rest=yes" else "open")
    return how.split() == [it for it in recorded_end(path.name) if it != "deciphered"]


def main(*names):
    asked, failed = [], 0
    paths = sorted(FOLDER.glob("*.xz"))
    for path in paths:
        asked += asked_of(path)
        if not ends(path, wanted(recorded(path))):
            failed += 1
            print(f"{path.name}: it does not end as ENDS.txt says")
    lines = [it for _, it, _ in asked]
    for answered in [tried(lines, "test_calls")] if names[:1] == ("--unproved",) else [answers(it, lines) for it in built("program")]:
        for (name, _, want), line in zip(asked, answered):
            got = [in_order(it) for it in line.split() if not it.startswith(("mysql=", "mariadb="))]
            if got != want:
                failed += 1
                at = next((at for at, (a, b) in enumerate(zip(got, want)) if a != b), min(len(got), len(want)))
                print(f"{name}: word {at}: {' '.join(got[at : at + 3])}, and by the pages {' '.join(want[at : at + 3])}")
    print(f"conversations: {len(paths)} recorded, {len(asked)} asked")
    print(f"{len(asked) + len(paths) - failed} passed, {failed} failed")
    return 1 if failed else 0


if __name__ == "__main__":
    sys.exit(main(*sys.argv[1:]))
