"""What the program shows of a recording, where something is lost too: the streams are taken up where docs/USING.md says."""
import json
import re
import sys

from lines import TOP
from watcher import COMMANDS, Watcher

sys.path.insert(0, str(TOP / "tests"))
from reference_decoder.conversation import CLIENT, SERVER  # noqa: E402

PROGRAM = TOP / "crates/mypackets_conversation/out/mypackets_conversation"
LONGEST = 64 << 20
MARK = re.compile(rb"\[(\d{1,19}) bytes missing in capture file\]\0")
NAMES = {CLIENT: "client", SERVER: "server"}


def mark(count):
    """What tshark has in the place of a given number of bytes that a capture lacks."""
    return b"[%d bytes missing in capture file]\0" % count


class Broken(Exception):
    """Bytes are no frames."""


class Stream:
    """A side's stream: the bytes of a payload that isn't whole, and where it is out of step how many were passed over."""

    def __init__(self):
        self.bytes, self.passed, self.number = b"", None, 0

    def packet(self, longest):
        """The next payload with the number of its first frame, if it is whole."""
        at, joined, first = 0, b"", None
        while len(self.bytes) >= at + 4:
            length, number = int.from_bytes(self.bytes[at : at + 3], "little"), self.bytes[at + 3]
            if first is not None and number != self.number:
                raise Broken("OutOfOrder")
            if len(joined) + length > longest:
                raise Broken("TooLong")
            if len(self.bytes) < at + 4 + length:
                return None
            first = number if first is None else first
            joined += self.bytes[at + 4 : at + 4 + length]
            at += 4 + length
            self.number = (number + 1) % 256
            if length < 0xFFFFFF:
                self.bytes = self.bytes[at:]
                return first, joined
        return None

    def lose(self):
        self.passed = (self.passed or 0) + len(self.bytes)
        self.bytes = b""


class Packet:
    def __init__(self, side, number, payload):
        self.side, self.number, self.payload = side, number, payload


class Recorder:
    """What is wanted of the lines of a recording."""

    def __init__(self, longest=LONGEST, is_deciphered=False):
        self.watcher, self.longest, self.wanted, self.status = Watcher(is_deciphered), longest, [], 0
        self.streams, self.answer, self.is_over = {CLIENT: Stream(), SERVER: Stream()}, None, False
        # the commands that came before the answers to earlier ones, and no packet of the server since
        self.unheard = []

    def say(self, side, kind, **fields):
        number = self.watcher.session.last + (kind == "resync" and side == CLIENT)
        self.wanted.append({"side": NAMES[side], "exchange": number, "kind": kind, **fields})

    def lose(self, command=None):
        """Both streams are out of step, and the conversation goes on between two commands; or the server's is, and it goes on after a command."""
        self.status = 1
        session, watcher = self.watcher.session, self.watcher
        if session.before:
            self.is_over = True
            return
        session.place, session.waiting = session.rest(), []
        watcher.lose()
        self.unheard = []
        if command is not None:
            session.number, session.place = session.last, session.answer(command)
            watcher.command(command)
            self.streams[SERVER].lose()
            self.answer = self.streams[CLIENT].number
            return
        for stream in self.streams.values():
            stream.lose()
        self.answer = None

    def lost(self, side, name, value):
        if self.watcher.session.before:
            self.wanted.append({"refused": value if name == "refused" else "Missing"})
        else:
            self.say(side, "lost", **{name: value})
        is_answer = side == SERVER and name == "missing" and len(self.unheard) == 1
        self.lose(self.unheard[0] if is_answer else None)

    def begins(self, side, line):
        if side == SERVER:
            return self.answer is not None and len(line) > 3 and line[3] == self.answer
        return len(line) > 4 and line[:3] != b"\0\0\0" and line[3] == 0 and line[4] in COMMANDS

    def line(self, side, line):
        found, stream = MARK.fullmatch(line), self.streams[side]
        if found:
            self.lost(side, "missing", int(found[1]))
            return
        if stream.passed is not None and self.begins(side, line):
            self.say(side, "resync", skipped_bytes=stream.passed)
            stream.passed = None
        stream.bytes += line
        while not self.is_over:
            if stream.passed is not None:
                stream.lose()
                return
            try:
                packet = stream.packet(self.longest)
            except Broken as broken:
                self.lost(side, "refused", broken.args[0])
                continue
            if packet is None:
                return
            self.take(side, *packet)

    def take(self, side, number, payload):
        if side == CLIENT and self.streams[SERVER].passed is not None and self.answer is None:
            self.answer = self.streams[CLIENT].number
        session = self.watcher.session
        is_between = not session.before and session.is_idle()
        it, comes = self.watcher.wanted(Packet(side, number, payload))
        if side == SERVER:
            self.unheard = []
        elif it["kind"] == "command" and not is_between:
            self.unheard.append(payload)
        self.wanted.append(it)
        if not comes:
            self.lose()

    def end(self):
        for side, stream in self.streams.items():
            if stream.passed is not None and not self.is_over:
                self.say(side, "no_resync", skipped_bytes=stream.passed)


def recorded(lines, longest=LONGEST, is_deciphered=False):
    """What is wanted of lines, and the status."""
    recorder = Recorder(longest, is_deciphered)
    for side, line in lines:
        recorder.line(side, line)
        if recorder.is_over:
            break
    recorder.end()
    return recorder.wanted, recorder.status


def as_lines(pieces):
    return "".join(f"{side} {piece.hex()}\n" for side, piece in pieces).encode()


def as_followed(pieces):
    """What tshark prints of a stream that it follows: the server's pieces after a tab."""
    rule = "=" * 67 + "\n"
    head = rule + "Follow: tcp,raw\nFilter: tcp.stream eq 0\nNode 0: 127.0.0.1:50000\nNode 1: 127.0.0.1:3306\n"
    return (head + "".join(("\t" if side == SERVER else "") + piece.hex() + "\n" for side, piece in pieces) + rule).encode()


# what is never shown unless it is wanted, except for what stands before the fault of an execution or a query
VALUES = ("value", "parameter", "attribute", "attribute_value", "variable", "variable_value")
BEFORE_FAULTS = ("parameter", "attribute", "attribute_value")


def differs(wanted, line):
    """Where an object lacks what is wanted of it or has a value that isn't, or no text."""
    got = json.loads(line)
    values = [] if "payload" not in wanted else [it for it in VALUES if not ("refused" in got and it in BEFORE_FAULTS)]
    more = next((f"{name} is {got[name]!r}, and by the pages unknown" for name in values if name in got and name not in wanted), "")
    return more or next((f"{name} is {got.get(name)!r}, and by the pages {it!r}" for name, it in wanted.items() if got.get(name) != it or name not in got), "")
