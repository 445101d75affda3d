#!/usr/bin/env python3
"""What the packets of recorded conversations hold: the library's typed answer against the reference decoder, whole and with packets cut; and
each execution of them is read, and written back as it was read.

packets.py PROBE              the build that rt ci leaves
packets.py --unproved [FILE]  asks it built without proof
The last line is 'N passed, N failed'."""
import random
import sys

import conversations
import executions
from conversations import FOLDER, LIMIT, Packet, recorded, shortened
from lines import TOP, answers, built
from tried import tried

sys.path.insert(0, str(TOP / "tests"))
from reference_decoder import authentication, commands, replication, replies, statements, values  # noqa: E402
from reference_decoder.buf import Buf, Eof, Invalid  # noqa: E402
from reference_decoder.codes import UNSIGNED  # noqa: E402
from reference_decoder.conversation import CLIENT, Refused, Session  # noqa: E402

# how many packets of a conversation are cut at the most
CUT = 60


class Watched:
    """A session, and the columns of its last result."""

    def __init__(self):
        self.session, self.count, self.columns = Session(LIMIT), 0, []

    def handshake(self, buf):
        packet = authentication.handshake(buf)
        return packet[2], len(packet[1])

    def ok(self, buf):
        numbers, status, warnings, _ = replies.ok_packet(buf, self.session.flags, b"\0", True)
        return numbers[0], numbers[1] or 0, status, warnings

    def ok_terminator(self, buf):
        _, status, warnings, _ = replies.ok_packet(buf, self.session.flags, b"\xfe", False)
        return 0, 0, status, warnings

    def eof(self, buf):
        warnings, status = replies.old_eof(buf, self.session.flags)
        return 0, 0, status, warnings

    def error(self, buf):
        if self.session.before:
            return (replies.greeting_error(buf)[0],)
        code, _, message = replies.err_packet(buf, self.session.flags)
        return code, len(message)

    unsolicited_error = error

    def progress_report(self, buf):
        buf.take(3)
        return replies.progress_report(buf)[:3]

    def local_infile(self, buf):
        buf.const(b"\xfb")
        return (len(buf.all()),)

    def column_count(self, buf):
        self.count, follows = count, _ = replies.column_count(buf, self.session.flags, self.session.own)
        if follows != 0:
            self.columns = []
        return (count,)

    def column(self, buf):
        (names, numbers), _ = replies.extended_column(buf, self.session.own)
        self.columns.append((numbers[2], numbers[3]))
        return len(names[3]), numbers[2], numbers[3]

    def field_list_column(self, buf):
        ((names, numbers), _), default = replies.field_list_column(buf, self.session.own)
        return (len(names[3]), numbers[2], numbers[3]) + (() if default is None else (len(default),))

    def text_row(self, buf):
        for _ in range(self.count):
            yield shown(values.text_value(buf))

    def binary_row(self, buf):
        buf.take(1)
        bits = int.from_bytes(buf.take((len(self.columns) + 9) // 8), "little") >> 2
        for at, (kind, flags) in enumerate(self.columns):
            yield "NULL" if bits >> at & 1 else shown(values.bin_value(buf, kind, flags & UNSIGNED))

    def prepare_ok(self, buf):
        ((number, _, _), warnings), _ = statements.stmt_packet_with_metadata(buf, self.session.flags)
        return number, warnings

    def auth_switch(self, buf):
        return (len(authentication.auth_switch_request(buf)[0]),)

    def old_auth_switch(self, buf):
        buf.const(b"\xfe")
        return ()

    def auth_more_data(self, buf):
        buf.const(b"\1")
        return (len(buf.all()),)

    def auth_next_factor(self, buf):
        return (len(authentication.auth_next_factor(buf)[0]),)

    def all(self, buf):
        return (len(buf.all()),)

    auth_plugin_data = auth_data = statistics = infile_content = clone = all

    def infile_end(self, _buf):
        return ()

    def binlog_event(self, buf):
        return (len(replication.stream_event(buf, False)[1]),)

    def semi_sync_ack(self, buf):
        return (replication.semi_sync_ack(buf)[0],)

    def ssl_request(self, buf):
        return (authentication.ssl_request(buf)[0][0],)

    def login(self, buf):
        packet = authentication.handshake_response(buf)
        return packet[0], len(packet[4]), len(packet[5])

    def command(self, buf):
        name, record = commands.command(buf, self.session.flags)
        return {
            "COM_QUERY": lambda: (len(record[1]),),
            "COM_STMT_PREPARE": lambda: (len(record),),
            "COM_STMT_EXECUTE": lambda: (len(record[1]),),
        }.get(name, lambda: ())()

    def fields(self, kind, payload):
        """The fields of a record, how many bytes follow it, or its fault."""
        buf, fields = Buf(payload), []
        try:
            for it in getattr(self, kind.split(":")[0])(buf):
                fields.append(str(it))
            left = len(buf.data)
        except (Eof, Invalid) as fault:
            fields.append({Eof: "UnexpectedEof", Invalid: "InvalidData"}[type(fault)])
            # (what was refused is left as it was; a row's values were all taken)
            left = 0 if kind in ("text_row", "binary_row") and not self.is_front_cut(kind, payload) else len(payload)
        return "".join(f":{it}" for it in fields) + (f"+{left}" if left else "")

    def is_front_cut(self, kind, payload):
        return kind == "binary_row" and len(payload) < 1 + (len(self.columns) + 9) // 8


def shown(value):
    """A value: the length of bytes, or its numbers."""
    if value is None:
        return "NULL"
    if isinstance(value, bytes):
        return len(value)
    if value[0] in ("number", "bits"):
        return value[1]
    return ":".join(map(str, value[1][:3] if value[0] == "date" else value[2][:2]))


def wanted(packets):
    """What the reference decoder says of packets, up to the first that doesn't come."""
    watched, words = Watched(), []
    for packet in packets:
        try:
            kind, number = watched.session.next(packet.side, packet.payload)
        except Refused as refusal:
            words.append(f"{packet.side}refused:{refusal.args[0] if refusal.args else 'Unexpected'}")
            break
        words.append(f"{packet.side}{kind}#{number}{watched.fields(kind, packet.payload)}")
        if packet.begins_tls:
            watched.session.tls_established()
    return words


def request(packets):
    return conversations.request(packets).replace("session", "packets", 1).removesuffix(" may_receive")


def changed(packets, chance):
    """Conversations with a packet cut, or with one byte of it broken."""
    for at in chance.sample(range(len(packets)), min(CUT, len(packets))):
        it = packets[at]
        yield packets[:at] + [Packet(it.side, it.number, it.payload[: chance.randrange(len(it.payload) + 1)])] + packets[at + 1 :]
        if it.payload:
            broken = bytearray(it.payload)
            broken[chance.randrange(len(broken))] = chance.choice([0, 1, 0x7F, 0xFA, 0xFB, 0xFC, 0xFD, 0xFE, 0xFF])
            yield packets[:at] + [Packet(it.side, it.number, bytes(broken))] + packets[at + 1 :]


def asked_of(path):
    packets, chance = recorded(path), random.Random(path.name)
    asked = [(f"{path.name}: whole", request(packets), wanted(packets))]
    front = shortened(packets)
    return asked + [(f"{path.name}: change {number}", request(it), wanted(it)) for number, it in enumerate(changed(front, chance))]


def main(*names):
    asked, failed, counts = [], 0, []
    paths, is_unproved = sorted(FOLDER.glob("*.xz")), names[:1] == ("--unproved",)
    for path in paths:
        asked += asked_of(path)
        # (without proof, answers of at most 1 MiB are handed on)
        asked_for, want, count = executions.asked_of(path, 900_000 if is_unproved else 1 << 40)
        asked.append((f"{path.name}: executions", asked_for, want))
        counts.append(count)
    lines = [it for _, it, _ in asked]
    for answered in [tried(lines, "test_calls")] if is_unproved else [answers(it, lines) for it in built("program")]:
        for (name, asked_for, want), line in zip(asked, answered):
            got = executions.answered(line) if asked_for.startswith("statements") else line.split()
            if got != want:
                failed += 1
                at = next((at for at, (a, b) in enumerate(zip(got, want)) if a != b), min(len(got), len(want)))
                print(f"{name}: word {at}: {' '.join(got[at : at + 3])}, and by the pages {' '.join(want[at : at + 3])}")
    read, same = map(sum, zip(*counts))
    print(f"packets: {len(paths)} recorded conversations, {len(asked)} asked; {read} executions are written again, {same} of them as they were")
    print(f"{len(asked) - failed} passed, {failed} failed")
    return 1 if failed else 0


if __name__ == "__main__":
    sys.exit(main(*sys.argv[1:]))
