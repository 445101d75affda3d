"""The executions of recorded conversations: what the library reads of each, and what it writes of what it read.

What is wanted of the parameters and of the rows is what the reference decoder reads."""
from conversations import recorded
from watcher import Watcher

from reference_decoder import statements, values, written
from reference_decoder.buf import Buf, Eof, Invalid
from reference_decoder.conversation import CLIENT, Refused

# how many statements, types of parameters and columns, and early commands the library keeps
LIMITS = 4096, 1 << 20, 4096


def shown(value):
    """A value as a word has it."""
    if value is None:
        return "NULL"
    if isinstance(value, bytes):
        return value.hex()
    if value[0] == "number":
        return str(value[1])
    return str(value[2]) if value[0] == "date" and len(value) == 3 else "another"


class Executions(Watcher):
    """A connection from its first command on: the payloads, and what is wanted of its executions and of its binary rows."""

    def __init__(self):
        super().__init__(True)
        self.payloads, self.words = [], []

    def bind(self, payload):
        """A command whose turn it is."""
        if payload[0] == 0x17:
            self.words += self.of_execution(payload)
        super().bind(payload)

    def of_execution(self, payload):
        number = int.from_bytes(payload[1:5], "little")
        number = self.last if number == 0xFFFFFFFF else number
        if number not in self.params:
            return ["statement=unknown"]
        try:
            buf = Buf(payload)
            record = statements.stmt_execute(buf, self.params[number], self.session.flags)
        except (Eof, Invalid):
            return ["fault"]
        _, sends_types, params, _ = record
        if params and not sends_types and number not in self.is_bound:
            return ["unbound"]
        sent = payload[:len(payload) - len(buf.data)]
        again = written.execution(sent, self.params[number], self.session.flags)
        words = [f"param:{kind}={'ahead' if is_sent_ahead else shown(value)}" for kind, _, _, is_sent_ahead, value in params]
        return [*words, "written=same" if again == sent else f"written={again.hex()}"]

    def binary_row(self, payload, exchange):
        (width, columns), buf = self.statements.get(self.runs, (None, [])), Buf(payload)
        if len(columns) != width:
            self.words.append("row=unknown")
            return {}
        buf.take(1)
        nulls = int.from_bytes(buf.take((len(columns) + 7 + 2) // 8), "little") >> 2
        self.words.append("row" + "".join(":NULL" if nulls >> at & 1 else f":{shown(values.bin_value(buf, *it))}" for at, it in enumerate(columns)))
        return {}

    def take(self, packet):
        """Takes a packet, or raises Refused."""
        has_begun = not self.session.before and (self.payloads or self.session.is_idle())
        kind, number = self.session.next(packet.side, packet.payload)
        if has_begun:
            self.payloads.append(packet.side + packet.payload.hex())
        kind = kind.split(":")[0]
        if packet.side != CLIENT:
            self.serve(number)
        if kind == "ssl_request" and packet.begins_tls:
            self.session.tls_established()
        try:
            self.fields(kind, packet.payload, number)
        except (Eof, Invalid, IndexError):
            pass


def asked_of(path, longest):
    """The request of a recorded conversation, what is wanted of it, how many executions of it are read, and how many of them are written as they
    were. An answer that is longer than that is one to the front of the conversation."""
    of, size = Executions(), 0
    try:
        for packet in recorded(path):
            count = len(of.words)
            of.take(packet)
            size += sum(len(it) + 1 for it in of.words[count:])
            if size > longest:
                del of.payloads[-1], of.words[count:]
                break
    except Refused:
        pass
    head = ["statements", *map(str, LIMITS), str(of.session.flags), str(of.session.own)]
    return " ".join([*head, *of.payloads]), of.words, (sum(it.startswith("written=") for it in of.words), of.words.count("written=same"))


def answered(line):
    """The words of an answer without the parameters before a fault, and without how many commands wait."""
    kept = []
    for word in line.split():
        while word == "fault" and kept and kept[-1].startswith("param:"):
            kept.pop()
        if not word.startswith("waiting="):
            kept.append(word)
    return kept
