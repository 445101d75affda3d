"""A client whose packets are all read and written by the library: the probes answer what is in them.

It finds the payloads itself, and knows itself of which kind each is: a second opinion on the library's frames and conversations."""
import socket
import subprocess

import passwords
from conversations import CLIENT, SERVER, Packet
from lines import built

CONNECT_WITH_DB, LOCAL_FILES, PROTOCOL_41, SECURE, MULTI_RESULTS, PLUGIN_AUTH = 1 << 3, 1 << 7, 1 << 9, 1 << 15, 1 << 17, 1 << 19
CONNECT_ATTRS, LENENC_DATA, SESSION_TRACK, DEPRECATE_EOF = 1 << 20, 1 << 21, 1 << 23, 1 << 24
UNSIGNED = 1 << 5
# (bit 0 is not set, so that MariaDB reads its own capabilities: bulk executions)
BULK_OPERATIONS, EXTENDED_METADATA = 1 << 2, 1 << 3
FLAGS = 1 << 2 | LOCAL_FILES | PROTOCOL_41 | 1 << 13 | SECURE | MULTI_RESULTS | PLUGIN_AUTH | LENENC_DATA | SESSION_TRACK | DEPRECATE_EOF
# (a probe takes texts of its requests as they are, so letters stand in place of the answer to a scramble)
PLACEHOLDER = b"A" * 20


class Refused(Exception):
    """The library refused a packet, or the server a command: the code and the message of its error."""


class Probe:
    """A program that answers a line for each line of its input."""

    def __init__(self, name):
        self.process = subprocess.Popen([built(name)[0]], stdin=subprocess.PIPE, stdout=subprocess.PIPE, text=True, bufsize=1)

    def ask(self, request):
        """The words of the answer."""
        self.process.stdin.write(request + "\n")
        self.process.stdin.flush()
        words = self.process.stdout.readline().split()
        if not words or words[0] in ("refused", "unknown", "out"):
            raise Refused(request[:80], " ".join(words))
        return words

    def fields(self, request):
        """The fields of the answer by their names, the first of each name."""
        pairs = [it.split("=", 1) for it in self.ask(request) if "=" in it]
        return dict(reversed(pairs))

    def written(self, request):
        """The bytes that the answer says are written."""
        return data(self.fields(request)["written"])


def data(word):
    return None if word == "none" else bytes.fromhex(word[1:])


class Connection:
    # all that were opened
    opened = []

    def __init__(self, port, connections, replies, statements):
        # the packets of both sides, and of which kind each is
        self.packets, self.kinds, self.is_closed = [], [], False
        Connection.opened.append(self)
        self.connections, self.replies, self.statements = connections, replies, statements
        self.socket = socket.create_connection(("127.0.0.1", port), 60)
        self.sequence, self.flags, self.mariadb, self.infile, self.changes, self.columns = 0, 0, 0, b"", [], []
        first = self.receive()
        if first[0] == 0xFF:
            self.raise_error(first, "greeting_error")
        self.known("handshake")
        self.greeting = connections.fields(f"handshake {first.hex()}")
        parts = data(self.greeting["scramble_1"]), data(self.greeting["scramble_2"]) or b""
        self.nonce = b"".join(parts)[:20]

    # packets

    def exactly(self, count):
        got = bytearray()
        while len(got) < count:
            part = self.socket.recv(count - len(got))
            if not part:
                raise ConnectionError("the server closed the connection")
            got += part
        return bytes(got)

    def receive(self):
        payload = b""
        while True:
            head = self.exactly(4)
            length, self.sequence = int.from_bytes(head[:3], "little"), (head[3] + 1) & 0xFF
            payload += self.exactly(length)
            if length < 0xFFFFFF:
                self.packets.append(Packet(SERVER, head[3], payload))
                self.kinds.append("unknown")
                return payload

    def known(self, kind):
        """Says of which kind the packet is that was just received."""
        self.kinds[-1] = kind

    def send(self, payload, kind):
        self.packets.append(Packet(CLIENT, self.sequence, payload))
        self.kinds.append(kind)
        while True:
            part, payload = payload[:0xFFFFFF], payload[0xFFFFFF:]
            self.socket.sendall(len(part).to_bytes(3, "little") + bytes([self.sequence]) + part)
            self.sequence = (self.sequence + 1) & 0xFF
            if len(part) < 0xFFFFFF:
                return

    def command(self, payload):
        self.sequence = 0
        self.send(payload, "command")

    def close(self):
        self.command(b"\x01")
        self.is_closed = True
        self.socket.close()

    def raise_error(self, packet, kind=None):
        # (in place of the greeting it answers nothing)
        self.known("unsolicited_error" if kind == "greeting_error" else "error")
        error = self.replies.fields(f"{kind or f'err {self.flags}'} {packet.hex()}")
        raise Refused(int(error["error"]), data(error["message"]).decode())

    # login

    def login(self, user, password=b"secret", database=None, plugin="mysql_native_password", attributes=None, mariadb=BULK_OPERATIONS):
        flags = FLAGS | (CONNECT_WITH_DB if database else 0) | (CONNECT_ATTRS if attributes else 0)
        pairs = ",".join(f"{k}={v}" for k, v in attributes.items()) if attributes else "none"
        answer = PLACEHOLDER.decode() if password else "none"
        request = f"make_response 10.0.0 {flags} {mariadb} 67108864 {answer} {user} {database or 'none'} {plugin} {pairs}"
        self.flags, self.mariadb = flags & int(self.greeting["capabilities"]), mariadb & int(self.greeting["mariadb"])
        self.password = password
        self.send(self.connections.written(request).replace(PLACEHOLDER, passwords.native(password, self.nonce)), "login")
        return self.authenticate()

    def authenticate(self):
        """Answers what the server asks for until it is satisfied."""
        while True:
            packet = self.receive()
            if packet[0] == 0xFF:
                self.raise_error(packet)
            if packet[0] == 0:
                return self.ok("ok", packet)
            self.known("auth_switch")
            switch = self.connections.fields(f"auth_switch {packet.hex()}")
            if data(switch["plugin"]) == b"client_ed25519":
                self.send(passwords.ed25519(self.password, data(switch["raw"])), "auth_data")
            else:
                self.send(passwords.native(self.password, data(switch["plugin_data"])), "auth_data")

    def change_user(self, user, password, database):
        self.password = password
        # (a list without attributes, where both sides agreed to attributes)
        attributes = "()" if self.flags & CONNECT_ATTRS else "none"
        request = f"make_change_user {self.flags} {user} {PLACEHOLDER.decode()} {database} 45 mysql_native_password {attributes}"
        self.command(self.connections.written(request).replace(PLACEHOLDER, passwords.native(password, self.nonce)))
        return self.authenticate()

    # answers

    def ok(self, kind, packet):
        """The fields of an OK packet, and the words of its changes."""
        self.known("ok_terminator" if kind == "ok_end" else "ok")
        words = self.replies.ask(f"{kind} {self.flags} {packet.hex()}")
        self.changes = [it for it in words if it.split("=")[0] in ("schema", "name", "value", "is_tracked", "state", "characteristics", "gtids")]
        return dict(reversed([it.split("=", 1) for it in words if "=" in it]))

    def column(self):
        """The fields of a column, whose packet is written again as it was."""
        packet = self.receive()
        self.known("column")
        return self.replies.fields(f"extended_column {self.mariadb} {packet.hex()}")

    def result(self, binary=False):
        """The fields of the OK packet, or the rows, each a list of words."""
        packet = self.receive()
        if packet[0] == 0xFF:
            self.raise_error(packet)
        if packet[0] == 0:
            return self.ok("ok", packet)
        if packet[0] == 0xFB:
            self.known("local_infile")
            self.infile_name = data(self.replies.fields(f"local_infile {packet.hex()}")["file_name"])
            self.send(self.infile, "infile_content")
            self.send(b"", "infile_end")
            return self.result()
        self.known("column_count")
        self.columns = [self.column() for _ in range(packet[0])]
        types = ",".join(it["column_type"] + "u" * bool(int(it["flags"]) & UNSIGNED) for it in self.columns)
        rows = []
        while True:
            packet = self.receive()
            if packet[0] == 0xFF:
                self.raise_error(packet)
            if packet[0] == 0xFE and len(packet) < 0xFFFFFF:
                self.ok("ok_end", packet)
                return rows
            self.known("binary_row" if binary else "text_row")
            words = self.statements.ask(f"{'row' if binary else 'row_text'} {types} {packet.hex()}")
            rows.append([it for it in words[1:] if "=" not in it])

    # commands

    def query(self, sql):
        self.command(b"\x03" + sql.encode())
        return self.result()

    def texts(self, sql):
        """The rows of a query, each value as its bytes."""
        return [[None if it == "N" else bytes.fromhex(it[1:]) for it in row] for row in self.query(sql)]

    def prepare(self, sql):
        self.command(b"\x16" + sql.encode())
        packet = self.receive()
        if packet[0] == 0xFF:
            self.raise_error(packet)
        self.known("prepare_ok")
        statement = self.statements.fields(f"stmt {packet.hex()}")
        for _ in range(int(statement["num_params"]) + int(statement["num_columns"])):
            self.column()
        return int(statement["statement_id"])

    def execute(self, statement, values):
        self.command(self.statements.written(f"execute {statement} {','.join(values) or '()'}"))
        return self.result(binary=True)

    def long_data(self, statement, place, content):
        self.command(self.statements.written(f"long_data {statement} {place} {content.hex()}"))

    def close_statement(self, statement):
        self.command(self.statements.written(f"close {statement}"))

    def bulk(self, statement, settings, rows):
        """Sends the requests that the builder cuts, and answers their sizes."""
        words = self.statements.ask(f"builder {settings} all:{'/'.join(','.join(it) for it in rows)}")
        if words[-1] != "sent":
            raise Refused(words[-3:])
        requests = [data(it[len("request="):]) for it in words if it.startswith("request=")]
        for request in requests:
            # (the probe's builder is one of statement 1)
            self.command(request[:1] + statement.to_bytes(4, "little") + request[5:])
            self.result()
        return [len(it) for it in requests]
