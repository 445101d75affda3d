"""A server whose packets are all read and written by the library for C. The sockets are its own; it finds the payloads itself, and knows of
which kind each is."""
import ctypes
import socketserver
import sys
from pathlib import Path

sys.path[:0] = [str(Path(__file__).resolve().parent.parent.parent / "examples/python"), str(Path(__file__).resolve().parent.parent / "probe")]
from conversations import CLIENT, SERVER, Packet
from mysql_packets import PacketError
from served import CELLS, CHANGES, ERROR, NAME, PASSWORD, SCHEMA, UPDATED, USER

NONCE = b"abcdefghijklmnopqrst"


class Session(socketserver.BaseRequestHandler):
    """What a client says is answered until it goes."""

    def handle(self):
        self.packets, self.sequence, self.statements, self.long_data = self.server.packets, 0, {}, {}
        # the packets of both sides, each with its kind
        self.conversation = []
        self.server.conversations.append(self.conversation)
        try:
            if self.login():
                while self.command():
                    pass
        except ConnectionError:
            pass
        except PacketError as error:
            self.server.faults.append(str(error))

    # packets

    def exactly(self, count):
        got = bytearray()
        while len(got) < count:
            part = self.request.recv(count - len(got))
            if not part:
                raise ConnectionError
            got += part
        return bytes(got)

    def receive(self, kind):
        payload = b""
        while True:
            header = self.packets.read("myp_read_header", self.exactly(4), into="myp_header")
            self.sequence = header.sequence_id + 1 & 0xFF
            payload += self.exactly(header.payload_length)
            if header.payload_length < 0xFFFFFF:
                self.conversation.append((Packet(CLIENT, header.sequence_id, payload), kind))
                return payload

    def send(self, payload, kind):
        self.conversation.append((Packet(SERVER, self.sequence, payload), kind))
        while True:
            part, payload = payload[:0xFFFFFF], payload[0xFFFFFF:]
            self.request.sendall(self.packets.write("myp_write_header", len(part), self.sequence) + part)
            self.sequence = self.sequence + 1 & 0xFF
            if len(part) < 0xFFFFFF:
                return

    # answers

    def ok(self, kind="MYP_OK_COMMON", changes=(), **fields):
        p = self.packets
        state = b"".join(p.write("myp_write_change", getattr(p, name), data) for name, data in changes)
        # (the state is sent where the flag of the status says so)
        status = p.MYP_SERVER_STATUS_AUTOCOMMIT | (p.MYP_SERVER_SESSION_STATE_CHANGED if state else 0)
        packet = p.new("myp_ok", status_flags=status, session_state=state, **fields)
        kinds = {"MYP_OK_COMMON": "ok", "MYP_OK_TERMINATOR": "ok_terminator", "MYP_OK_OLD_EOF": "eof"}
        self.send(p.write("myp_write_ok", packet, getattr(p, kind), self.capabilities), kinds[kind])

    def error(self, **fields):
        self.send(self.packets.write("myp_write_error", self.packets.new("myp_error", **fields)), "error")

    def end(self):
        """The end of columns or rows, where both sides don't leave it out."""
        self.ok("MYP_OK_TERMINATOR" if self.deprecates_eof else "MYP_OK_OLD_EOF")

    def type_of(self, cell):
        return self.packets.new("myp_column_type", column_type=getattr(self.packets, cell.type), is_unsigned="MYP_COLUMN_FLAG_UNSIGNED" in cell.flags)

    def column_of(self, cell):
        flags = sum(getattr(self.packets, name) for name in cell.flags)
        return self.column(cell.name, self.type_of(cell), flags, cell.character_set, 6 if cell.type == "MYP_TYPE_DATETIME" else 0)

    def column(self, name, of, flags, character_set, decimals=0):
        p, name = self.packets, name.encode()
        # (libmariadb refuses numbers and times that would be shown too long, and shows a float with as many decimals; 31 are any)
        is_text = of.column_type in (p.MYP_TYPE_BLOB, p.MYP_TYPE_VAR_STRING, p.MYP_TYPE_STRING)
        decimals = 31 if of.column_type in (p.MYP_TYPE_FLOAT, p.MYP_TYPE_DOUBLE) else decimals
        return p.write("myp_write_column", p.new(
            "myp_column", schema=SCHEMA, table=b"cells", org_table=b"cells", name=name, org_name=name, column_length=1 << 17 if is_text else 80,
            character_set=character_set, flags=flags, column_type=of.column_type, decimals=decimals))

    def columns(self, definitions):
        for it in definitions:
            self.send(it, "column")
        if definitions and not self.deprecates_eof:
            self.end()

    def value(self, fields):
        return self.packets.new("myp_value", **{**fields, "kind": getattr(self.packets, fields["kind"])})

    def result(self, definitions, row, kind):
        """A result of one row, of this kind."""
        p = self.packets
        self.send(p.write("myp_write_column_count", p.new("myp_column_count", count=len(definitions), metadata_follows=1), 0, 0), "column_count")
        self.columns(definitions)
        self.send(row, kind)
        self.end()

    def text_row(self, cells):
        texts = [self.value({"kind": "MYP_VALUE_NULL"} if it.text is None else {"kind": "MYP_VALUE_BYTES", "bytes": it.text}) for it in cells]
        return self.packets.write("myp_write_text_row", self.packets.array("myp_value", texts))

    def binary_row(self, types, values):
        return self.packets.write("myp_write_binary_row", self.packets.array("myp_column_type", types), self.packets.array("myp_value", values))

    # what a client says

    def login(self):
        p = self.packets
        offered = p.MYP_CLIENT_LONG_PASSWORD
        for name in ("FOUND_ROWS", "LONG_FLAG", "CONNECT_WITH_DB", "PROTOCOL_41", "TRANSACTIONS", "SECURE_CONNECTION", "MULTI_RESULTS", "PS_MULTI_RESULTS",
                     "PLUGIN_AUTH", "CONNECT_ATTRS", "SESSION_TRACK", "DEPRECATE_EOF"):
            offered |= getattr(p, f"MYP_CLIENT_{name}")
        self.capabilities, self.deprecates_eof = offered, False
        self.send(p.write("myp_write_handshake", p.new(
            "myp_handshake", protocol_version=10, server_version=b"8.0.40-served", connection_id=7, scramble_1=NONCE[:8], scramble_2=NONCE[8:] + b"\0",
            auth_plugin_name=b"mysql_native_password", capabilities=offered, status_flags=p.MYP_SERVER_STATUS_AUTOCOMMIT, default_collation=45)), "handshake")
        said = p.read("myp_read_login", self.receive("login"), into="myp_login")
        self.capabilities = offered & said.capabilities
        self.deprecates_eof = bool(self.capabilities & p.MYP_CLIENT_DEPRECATE_EOF)
        wanted = p.write("myp_scramble_native", PASSWORD, NONCE)
        if p.text(said.user) != USER or p.text(said.auth_response) != wanted:
            self.error(code=1045, sql_state=b"28000", message=b"Access denied for user '%s'" % p.text(said.user))
            return False
        self.server.logins.append((self.capabilities, p.text(said.database), self.attributes(said)))
        self.ok()
        return True

    def attributes(self, said):
        p, rest, found = self.packets, said.attributes, {}
        name, value = p.bytes(b""), p.bytes(b"")
        while p.next("myp_next_connection_attribute", rest, name, value):
            found[p.text(name)] = p.text(value)
        return found

    def command(self):
        p, payload = self.packets, self.receive("command")
        code, text = payload[0], payload[1:]
        if code == p.MYP_COM_QUIT:
            return False
        if code == p.MYP_COM_QUERY:
            self.query(text)
        elif code == p.MYP_COM_STMT_PREPARE:
            self.prepare(text)
        elif code == p.MYP_COM_STMT_EXECUTE:
            self.execute(payload)
        elif code == p.MYP_COM_STMT_SEND_LONG_DATA:
            said = p.read("myp_read_long_data", payload, into="myp_long_data")
            key = said.statement_id, said.param_index
            self.long_data[key] = self.long_data.get(key, b"") + p.text(said.content)
        elif code == p.MYP_COM_STMT_CLOSE:
            del self.statements[p.read("myp_read_close", payload, into="uint32_t").value]
        else:
            self.ok()
        return True

    def query(self, sql):
        if sql == b"SELECT cells":
            self.result([self.column_of(it) for it in CELLS], self.text_row(CELLS), "text_row")
        elif sql.startswith(b"SELECT nothing_here"):
            self.error(**ERROR)
        elif sql == b"UPDATE cells":
            self.ok(changes=CHANGES, **UPDATED)
        elif sql.lower().startswith(b"select"):
            self.result([self.column_of(NAME)], self.text_row([NAME]), "text_row")
        else:
            self.ok()

    def prepare(self, sql):
        p, params = self.packets, sql.count(b"?")
        if sql.startswith(b"SELECT nothing_here"):
            return self.error(**ERROR)
        texts = [self.column(f"p{i}", self.type_of(NAME), 0, 45) for i in range(params)]
        columns = [self.column_of(it) for it in CELLS] if sql == b"SELECT cells" else texts
        number = len(self.statements) + 1
        self.statements[number] = sql, [self.type_of(NAME)] * params
        self.send(p.write("myp_write_statement", p.new("myp_statement", statement_id=number, num_columns=len(columns), num_params=params, metadata_follows=1), self.capabilities), "prepare_ok")
        self.columns(texts)
        self.columns(columns)

    def execute(self, payload):
        """All that is served; or each value that was sent is sent back, in a column of the type that it was sent with."""
        p = self.packets
        number = p.read("myp_read_execution_head", payload, into="myp_execution_head").statement_id
        sql, types = self.statements[number]
        if sql == b"SELECT cells":
            row = self.binary_row([self.type_of(it) for it in CELLS], [self.value(it.value) for it in CELLS])
            return self.result([self.column_of(it) for it in CELLS], row, "binary_row")
        values, types = self.execution(payload, number, types)
        self.statements[number] = sql, types
        unsigned = [p.MYP_COLUMN_FLAG_UNSIGNED * it.is_unsigned for it in types]
        self.result([self.column(f"p{i}", it, flags, 45 if it.column_type == p.MYP_TYPE_STRING else 63) for i, (it, flags) in enumerate(zip(types, unsigned))],
                    self.binary_row(types, values), "binary_row")

    def execution(self, payload, number, types):
        """The values of an execution, and the types that they have now. What was sent ahead is joined."""
        p, packet, count = self.packets, self.packets.bytes(payload), len(types)
        known = [p.types["myp_bound_param"](it.column_type, it.is_unsigned, (number, i) in self.long_data) for i, it in enumerate(types)]
        values = p.array("myp_value", [p.new("myp_value") for _ in types])
        found = p.array("myp_column_type", [p.new("myp_column_type") for _ in types])
        out = p.new("myp_execution")
        code = p.dll.myp_read_execution(packet.data, packet.len, self.capabilities, p.array("myp_bound_param", known), count, values, count, found, count, ctypes.byref(out))
        if code or out.used != len(payload):
            raise PacketError("myp_read_execution", code)
        self.server.executions.append(out.sends_types)
        ahead = {i: self.long_data[number, i] for i in range(count) if (number, i) in self.long_data}
        values = [self.value({"kind": "MYP_VALUE_BYTES", "bytes": ahead[i]}) if i in ahead else it for i, it in enumerate(values)]
        return values, list(found)[:count]


class Server(socketserver.ThreadingTCPServer):
    allow_reuse_address = daemon_threads = True

    def __init__(self, address, packets):
        super().__init__(address, Session)
        # what clients said, and where the library refused a packet
        self.packets, self.logins, self.executions, self.faults, self.conversations = packets, [], [], [], []
