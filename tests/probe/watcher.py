"""What the program shows of each packet, by the second tracker and the second decoder, which are written from the protocol's pages."""
import math
import struct
import sys

from conversations import expected
from lines import TOP

sys.path.insert(0, str(TOP / "tests"))
from reference_decoder import authentication, commands, replication, replies, statements, values  # noqa: E402
from reference_decoder.buf import Buf, Eof, Invalid  # noqa: E402
from reference_decoder.conversation import CLIENT, Refused, Session  # noqa: E402

FAULTS = {Eof: "UnexpectedEof", Invalid: "InvalidData"}
WAITING = 4096
# how many bytes of an early execution are held
EARLY = 65_536
# the kinds, in the order in which they are shown
KINDS = [
    "handshake", "ssl_request", "login", "auth_switch", "old_auth_switch", "auth_more_data", "auth_next_factor", "auth_plugin_data", "auth_data",
    "command", "ok", "error", "unsolicited_error", "progress_report", "local_infile", "infile_content", "infile_end", "column_count", "column", "field_list_column", "eof",
    "ok_terminator", "text_row", "binary_row", "prepare_ok", "statistics", "binlog_event", "semi_sync_ack",
    "clone",
]
COMMANDS = {
    0x01: "COM_QUIT", 0x02: "COM_INIT_DB", 0x03: "COM_QUERY", 0x04: "COM_FIELD_LIST", 0x05: "COM_CREATE_DB", 0x06: "COM_DROP_DB",
    0x07: "COM_REFRESH", 0x08: "COM_SHUTDOWN", 0x09: "COM_STATISTICS", 0x0A: "COM_PROCESS_INFO", 0x0C: "COM_PROCESS_KILL",
    0x0D: "COM_DEBUG", 0x0E: "COM_PING", 0x11: "COM_CHANGE_USER", 0x12: "COM_BINLOG_DUMP", 0x13: "COM_TABLE_DUMP",
    0x15: "COM_REGISTER_SLAVE", 0x16: "COM_STMT_PREPARE", 0x17: "COM_STMT_EXECUTE", 0x18: "COM_STMT_SEND_LONG_DATA",
    0x19: "COM_STMT_CLOSE", 0x1A: "COM_STMT_RESET", 0x1B: "COM_SET_OPTION", 0x1C: "COM_STMT_FETCH", 0x1E: "COM_BINLOG_DUMP_GTID",
    0x1F: "COM_RESET_CONNECTION", 0xFA: "COM_STMT_BULK_EXECUTE",
    # those that no client sends
    0x00: "COM_SLEEP", 0x0B: "COM_CONNECT", 0x0F: "COM_TIME", 0x10: "COM_DELAYED_INSERT", 0x14: "COM_CONNECT_OUT", 0x1D: "COM_DAEMON",
    0x20: "COM_CLONE", 0x21: "COM_SUBSCRIBE_GROUP_REPLICATION_STREAM", 0xFB: "COM_SLAVE_WORKER", 0xFC: "COM_SLAVE_IO", 0xFD: "COM_SLAVE_SQL",
    0xFE: "COM_MULTI",
}


def shown(data):
    """Bytes as JSON shows them: a text, or digits where they are none."""
    if data is None:
        return None
    try:
        return data.decode()
    except UnicodeDecodeError:
        return {"hex": data.hex()}


def named(names, fields):
    return {name: shown(it) if isinstance(it, bytes) else it for name, it in zip(names.split(), fields)}


class Float:
    """A float by its bits: equal to the number that JSON has of it, which is none of an infinity and of what is no number."""

    def __init__(self, bits, width):
        self.bytes, self.form = bits.to_bytes(width, "little"), {4: "<f", 8: "<d"}[width]

    def __eq__(self, other):
        number = struct.unpack(self.form, self.bytes)[0]
        if other is None or not math.isfinite(number):
            return other is None and not math.isfinite(number)
        try:
            return isinstance(other, (int, float)) and struct.pack(self.form, other) == self.bytes
        except OverflowError:
            return False

    def __repr__(self):
        return f"{struct.unpack(self.form, self.bytes)[0]!r}"


def offset_of(minutes):
    return "{}{:02}:{:02}".format("-" if minutes < 0 else "+", *divmod(abs(minutes), 60))


def spelled(value, column_type):
    """A value in binary, as JSON has it."""
    if value is None:
        return None
    if isinstance(value, bytes):
        return shown(value)
    if value[0] == "bits":
        return Float(value[1], 4 if column_type == 4 else 8)
    if value[0] == "number":
        return value[1]
    if value[0] == "date":
        return "{:04}-{:02}-{:02} {:02}:{:02}:{:02}.{:06}".format(*value[1]) + "".join(map(offset_of, value[2:]))
    return "{}{} {:02}:{:02}:{:02}.{:06}".format("-" if value[1] else "", *value[2])


def has_header(payload):
    """Whether an event has the header of semi-synchronous replication: the mark ef, and after it the event's own size."""
    return payload[1:2] == b"\xef" and len(payload) > 15 and int.from_bytes(payload[12:16], "little") + 3 == len(payload)


def unread(data):
    """The bytes from a malformed value on, where there are any."""
    return {"unread": shown(data)} if data else {}


def row_of(buf, values):
    """The values of a row, up to the first that can't be read, and the bytes from there on."""
    row, refused, left = [], {}, buf.data
    try:
        for value in values:
            row.append(value)
            left = buf.data
    except (Eof, Invalid) as fault:
        refused = {"refused": FAULTS[type(fault)], **unread(left)}
    return {**({"value": row} if row else {}), **refused}


class Watcher:
    """What the fields of each packet are, by the second decoder."""

    def __init__(self, is_deciphered=False):
        self.is_deciphered = is_deciphered
        self.session, self.count = Session(WAITING), 0
        # of the result that comes its exchange and its columns, where their definitions follow and could be read
        self.result = None
        # of each statement how many columns it has and those that are known, and of that which runs or is prepared its number and what is
        # expected of it
        self.statements, self.last, self.runs, self.due = {}, None, None, []
        # of each statement the type, its flags and whether it was sent ahead of each parameter, and whether an execution gave these types; and the
        # commands that came before the answers to earlier ones, each with its exchange
        self.params, self.is_bound, self.early = {}, set(), []
        # the exchange of the last command that is too long to be held: up to it nothing is known of statements
        self.lost = -1
        # what is known of the parameters of an execution that came early, once the server comes to it
        self.reached = {}

    def ok(self, payload, header):
        capabilities = self.session.flags
        numbers, status, warnings, (info, state) = replies.ok_packet(Buf(payload), capabilities, header, True)
        fields = named("affected_rows last_insert_id status_flags warnings info", (*numbers, status, warnings, info))
        for it in replies.changes_as_sent(state or b""):
            if not isinstance(it, tuple):
                fields["refused"] = FAULTS[type(it)]
                continue
            kind, change = it
            if kind == 0:
                if not change:
                    continue
                fields["variable"] = fields.get("variable", []) + [shown(name) for name, _ in change]
                fields["variable_value"] = fields.get("variable_value", []) + [shown(value) for _, value in change]
            else:
                name = {1: "schema", 2: "state_changed", 3: "gtids", 4: "transaction_characteristics", 5: "transaction_state"}[kind]
                fields[name] = change if kind == 2 else shown(change)
        return fields

    def text_row(self, payload):
        buf = Buf(payload)
        return row_of(buf, (shown(values.text_value(buf)) for _ in range(self.count)))

    def define(self, it, exchange):
        """A definition: of a parameter, which is passed over, or of a column. After one that can't be read (None) no column is known."""
        if self.result and self.result[0] == exchange:
            self.result = it and (exchange, [*self.result[1], it])
        if exchange <= self.lost:
            return
        if it is None:
            self.runs, self.due = None, []
        elif self.due and self.due.pop(0) == "parameter":
            return
        elif self.runs in self.statements:
            self.statements[self.runs][1].append(it)

    def columns_of_rows(self, exchange):
        """The columns of binary rows: those of this result, or where their definitions were left out those of its statement."""
        if self.result and self.result[0] == exchange and len(self.result[1]) == self.count:
            return self.result[1]
        width, columns = self.statements.get(self.runs, (None, []))
        return columns if len(columns) == width else None

    def binary_row(self, payload, exchange):
        columns = self.columns_of_rows(exchange)
        if columns is None:
            return {"columns": "unknown"}
        buf = Buf(payload)
        buf.take(1)
        nulls = int.from_bytes(buf.take((len(columns) + 7 + 2) // 8), "little") >> 2
        return row_of(buf, (None if nulls >> at & 1 else spelled(values.bin_value(buf, *it), it[0]) for at, it in enumerate(columns)))

    def column(self, payload, exchange):
        try:
            ((names, numbers), metadata) = replies.extended_column(Buf(payload), self.session.own)
        except (Eof, Invalid) as fault:
            self.define(None, exchange)
            return self.partly_column(payload, fault)
        self.define((numbers[2], numbers[3]), exchange)
        return self.of_column(names, numbers, metadata)

    def partly_column(self, payload, fault):
        """Of a definition that is malformed the texts before the first that is, and the bytes from there on."""
        buf, fields = Buf(payload), {}
        left = buf.data
        try:
            buf.const(b"\x03def")
            left = buf.data
            for name in ("schema", "table", "org_table", "name", "org_name"):
                fields[name] = shown(buf.string())
                left = buf.data
        except (Eof, Invalid):
            pass
        return {**fields, "refused": FAULTS[type(fault)], **unread(left)}

    def of_column(self, names, numbers, metadata):
        fields = named("schema table org_table name org_name character_set column_length column_type flags decimals", (*names, *numbers))
        return fields if metadata is None else {**fields, "extended_metadata": shown(metadata)}

    # ---- statements

    def forget(self):
        self.statements, self.params, self.is_bound, self.last = {}, {}, set(), None

    def bind(self, payload):
        """What a command changes of the parameters of a statement."""
        code, number = payload[0], int.from_bytes(payload[1:5], "little")
        number = self.last if number == 0xFFFFFFFF else number
        if code in (0x11, 0x1F):
            self.forget()
        elif code == 0x16:
            # (a preparation that fails leaves no last statement: MariaDB's mysqld_stmt_prepare, clear_last_stmt)
            self.last = None
        params = self.params.get(number)
        if params is None:
            return
        if code == 0x18 and len(payload) > 6:
            place = int.from_bytes(payload[5:7], "little")
            params[place : place + 1] = [(*it[:2], True) for it in params[place : place + 1]]
        elif code == 0x19:
            del self.params[number], self.statements[number]
            self.last = None if self.last == number else self.last
        elif code == 0x1A:
            self.params[number] = [(*it[:2], False) for it in params]
        elif code in (0x17, 0xFA):
            try:
                types = self.types_of(payload, params)
            except (Eof, Invalid):
                types = None
            if types is not None:
                self.is_bound.add(number)
            self.params[number] = [(kind, flags, False) for kind, flags, *_ in types or params]

    def types_of(self, payload, params):
        """The types that an execution sends of the parameters, if it does."""
        if payload[0] == 0xFA:
            types, _ = statements.bulk_head(Buf(payload), params)
            return types[2] or None
        _, sends_types, read, _ = statements.stmt_execute(Buf(payload), params, self.session.flags)
        return [it[:2] for it in read] if sends_types else None

    def executed(self, payload, is_early):
        """The parameters and the attributes of an execution, or where their types aren't known that."""
        number = int.from_bytes(payload[1:5], "little")
        number = self.last if number == 0xFFFFFFFF else number
        unknown = {"parameter_types": "unknown"} if len(payload) > 10 else {}
        # (what an early command changes is known once the server comes to it)
        if is_early or number not in self.params:
            return unknown
        _, sends_types, params, attributes = statements.stmt_execute(Buf(payload), self.params[number], self.session.flags)
        if params and not sends_types and number not in self.is_bound:
            return unknown
        fields = {
            "parameter": ["sent ahead" if it[3] else spelled(it[4], it[0]) for it in params],
            "attribute": [shown(it[2]) for it in attributes],
            "attribute_value": [spelled(it[4], it[0]) for it in attributes],
        }
        return {name: it for name, it in fields.items() if it}

    def partly_queried(self, payload):
        """Of a query whose attributes are malformed those before the first that is, and the bytes from there on."""
        buf, fields = Buf(payload[1:]), {"attribute": [], "attribute_value": []}
        left = buf.data
        try:
            bits, types = commands.attributes_front(buf)
            left = buf.data
            for i, (kind, flags, name) in enumerate(types):
                fields["attribute_value"].append(spelled(None if bits >> i & 1 else values.param_value(buf, kind, flags & 128), kind))
                fields["attribute"].append(shown(name))
                left = buf.data
        except (Eof, Invalid):
            pass
        return {**{name: it for name, it in fields.items() if it}, **unread(left)}

    def queried(self, payload):
        """The text of a query, and its attributes."""
        try:
            attributes, text = commands.query(Buf(payload), self.session.flags)
        except (Eof, Invalid) as fault:
            return {"refused": FAULTS[type(fault)], **self.partly_queried(payload)}
        fields = {"query": shown(text)}
        if attributes:
            fields["attribute"] = [shown(it[0]) for it in attributes]
            fields["attribute_value"] = [spelled(it[3], it[1]) for it in attributes]
        return fields

    def serve(self, number):
        """The server has come to the exchange of this number."""
        while self.early and self.early[0][0] <= number:
            self.reach(*self.early[0])
            self.begin(*self.early.pop(0))

    def begin(self, exchange, payload):
        """The server has come to a command. (an empty packet is COM_SLEEP)"""
        payload = payload or b"\0"
        if exchange > self.lost:
            self.command(payload)
            self.bind(payload)

    def reach(self, exchange, payload):
        """The parameters of an execution that came early, with the number of its exchange, where its statement and its types are known."""
        if exchange <= self.lost or payload[:1] != b"\x17" or len(payload) < 10:
            return
        try:
            fields = self.executed(payload, False)
        except (Eof, Invalid):
            fields = {"refused": None}
        if "parameter_types" not in fields and len(payload) > 10:
            self.reached = {"parameters_of": exchange, **{name: it for name, it in fields.items() if name != "refused"}}

    def lose(self):
        """Something is lost: nothing is known of statements, nor of the commands that wait."""
        self.forget()
        self.early, self.due, self.runs, self.result = [], [], None, None

    def command(self, payload):
        """Which statement runs."""
        self.runs, self.due = None, []
        if payload[:1] in (b"\x17", b"\xfa", b"\x1c"):
            number = int.from_bytes(payload[1:5], "little")
            self.runs = self.last if number == 0xFFFFFFFF else number

    def of_command(self, payload, exchange):
        is_early = bool(self.session.waiting and self.session.waiting[-1][1] is payload)
        if not is_early:
            self.serve(exchange)
        fields, code = {}, (payload or b"\0")[0]
        try:
            if code == 0x16:
                fields = {"query": shown(payload[1:])}
            elif code == 0x03:
                fields = self.queried(payload)
            elif code == 0x17:
                fields = self.executed(payload, is_early)
            elif code == 0x12:
                fields = named("pos flags server_id filename", replication.binlog_dump(Buf(payload)))
            elif code == 0x15:
                server_id, (hostname, user, _), port, *_ = replication.register_slave(Buf(payload))
                fields = named("server_id hostname user port", (server_id, hostname, user, port))
            elif code == 0x1E:
                fields = named("flags server_id filename pos", replication.binlog_dump_gtid(Buf(payload), False))
        except (Eof, Invalid):
            pass
        if not is_early:
            self.begin(exchange, payload)
        elif code in (0x17, 0xFA) and len(payload) > EARLY:
            self.forget()
            self.runs, self.lost = None, exchange
        else:
            self.early.append((exchange, payload))
        return fields

    def fields(self, kind, payload, exchange):
        """What is wanted of a packet of this kind, as far as the second decoder says it."""
        if kind == "handshake":
            names = "protocol_version server_version connection_id scramble_1 scramble_2 capabilities default_collation status_flags mariadb_ext_capabilities auth_plugin_name"
            return named(names, authentication.handshake(Buf(payload)))
        if kind == "login":
            read = authentication.handshake_response(Buf(payload))
            fields = named("capabilities max_packet_size collation mariadb_ext_capabilities user db_name auth_plugin_name", (*read[:5], *read[6:8]))
            return fields if read[9] is None else {**fields, "zstd_level": read[9]}
        if kind == "command":
            fields = self.of_command(payload, exchange)
            return {"command": COMMANDS.get(payload[0], payload[0]), **fields}
        if kind == "ok":
            return self.ok(payload, b"\0")
        if kind == "ok_terminator":
            # (its first two numbers are passed over: read_ok_ex in MySQL's sql-common/client.cc)
            return {name: it for name, it in self.ok(payload, b"\xfe").items() if name not in ("affected_rows", "last_insert_id")}
        if kind == "eof":
            return named("warnings status_flags", replies.old_eof(Buf(payload), 0))
        if kind in ("error", "unsolicited_error"):
            read = replies.err_packet if self.session.flags else lambda buf, _: replies.greeting_error(buf)
            return named("error sql_state message", read(Buf(payload), self.session.flags))
        if kind == "column_count":
            self.count, follows = replies.column_count(Buf(payload), self.session.flags, self.session.own)
            self.result = (exchange, []) if follows != 0 else None
            if exchange > self.lost and self.runs in self.statements:
                self.statements[self.runs] = self.count, [] if follows != 0 else self.statements[self.runs][1]
            return {"count": self.count, "metadata_follows": follows != 0}
        if kind == "column":
            return self.column(payload, exchange)
        if kind == "field_list_column":
            ((names, numbers), metadata), default = replies.field_list_column(Buf(payload), self.session.own)
            return {**self.of_column(names, numbers, metadata), "default_value": shown(default)}
        if kind == "text_row":
            return self.text_row(payload)
        if kind == "binary_row":
            return self.binary_row(payload, exchange)
        if kind == "prepare_ok":
            (number, columns, params), warnings = statements.stmt_packet(Buf(payload))
            if exchange > self.lost:
                self.last, self.runs, self.due = number, number, ["parameter"] * params
                self.statements[number] = columns, []
                self.params[number] = [(6, 0, False)] * params
                self.is_bound.discard(number)
            return named("statement_id num_columns num_params warning_count", (number, columns, params, warnings))
        if kind == "binlog_event":
            return {"event_size": len(payload) - (3 if has_header(payload) else 1)}
        if kind == "local_infile":
            return {"file_name": shown(payload[1:])}
        if kind in ("infile_content", "clone"):
            return {"length": len(payload)}
        return {}

    def wanted(self, packet):
        """The object of a packet, as far as the second tracker and the second decoder say it, and whether it comes."""
        side = "client" if packet.side == CLIENT else "server"
        head = {"side": side, "sequence": packet.number, "size": len(packet.payload), "payload": packet.payload.hex()}
        try:
            word, number = self.session.next(packet.side, packet.payload)
        except Refused as refusal:
            kinds = sorted((it[1:] for it in expected(self.session)), key=KINDS.index)
            refused = {**head, "exchange": self.session.last, "kind": "refused", "refused": refusal.args[0] if refusal.args else "Unexpected"}
            return {**refused, "expected": kinds} if kinds else refused, False
        kind = word.split(":")[0]
        head.update(exchange=number, kind=kind)
        self.reached = {}
        if packet.side != CLIENT:
            self.serve(number)
            head.update(self.reached)
        if kind == "ssl_request" and self.is_deciphered:
            self.session.tls_established()
        try:
            return {**head, **self.fields(kind, packet.payload, number)}, True
        except (Eof, Invalid, IndexError):
            return head, True
