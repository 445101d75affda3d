"""The packets of a connection, by what both sides agreed on."""
import ctypes
from typing import Any, Collection, Iterable, Iterator, List, Mapping, Optional, Sequence, Tuple

from .errors import InvalidData
from .library import Library
from .observe import Observer
from .records import (BulkValue, Change, Column, Command, Execution, Handshake, Login, OkPacket, Packet, ParamType, Row, ServerError, Statement,
                      Value)
from .rows import BulkRows, RowReader

# the most bytes of a payload that are asked for at once
LIMIT = 1 << 24


class Session:
    """What is read and written of a connection. It has no socket: a payload is what stands after a header of four bytes."""

    def __init__(self, library: Optional[Library] = None):
        self.library = library or Library()
        self.capabilities = self.mariadb_capabilities = 0
        self._observer: Optional[Observer] = None

    def _text(self, span: Any) -> str:
        return self.library.text(span).decode("utf-8", "surrogateescape")

    def _flags(self, prefix: str, names: Sequence[str]) -> int:
        return sum(self.library.numbers[prefix + name] for name in names)

    # ---- a connection that is observed

    def observe(self, side: str, data: bytes) -> Iterator[Packet]:
        """The packets that end in these bytes of a side, "client" or "server", from the server's greeting on; a command comes after the answer
        to the one before it. The capabilities are kept once the login comes. After a request for TLS the bytes are those that were encrypted."""
        self._observer = self._observer or Observer(self)
        return self._observer.take(side, data)

    # ---- headers

    def read_header(self, header: bytes) -> Tuple[int, int]:
        """How many bytes the payload has, and the packet's sequence number."""
        it = self.library.read("myp_read_header", header, into="myp_header")
        return it.payload_length, it.sequence_id

    def write_header(self, length: int, sequence: int) -> bytes:
        return self.library.write("myp_write_header", length, sequence)

    # ---- the login

    def wanted(self) -> int:
        """The capabilities of what is read and written here."""
        return self._flags("MYP_CLIENT_", ["PROTOCOL_41", "TRANSACTIONS", "SECURE_CONNECTION", "PLUGIN_AUTH", "DEPRECATE_EOF"])

    def read_handshake(self, payload: bytes) -> Handshake:
        it = self.library.read("myp_read_handshake", payload, into="myp_handshake")
        nonce = (self.library.text(it.scramble_1) + self.library.text(it.scramble_2))[:20]
        return Handshake(self._text(it.server_version), it.connection_id, it.capabilities, it.mariadb_capabilities, it.status_flags, nonce,
                         self._text(it.auth_plugin_name))

    def server_version(self, greeting: Handshake) -> Tuple[int, int, int]:
        """The version of MariaDB, or else of the server that it says to be. InvalidData of a text that begins with none."""
        p, text = self.library, greeting.server_version.encode("utf-8", "surrogateescape")
        try:
            it = p.read("myp_read_mariadb_version", text, into="myp_server_version")
        except InvalidData:
            it = p.read("myp_read_server_version", text, into="myp_server_version")
        return it.major, it.minor, it.patch

    def agree(self, greeting: Handshake, capabilities: int, mariadb_capabilities: int = 0) -> None:
        """Keeps what both sides can do: those of these that the server has."""
        self.capabilities = greeting.capabilities & capabilities
        self.mariadb_capabilities = greeting.mariadb_capabilities & mariadb_capabilities

    def auth_response(self, plugin: str, password: str, nonce: bytes) -> bytes:
        """The response to a nonce of 20 bytes: of mysql_native_password, or of caching_sha2_password, whose server may then ask for more
        (the header explains it at myp_scramble_sha2)."""
        calls = {"mysql_native_password": "myp_scramble_native", "caching_sha2_password": "myp_scramble_sha2"}
        return self.library.write(calls[plugin], password.encode(), nonce) if password else b""

    def write_login(self, greeting: Handshake, user: str, password: str = "", database: str = "", collation: int = 45,
                    plugin: str = "mysql_native_password") -> bytes:
        """The login that answers a greeting, by a plugin of `auth_response`."""
        p = self.library
        if database:
            self.capabilities |= greeting.capabilities & p.MYP_CLIENT_CONNECT_WITH_DB
        answer = self.auth_response(plugin, password, greeting.nonce)
        return p.write("myp_write_login", p.new(
            "myp_login", user=user.encode(), auth_response=answer, database=database.encode(), has_database=int(bool(database)),
            auth_plugin_name=plugin.encode(), has_auth_plugin_name=1, capabilities=self.capabilities,
            mariadb_capabilities=self.mariadb_capabilities, max_packet_size=LIMIT, collation=collation), p.array("myp_connection_attribute", []))

    # ---- replies

    def is_error(self, payload: bytes) -> bool:
        """Whether a payload that isn't a row is an error or a progress report: no other begins with ff."""
        return payload[:1] == b"\xff"

    def read_error(self, payload: bytes) -> ServerError:
        it = self.library.read("myp_read_error", payload, self.capabilities, into="myp_error")
        return ServerError(it.code, self._text(it.sql_state) or None, self._text(it.message))

    def read_ok(self, payload: bytes, kind: str = "COMMON") -> OkPacket:
        """An OK packet, or an end: COMMON, TERMINATOR, OLD_EOF or STREAM_END."""
        p = self.library
        it = p.read("myp_read_ok", payload, getattr(p, f"MYP_OK_{kind}"), self.capabilities, into="myp_ok")
        return OkPacket(it.affected_rows, it.last_insert_id, it.status_flags, it.warnings, self._text(it.info), tuple(self._changes(it.session_state)))

    def _changes(self, rest: Any) -> Iterator[Change]:
        p, change, name, value = self.library, self.library.new("myp_change"), self.library.bytes(b""), self.library.bytes(b"")
        while rest.len and p.next("myp_next_change", rest, change):
            variables = []
            while p.next("myp_next_variable", change.variables, name, value):
                variables.append((self._text(name), self._text(value)))
            yield Change(change.change_type, p.text(change.text) or p.text(change.content), tuple(variables))

    # ---- results

    def read_column_count(self, payload: bytes) -> int:
        agreed = self.capabilities, self.mariadb_capabilities
        count: int = self.library.read("myp_read_column_count", payload, *agreed, into="myp_column_count").count
        return count

    def read_column(self, payload: bytes) -> Column:
        it = self.library.read("myp_read_column", payload, self.mariadb_capabilities, into="myp_column")
        schema, table, org_table, name, org_name = (self._text(span) for span in (it.schema, it.table, it.org_table, it.name, it.org_name))
        return Column(schema, table, org_table, name, org_name, it.character_set, it.column_length, it.column_type, it.flags, it.decimals)

    def row_reader(self, columns: Sequence[Column], is_binary: bool) -> RowReader:
        """A reader of all rows of a result with these columns, faster than a call of its own for each row."""
        return RowReader(self.library, columns, is_binary)

    def read_text_row(self, payload: bytes, columns: Sequence[Column]) -> Row:
        """The values of a text row: a byte string each, or None."""
        return self.row_reader(columns, False).read(payload)

    def read_binary_row(self, payload: bytes, columns: Sequence[Column]) -> Row:
        """The values of a binary row, by the types of its columns."""
        return self.row_reader(columns, True).read(payload)

    # ---- commands

    def write_query(self, sql: str) -> bytes:
        text = sql.encode()
        return self.library.write("myp_write_query", text, self.library.array("myp_parameter", []), self.capabilities, size=len(text) + 3)

    def write_prepare(self, sql: str) -> bytes:
        return bytes([self.library.MYP_COM_STMT_PREPARE]) + sql.encode()

    def read_statement(self, payload: bytes) -> Statement:
        it = self.library.read("myp_read_statement", payload, self.capabilities, into="myp_statement")
        return Statement(it.statement_id, it.num_columns, it.num_params, it.warning_count)

    def write_execution(self, statement: Statement, values: Sequence[Value], types: Sequence[Optional[str]] = (), cursor: str = "NONE",
                        attributes: Mapping[str, Value] = {}) -> List[bytes]:
        """The commands of an execution: one, after which the answer comes, and before it the long data that it is too large with.

        `types` are names of enum myp_type, such as "TINY" or "TINY UNSIGNED", one for each value, or None for that of the value. `cursor` is one
        of enum myp_cursor. Attributes are sent under MYP_CLIENT_QUERY_ATTRIBUTES alone."""
        p, long_data = self.library, ctypes.c_uint8()
        sent = p.converted(values)
        given = p.parameters(sent, types)
        named = p.parameters(p.converted(list(attributes.values())), names=[it.encode() for it in attributes])
        options = p.new("myp_execution_options", flags=getattr(p, f"MYP_CURSOR_{cursor}"))
        request = p.write("myp_write_execution", statement.statement_id, given, named, options, self.capabilities, after=[long_data])
        ahead = [(place, it) for place, it in enumerate(sent) if long_data.value and isinstance(it, bytes)]
        return [*(self.write_long_data(statement, place, it) for place, it in ahead), request]

    def write_long_data(self, statement: Statement, param: int, content: "bytes | str") -> bytes:
        content = content.encode() if isinstance(content, str) else content
        data = self.library.new("myp_long_data", content=content, statement_id=statement.statement_id, param_index=param)
        return self.library.write("myp_write_long_data", data, size=len(content) + 16)

    def write_close(self, statement: Statement) -> bytes:
        return self.library.write("myp_write_close", statement.statement_id)

    # ---- what a server reads

    def read_login(self, payload: bytes) -> Login:
        p, it = self.library, self.library.read("myp_read_login", payload, into="myp_login")
        attributes, name, value = [], p.bytes(b""), p.bytes(b"")
        while p.next("myp_next_connection_attribute", it.attributes, name, value):
            attributes.append((self._text(name), self._text(value)))
        return Login(self._text(it.user), self._text(it.database), self._text(it.auth_plugin_name), it.capabilities, it.mariadb_capabilities,
                     it.collation, tuple(attributes), p.text(it.auth_response))

    def read_command(self, payload: bytes) -> Command:
        """A command that is a text, a number, or its byte alone; of any other its byte."""
        it = self.library.read("myp_read_command", payload, self.capabilities, into="myp_command")
        return Command(it.code, self._text(it.text), it.number)

    def read_execution(self, payload: bytes, types: Sequence[ParamType], ahead: Collection[int] = ()) -> Tuple[Execution, List[ParamType]]:
        """An execution of a statement with these types of an earlier one, or None of each parameter, and the types that it has; `ahead` are the
        places of parameters that were sent ahead. Values are None where types are neither sent nor known."""
        p, count = self.library, len(types)
        bound = [p.types["myp_bound_param"](*(it or (0, 0)), int(at in ahead)) for at, it in enumerate(types)]
        params, values = p.array("myp_bound_param", bound), p.array("myp_value", [p.new("myp_value") for _ in range(count)])
        sent, out, given = p.array("myp_column_type", [p.types["myp_column_type"]() for _ in range(count)]), p.new("myp_execution"), p.bytes(payload)
        agreed = given.data, given.len, self.capabilities, params, count
        self._check("myp_read_execution", *agreed, values, count, sent, count, p.refer(out))
        if not out.sends_types and None in types:
            return Execution(out.statement_id, None, ()), list(types)
        attributes: List[Tuple[str, Value]] = []
        for place in range(out.attributes):
            attribute = p.new("myp_parameter")
            self._check("myp_read_execution_attribute", *agreed, place, p.refer(attribute))
            attributes.append((self._text(attribute.name), p.content(attribute.value)))
        found: List[ParamType] = [(it.column_type, it.is_unsigned) for it in sent[:count]]
        return Execution(out.statement_id, tuple(p.content(it) for it in values[:count]), tuple(attributes)), found

    def _check(self, call: str, *arguments: Any) -> None:
        code = getattr(self.library.dll, call)(*arguments)
        if code:
            raise self.library.refusal(call, code)

    # ---- what a server writes

    def write_handshake(self, greeting: Handshake, collation: int = 45) -> bytes:
        """The greeting, with a nonce of 20 bytes: `agree` then takes the flags of the login."""
        return self.library.write("myp_write_handshake", self.library.new(
            "myp_handshake", server_version=greeting.server_version.encode("utf-8", "surrogateescape"), scramble_1=greeting.nonce[:8],
            scramble_2=greeting.nonce[8:] + b"\0", auth_plugin_name=greeting.auth_plugin.encode(), connection_id=greeting.connection_id,
            capabilities=greeting.capabilities, mariadb_capabilities=greeting.mariadb_capabilities, status_flags=greeting.status,
            protocol_version=10, default_collation=collation))

    def write_auth_switch(self, plugin: str, nonce: bytes) -> bytes:
        return self.library.write("myp_write_auth_switch", self.library.new("myp_auth_switch", plugin_name=plugin.encode(), plugin_data=nonce + b"\0"))

    def write_auth_more_data(self, content: bytes) -> bytes:
        return self.library.write("myp_write_auth_more_data", content, size=len(content) + 1)

    def write_ok(self, ok: OkPacket = OkPacket(0, 0, 2, 0, "", ()), kind: str = "COMMON") -> bytes:
        """An OK packet, or an end: COMMON, TERMINATOR, OLD_EOF or STREAM_END."""
        p = self.library
        changes = b"".join(p.write("myp_write_change", it.kind, it.content) for it in ok.changes)
        packet = p.new("myp_ok", affected_rows=ok.affected_rows, last_insert_id=ok.last_insert_id, info=ok.info.encode("utf-8", "surrogateescape"),
                       session_state=changes, status_flags=ok.status, warnings=ok.warnings)
        return p.write("myp_write_ok", packet, getattr(p, f"MYP_OK_{kind}"), self.capabilities)

    def write_error(self, error: ServerError) -> bytes:
        return self.library.write("myp_write_error", self.library.new(
            "myp_error", sql_state=(error.state or "").encode(), message=error.message.encode("utf-8", "surrogateescape"), code=error.code))

    def write_statement(self, statement: Statement) -> bytes:
        return self.library.write("myp_write_statement", self.library.new(
            "myp_statement", statement_id=statement.statement_id, num_columns=statement.columns, num_params=statement.params,
            warning_count=statement.warnings, metadata_follows=1), self.capabilities)

    def write_column_count(self, count: int) -> bytes:
        columns = self.library.new("myp_column_count", count=count, metadata_follows=1)
        return self.library.write("myp_write_column_count", columns, self.capabilities, self.mariadb_capabilities)

    def write_column(self, column: Column) -> bytes:
        names = {it: getattr(column, it).encode("utf-8", "surrogateescape") for it in ("schema", "table", "org_table", "name", "org_name")}
        return self.library.write("myp_write_column", self.library.new(
            "myp_column", **names, column_length=column.length, character_set=column.character_set, flags=column.flags,
            column_type=column.column_type, decimals=column.decimals))

    def write_text_row(self, values: Sequence[Value]) -> bytes:
        """A text row: each value as its text."""
        texts = [None if it is None else it if isinstance(it, bytes) else str(it).encode() for it in values]
        return self.library.write("myp_write_text_row", self.library.packed(texts))

    def write_binary_row(self, values: Sequence[Value], columns: Sequence[Column]) -> bytes:
        """A binary row, each value under the type of its column. InvalidInput if one doesn't fit."""
        p = self.library
        types = p.array("myp_column_type", [p.new("myp_column_type", column_type=it.column_type, is_unsigned=int(it.is_unsigned)) for it in columns])
        return p.write("myp_write_binary_row", types, p.packed(p.converted(values)))

    # ---- replication

    def write_dump(self, server_id: int, gtid_set: str, file_name: str = "", position: int = 4) -> bytes:
        """The request for a binary log without the transactions of a set, as `@@gtid_executed` has it."""
        text = gtid_set.encode()
        dump = self.library.new("myp_gtid_dump", file_name=file_name.encode(), server_id=server_id, position=position)
        return self.library.write("myp_gtid_dump_from_text", dump, text, size=64 + 2 * len(text))

    def read_gtid_set(self, dump: bytes) -> str:
        """The set of such a request."""
        return self.library.write("myp_gtid_dump_to_text", dump, size=64 + 4 * len(dump)).decode()

    def write_bulk(self, statement: Statement, rows: Iterable[Sequence[BulkValue]], limit: int = LIMIT) -> Iterator[bytes]:
        """The fewest requests of at most `limit` - 4 bytes with all rows. Each is answered by an OK packet.

        The rows, of one length, are read whole before the first request, since each column has one type. InvalidValue names the row and the
        column of a value that can't be sent; then nothing is. `Cell.DEFAULT` and `Cell.IGNORE` stand for a value."""
        return BulkRows(self.library, rows).requests(statement.statement_id, limit)
