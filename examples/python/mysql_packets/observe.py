"""An observed connection: the bytes of both sides as they pass by, and the packets in them."""
from typing import TYPE_CHECKING, Any, Callable, Dict, Iterator, List, Optional, Set

from .errors import PacketError
from .records import Column, Command, Execution, Packet, ParamType, Record, Statement
from .rows import RowReader

if TYPE_CHECKING:
    from .session import Session

SIDES = ("client", "server")


class Prepared:
    """A prepared statement: the columns of its last result, the types of its parameters, and the parameters that were sent ahead."""

    def __init__(self, params: int):
        self.columns: List[Column] = []
        self.types: List[ParamType] = [None] * params
        self.ahead: Set[int] = set()


class Observer:
    """The packets of a connection, from the server's greeting on. `session` has the library and reads most of them."""

    def __init__(self, session: "Session"):
        self.session, self.p = session, session.library
        self.state, self.packet = self.p.new("myp_conversation"), self.p.new("myp_packet")
        self._check("myp_begin_session", self.p.refer(self.state))
        self.bytes = {side: b"" for side in SIDES}  # of a frame that isn't complete
        self.front = {side: b"" for side in SIDES}  # of a payload that goes on in the next frame
        self.kinds = {number: name[len("MYP_PACKET_"):].lower() for name, number in self.p.numbers.items() if name.startswith("MYP_PACKET_")}
        self.statements: Dict[int, Prepared] = {}
        self.begun: Dict[int, Prepared] = {}  # by the number of an exchange: the statement that its command executes
        self.cleared = 0  # the exchange whose command removes all statements
        self.exchange = 0  # that of the server's last packet
        self.executed: Optional[Prepared] = None
        self.columns: List[Column] = []
        self.skipped = 0  # definitions of parameters that come before those of columns
        self.reader: Optional[RowReader] = None

    def _check(self, call: str, *arguments: Any) -> None:
        code = getattr(self.p.dll, call)(*arguments)
        if code:
            raise self.p.refusal(call, code)

    def take(self, side: str, data: bytes) -> Iterator[Packet]:
        """The packets that end in these bytes of a side. InvalidData for one that may not come here; the bytes after it are kept."""
        self.bytes[side] += data
        while True:
            rest, frame = self.p.bytes(self.bytes[side]), self.p.new("myp_frame")
            if not self.p.next("myp_next_frame", rest, frame):
                return
            content = self.p.text(frame.content)
            self.bytes[side] = self.bytes[side][len(content) + 4:]
            self.front[side] += content
            if frame.is_last:
                payload, self.front[side] = self.front[side], b""
                yield self._next(side, payload)

    def _next(self, side: str, payload: bytes) -> Packet:
        given = self.p.bytes(payload)
        self._check("myp_next_packet", self.p.refer(self.state), SIDES.index(side), given.data, given.len, self.p.refer(self.packet))
        kind, exchange = self.kinds[self.packet.kind], self.packet.exchange
        if side == "server" and exchange != self.exchange:
            self._reach(exchange)
        if kind == "login":
            self.session.capabilities, self.session.mariadb_capabilities = self.state.capabilities, self.state.mariadb_capabilities
        read: Optional[Callable[[bytes], Record]] = getattr(self, f"_{kind}", None)
        try:
            return Packet(side, kind, payload, read(payload) if read else None, exchange)
        except PacketError:
            return Packet(side, kind, payload, None, exchange)

    def _reach(self, exchange: int) -> None:
        """The server responds to the next command, which may have come long before: its rows have the columns of its statement."""
        self.exchange, self.executed, self.reader = exchange, self.begun.pop(exchange, None), None
        self.columns = self.executed.columns if self.executed else []

    # ---- the login

    def _handshake(self, payload: bytes) -> Record:
        return self.session.read_handshake(payload)

    def _login(self, payload: bytes) -> Record:
        return self.session.read_login(payload)

    # ---- commands

    def _command(self, payload: bytes) -> Record:
        p = self.p
        if self.packet.command == p.MYP_COM_STMT_EXECUTE:
            return self._execution(payload)
        if self.packet.command == p.MYP_COM_STMT_SEND_LONG_DATA:
            part = p.read("myp_read_long_data", payload, into="myp_long_data")
            if part.statement_id in self.statements:
                self.statements[part.statement_id].ahead.add(part.param_index)
            return Command(self.packet.command, "", part.statement_id)
        it = p.read("myp_read_command", payload, self.session.capabilities, into="myp_command")
        if it.code == p.MYP_COM_STMT_CLOSE:
            self.statements.pop(it.number, None)
        elif it.code in (p.MYP_COM_RESET_CONNECTION, p.MYP_COM_CHANGE_USER):
            self.statements.clear()
            self.cleared = self.packet.exchange
        elif it.code in (p.MYP_COM_STMT_FETCH, p.MYP_COM_STMT_RESET) and it.number in self.statements:
            known = self.begun[self.packet.exchange] = self.statements[it.number]
            if it.code == p.MYP_COM_STMT_RESET:
                known.ahead.clear()
        return Command(it.code, self.session._text(it.text), it.number)

    def _execution(self, payload: bytes) -> Record:
        p = self.p
        number = p.read("myp_read_execution_head", payload, into="myp_execution_head").statement_id
        known = self.statements.get(number)
        if known is None:
            return Execution(number, None, ())
        self.begun[self.packet.exchange] = known
        ahead, known.ahead = known.ahead, set()
        execution, known.types = self.session.read_execution(payload, known.types, ahead)
        return execution

    # ---- replies

    def _ok(self, payload: bytes) -> Record:
        return self.session.read_ok(payload)

    def _ok_terminator(self, payload: bytes) -> Record:
        return self.session.read_ok(payload, "TERMINATOR")

    def _eof(self, payload: bytes) -> Record:
        return self.session.read_ok(payload, "OLD_EOF")

    def _error(self, payload: bytes) -> Record:
        return self.session.read_error(payload)

    _unsolicited_error = _progress_report = _error

    def _local_infile(self, payload: bytes) -> Record:
        return self.session._text(self.p.read("myp_read_local_infile", payload, into="myp_bytes"))

    # ---- results

    def _defines(self, params: int, columns: List[Column]) -> None:
        self.skipped, self.columns, self.reader = params, columns, None

    def _column_count(self, payload: bytes) -> Record:
        if self.packet.metadata_follows:
            self._defines(0, [])
            if self.executed:
                self.executed.columns = self.columns
        return int(self.packet.columns)

    def _prepare_ok(self, payload: bytes) -> Record:
        it: Statement = self.session.read_statement(payload)
        known = Prepared(it.params)
        if self.packet.exchange > self.cleared:
            self.statements[it.statement_id] = known
        self._defines(it.params, known.columns)
        return it

    def _column(self, payload: bytes) -> Record:
        column: Column = self.session.read_column(payload)
        if self.skipped:
            self.skipped -= 1
        else:
            self.columns.append(column)
        return column

    _field_list_column = _column

    def _row(self, payload: bytes, is_binary: bool) -> Record:
        if self.reader is None:
            self.reader = self.session.row_reader(self.columns, is_binary)
        return self.reader.read(payload)

    def _text_row(self, payload: bytes) -> Record:
        return self._row(payload, False)

    def _binary_row(self, payload: bytes) -> Record:
        return self._row(payload, True)
