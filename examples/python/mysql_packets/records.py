"""What packets say, as tuples with names."""
import datetime
import decimal
import enum
import uuid
from typing import NamedTuple, Optional, Tuple, Union


class Cell(enum.Enum):
    """What stands for a value in a row of a bulk request: the default of its column, or that the column is left unchanged."""

    DEFAULT = "DEFAULT"
    IGNORE = "IGNORE"


# A value: None, a byte string, a number, a date with its time of day, or a span of time. A date that does not exist, as of the year 0, is a text.
# Those below are only sent: a UUID as its text, a time of day as a span of time since midnight.
Value = Union[
    None, bytes, int, float, datetime.datetime, datetime.timedelta, str,
    bytearray, memoryview, datetime.date, datetime.time, decimal.Decimal, uuid.UUID,
]
Row = Tuple[Value, ...]
# The type of a parameter: a number of enum myp_type, and whether it is unsigned; None if it isn't known.
ParamType = Optional[Tuple[int, int]]
# A value of a row of a bulk request.
BulkValue = Union[Value, Cell]


class Handshake(NamedTuple):
    """The server's greeting."""

    server_version: str
    connection_id: int
    capabilities: int
    mariadb_capabilities: int
    status: int
    nonce: bytes
    auth_plugin: str


class Change(NamedTuple):
    """A change of the session, of a number of enum myp_session_track: its content, and the variables of one that has some."""

    kind: int
    content: bytes
    variables: Tuple[Tuple[str, str], ...]


class OkPacket(NamedTuple):
    """An OK packet, or an end."""

    affected_rows: int
    last_insert_id: int
    status: int
    warnings: int
    info: str
    changes: Tuple[Change, ...]


class Statement(NamedTuple):
    """A prepared statement."""

    statement_id: int
    columns: int
    params: int
    warnings: int


class Column(NamedTuple):
    """The definition of a column: its names, and of which type it is."""

    schema: str
    table: str
    org_table: str
    name: str
    org_name: str
    character_set: int
    length: int
    column_type: int
    flags: int
    decimals: int

    @property
    def is_unsigned(self) -> bool:
        return bool(self.flags & 32)


class ServerError(Exception):
    """What a server refuses, with the SQL state where it has one."""

    def __init__(self, code: int, state: Optional[str], message: str):
        super().__init__(f"{code} ({state}): {message}" if state else f"{code}: {message}")
        self.code, self.state, self.message = code, state, message


class Login(NamedTuple):
    """A client's login. What it leaves out is empty."""

    user: str
    database: str
    auth_plugin: str
    capabilities: int
    mariadb_capabilities: int
    collation: int
    attributes: Tuple[Tuple[str, str], ...]
    auth_response: bytes


class Command(NamedTuple):
    """A command, by a number of enum myp_com: its text, and the number of a statement or a session."""

    code: int
    text: str
    number: int


class Execution(NamedTuple):
    """An execution: the values of its parameters, None if the statement or its types are unknown, and its attributes. A parameter whose data
    was sent ahead is None."""

    statement_id: int
    values: Optional[Row]
    attributes: Tuple[Tuple[str, Value], ...]


# what a packet says: a row is a tuple, the number of columns an int, the name of a file a text
Record = Union[None, int, str, Row, Handshake, Login, Command, Execution, OkPacket, ServerError, Column, Statement]


class Packet(NamedTuple):
    """A packet of an observed connection. `kind` is a name of enum myp_packet_kind in lower case, without its front; the record is None for a
    kind without one, and where the bytes are no such packet. `exchange` is the number of the command that it belongs to, from 1; 0 before it."""

    side: str
    kind: str
    payload: bytes
    record: Record
    exchange: int
