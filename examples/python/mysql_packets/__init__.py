"""The packets of MySQL and MariaDB, read and written by a proved library.

    session = Session()                                  # the library beside the package, else where it is installed
    greeting = session.read_handshake(payload)
    session.agree(greeting, session.wanted())
    payload = session.write_login(greeting, "user", "password", database="test")

A `Session` keeps what both sides agreed on, and gives records; `Library` has each call of mysql_packets.h as it is. Neither opens a socket."""
from .errors import (BufferTooSmall, Compressed, InvalidData, InvalidInput, InvalidValue, OutOfRange, PacketError, RowTooLarge, TooLarge, TooManyCommands,
                     UnexpectedEof)
from .library import Library
from .records import BulkValue, Cell, Change, Column, Command, Execution, Handshake, Login, OkPacket, Packet, Row, ServerError, Statement, Value
from .rows import RowReader
from .session import Session

__all__ = [
    "BufferTooSmall", "BulkValue", "Cell", "Change", "Column", "Command", "Compressed", "Execution", "Handshake", "InvalidData", "InvalidInput", "InvalidValue",
    "Library", "Login", "OkPacket", "OutOfRange", "Packet", "PacketError", "Row", "RowReader", "RowTooLarge", "ServerError", "Session",
    "Statement", "TooLarge", "TooManyCommands", "UnexpectedEof", "Value",
]
