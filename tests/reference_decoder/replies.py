"""What a server answers: changes of a session's state, columns, OK packets, errors."""
from .buf import Buf, Eof, Invalid, to_the_end
from .values import text_value
from .codes import CACHE_METADATA, COLUMN_TYPES, EXTENDED_METADATA, OPTIONAL_METADATA, PROGRESS_OBSOLETE, PROTOCOL_41, SESSION_STATE_CHANGED, SESSION_TRACK


def system_variable(buf):
    return buf.string(), buf.string()


def session_state_change(buf, kind):
    if kind == 0:
        return to_the_end(buf, system_variable)
    if kind == 2:
        return buf.string() == b"1"
    return buf.all() if kind == 3 else buf.string()


def change_as_sent(kind, data):
    """A state change is sent as one byte, the truth value, or as a string; GTIDs are sent as the encoding 00 and a string."""
    if kind == 2 and len(data) == 1:
        return data == b"1"
    if kind == 3:
        buf = Buf(data)
        buf.const(b"\0")
        return buf.string()
    return session_state_change(Buf(data), kind)


def entry(buf):
    return buf.code(range(6)), buf.string()


def after_entry(data):
    """What comes after an entry of any type: nothing, where it is cut."""
    buf = Buf(data)
    try:
        buf.take(1)
        buf.string()
        return buf.data
    except (Eof, Invalid):
        return b""


def changes_as_sent(data):
    """The changes of a state string one after another, each with its type, or the fault in its place."""
    changes = []
    while data:
        buf = Buf(data)
        try:
            kind, content = entry(buf)
        except (Eof, Invalid) as fault:
            changes.append(fault)
            data = after_entry(data)
            continue
        data = buf.data
        try:
            changes.append((kind, change_as_sent(kind, content)))
        except (Eof, Invalid) as fault:
            changes.append(fault)
    return changes


def column(buf):
    return extended_column(buf, 0)[0]


def column_attribute(buf):
    return buf.number(1), buf.string()


def extended_column(buf, mariadb):
    """A column, and its extended metadata where both sides have the flag."""
    buf.const(b"\x03def")
    names = [buf.string() for _ in range(5)]
    metadata = buf.string() if mariadb & EXTENDED_METADATA else None
    block = buf.block(13)
    block.const(b"\x0c")
    numbers = block.number(2), block.number(4), block.code(COLUMN_TYPES), block.number(2), block.number(1)
    return (names, numbers), metadata


def ok_tail(buf, capabilities, status):
    info = state = b""
    if capabilities & SESSION_TRACK and buf.data:
        info = buf.string()
        if status & SESSION_STATE_CHANGED:
            state = buf.string()
    elif buf.data and buf.data[0] != 0:
        info = buf.string()
    return info or None, state or None


def ok_packet(buf, capabilities, header, keeps_numbers):
    buf.const(header)
    rows, insert_id = buf.lenenc(), buf.lenenc()
    block = buf.block(4)
    status, warnings = block.number(2), block.number(2)
    numbers = (rows, insert_id or None) if keeps_numbers else None
    return numbers, status, warnings, ok_tail(buf, capabilities, status)


def old_eof(buf, _capabilities):
    buf.const(b"\xfe")
    block = buf.block(4)
    return block.number(2), block.number(2)


def progress_report(buf):
    block = buf.block(6)
    block.take(1)
    return block.number(1), block.number(1), block.number(3), buf.string()


def column_count(buf, capabilities, mariadb):
    """The count, and the byte that says whether definitions follow: MySQL's (`start_result_metadata` in sql/protocol_classic.cc), or MariaDB's."""
    return buf.lenenc(), buf.number(1) if capabilities & OPTIONAL_METADATA or mariadb & CACHE_METADATA else None


def field_list_column(buf, mariadb):
    """A column that answers COM_FIELD_LIST, and its default value: a value of a text row."""
    return extended_column(buf, mariadb), text_value(buf)


def sql_state(buf):
    block = buf.block(6)
    block.const(b"#")
    return block.all()


def server_error(buf, code, has_state):
    return code, sql_state(buf) if has_state else None, buf.all()


def greeting_error(buf):
    """An error in place of the greeting: a state is there where its bytes are, as no capabilities say so."""
    block = buf.block(3)
    block.const(b"\xff")
    code = block.number(2)
    return server_error(buf, code, buf.data[:1] == b"#" and len(buf.data) >= 6)


def err_packet(buf, capabilities):
    block = buf.block(3)
    block.const(b"\xff")
    code = block.number(2)
    if code == 0xFFFF and capabilities & PROGRESS_OBSOLETE:
        return progress_report(buf)
    return server_error(buf, code, bool(capabilities & PROTOCOL_41))
