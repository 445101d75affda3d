"""Commands, by their first byte, as the protocol's pages lay them out."""
from . import authentication, replication, statements
from .buf import Eof, Invalid, counted
from .values import param_value

QUERY_ATTRIBUTES = 1 << 27


def field_list(buf):
    buf.const(b"\x04")
    return buf.null_string(), buf.all()


def set_option(buf):
    block = buf.block(3)
    block.const(b"\x1b")
    return block.number(2)


def stmt_reset(buf):
    block = buf.block(5)
    block.const(b"\x1a")
    return block.number(4)


def stmt_fetch(buf):
    block = buf.block(9)
    block.const(b"\x1c")
    return block.number(4), block.number(4)


def stmt_execute(buf):
    return statements.stmt_execute_head(buf), buf.all()


def bulk_execute(buf):
    buf.const(b"\xfa")
    return buf.number(4), buf.number(2), buf.all()


def unknown(buf):
    return buf.number(1), buf.all()


def attributes_front(buf):
    """What stands before the values of attributes: the bits of those that are NULL, and of each its type, its flags and its name."""
    count = buf.lenenc()
    buf.const(b"\1")
    if not count:
        return 0, []
    bits = int.from_bytes(buf.take((count + 7) // 8), "little")
    # (any byte but 0: `parse_query_bind_params`)
    if not buf.number(1):
        raise Invalid
    return bits, counted(buf, count, lambda b: (*statements.bulk_type(b), b.string()))


def query_attributes(buf):
    """The name, the type, its flags and the value of each attribute."""
    bits, types = attributes_front(buf)
    return [(name, kind, flags, None if bits >> i & 1 else param_value(buf, kind, flags & 128)) for i, (kind, flags, name) in enumerate(types)]


def query(buf, capabilities):
    buf.const(b"\x03")
    return query_attributes(buf) if capabilities & QUERY_ATTRIBUTES else None, buf.all()


def one_text(buf, _capabilities):
    buf.take(1)
    return buf.all()


def one_number(size):
    def read(buf, _capabilities):
        buf.take(1)
        return buf.number(size)
    return read


def shutdown(buf, _capabilities):
    buf.take(1)
    return buf.number(1) if buf.data else None


def fixed(buf, _capabilities):
    buf.take(1)


def as_sent(read):
    """What is read, and how many bytes it takes."""
    def sized(buf, capabilities):
        before = len(buf.data)
        record = read(buf, capabilities)
        return record, before - len(buf.data)
    return sized


def alone(read):
    return lambda buf, _capabilities: read(buf)


COMMANDS = {
    0x01: ("COM_QUIT", fixed), 0x02: ("COM_INIT_DB", one_text), 0x03: ("COM_QUERY", query), 0x04: ("COM_FIELD_LIST", alone(field_list)),
    0x05: ("COM_CREATE_DB", one_text), 0x06: ("COM_DROP_DB", one_text), 0x07: ("COM_REFRESH", one_number(1)), 0x08: ("COM_SHUTDOWN", shutdown),
    0x09: ("COM_STATISTICS", fixed), 0x0A: ("COM_PROCESS_INFO", fixed), 0x0C: ("COM_PROCESS_KILL", one_number(4)), 0x0D: ("COM_DEBUG", fixed),
    0x0E: ("COM_PING", fixed), 0x11: ("COM_CHANGE_USER", as_sent(authentication.change_user)),
    0x12: ("COM_BINLOG_DUMP", alone(replication.binlog_dump)), 0x13: ("COM_TABLE_DUMP", alone(replication.table_dump)),
    0x15: ("COM_REGISTER_SLAVE", alone(replication.register_slave)), 0x16: ("COM_STMT_PREPARE", one_text),
    0x17: ("COM_STMT_EXECUTE", alone(stmt_execute)), 0x18: ("COM_STMT_SEND_LONG_DATA", alone(statements.stmt_long_data)),
    0x19: ("COM_STMT_CLOSE", alone(statements.stmt_close)), 0x1A: ("COM_STMT_RESET", alone(stmt_reset)),
    0x1B: ("COM_SET_OPTION", alone(set_option)), 0x1C: ("COM_STMT_FETCH", alone(stmt_fetch)),
    0x1E: ("COM_BINLOG_DUMP_GTID", as_sent(alone(lambda buf: replication.binlog_dump_gtid(buf, False)))),
    0x1F: ("COM_RESET_CONNECTION", fixed), 0xFA: ("COM_STMT_BULK_EXECUTE", alone(bulk_execute)),
}


def command(buf, capabilities):
    """The command's name and its record."""
    if not buf.data:
        raise Eof
    name, read = COMMANDS.get(buf.data[0], ("unknown", alone(unknown)))
    return name, read(buf, capabilities)
