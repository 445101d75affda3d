"""Prepared statements, their rows, and bulk executions."""
from .buf import Invalid, counted, to_the_end
from .codes import COLUMN_TYPES, TYPE_CODES, UNSIGNED
from .values import bin_value, param_value


def stmt_packet(buf):
    block = buf.block(12)
    block.const(b"\0")
    fields = block.number(4), block.number(2), block.number(2)
    block.take(1)
    return fields, block.number(2)


OPTIONAL_RESULTSET_METADATA = 1 << 25


def stmt_packet_with_metadata(buf, capabilities):
    return stmt_packet(buf), buf.number(1) if capabilities & OPTIONAL_RESULTSET_METADATA else None


def stmt_close(buf):
    block = buf.block(5)
    block.const(b"\x19")
    return block.number(4)


def stmt_long_data(buf):
    buf.const(b"\x18")
    return buf.number(4), buf.number(2), buf.all()


def stmt_execute_head(buf):
    """The statement's number, the flags, and the count of executions, which servers pass over."""
    block = buf.block(10)
    block.const(b"\x17")
    return block.number(4), block.number(1), block.number(4)


QUERY_ATTRIBUTES, PARAMETER_COUNT_AVAILABLE = 1 << 27, 8


def execution_front(buf, bound, capabilities):
    """What stands before the values of an execution: its head, whether it has a count, how many parameters and attributes there are, the bits of
    those that are NULL, whether it sends types, and the types that are in force."""
    head = stmt_execute_head(buf)
    has_names, count = bool(capabilities & QUERY_ATTRIBUTES), len(bound)
    has_count = has_names and (bound or head[1] & PARAMETER_COUNT_AVAILABLE)
    if has_count:
        count = buf.lenenc()
        if count < len(bound):
            raise Invalid
    if not count:
        return head, has_count, 0, 0, False, []
    bits = int.from_bytes(buf.take((count + 7) // 8), "little")
    sends_types = buf.number(1) != 0
    if sends_types:
        types = counted(buf, count, lambda b: (*bulk_type(b), b.string() if has_names else b""))
    elif count > len(bound):
        raise Invalid
    else:
        types = [(kind, flags, b"") for kind, flags, _ in bound]
    return head, has_count, count, bits, sends_types, types


def stmt_execute(buf, bound, capabilities=0):
    """An execution of parameters of which these are the type, its flags, and whether it was sent ahead: the parameters, and the attributes after
    them, as `parse_com_stmt_execute` and `parse_query_bind_params` in sql/protocol_classic.cc read them."""
    head, _, count, bits, sends_types, types = execution_front(buf, bound, capabilities)
    if not count:
        return head, False, [], []
    ahead = [is_sent_ahead for _, _, is_sent_ahead in bound] + [False] * (count - len(bound))
    read = []
    for i, ((kind, flags, name), is_sent_ahead) in enumerate(zip(types, ahead)):
        has_value = not is_sent_ahead and not bits >> i & 1
        read.append((kind, flags, name, is_sent_ahead, param_value(buf, kind, flags & 128) if has_value else None))
    return head, sends_types, read[: len(bound)], read[len(bound) :]


COLUMNS = [(TYPE_CODES["LONGLONG"], 0), (TYPE_CODES["VAR_STRING"], 0), (TYPE_CODES["DATETIME"], 0)]


def binary_row(buf, offset):
    buf.take(1)
    bits = int.from_bytes(buf.take((2 + 7 + offset) // 8), "little") >> offset
    return [None if bits >> i & 1 else ("value", bin_value(buf, *COLUMNS[i])) for i in range(2)]


def bulk_type(buf):
    block = buf.block(2)
    return block.code(COLUMN_TYPES), block.number(1)


def bulk_value(buf, column_type, flags):
    indicator = buf.code(range(4))
    return indicator, bin_value(buf, column_type, flags) if indicator == 0 else None


def bulk_values(buf):
    return [bulk_value(buf, *column) for column in COLUMNS]


def bulk_head(buf, columns):
    buf.const(b"\xfa")
    stmt_id, flags = buf.number(4), buf.number(2)
    types = [bulk_type(buf) for _ in columns] if flags & 128 else []
    answered = [(code, UNSIGNED if sent & 128 else 0) for code, sent in types] or columns
    return (stmt_id, flags, types), answered


def bulk_request(buf):
    head, answered = bulk_head(buf, COLUMNS)
    return head, [bulk_value(buf, *column) for column in answered]


def bulk_rows(buf):
    _head, answered = bulk_head(buf, COLUMNS[:1])

    def row(buf):
        before = len(buf.data)
        values = [bulk_value(buf, *column)[1] for column in answered]
        if len(buf.data) == before:
            raise Invalid
        return values

    return to_the_end(buf, row)
