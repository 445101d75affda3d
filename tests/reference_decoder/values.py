"""Values, as text and in binary."""
from .buf import Invalid
from .codes import UNSIGNED


def text_value(buf):
    if buf.data[:1] == b"\xfb":
        return buf.take(1) and None
    return buf.string()


def temporal(buf, widths, lengths):
    length = buf.number(1)
    if length not in lengths:
        raise Invalid
    fields, part = [], buf.block(length)
    for width in widths:
        fields.append(part.number(width) if part.data else 0)
    return fields


def bin_value(buf, column_type, flags):
    is_unsigned = bool(flags & UNSIGNED)
    if column_type in (0, 15, 16, 242) or column_type >= 245:
        return buf.string()
    if column_type in (1, 2, 3, 8, 9, 13):
        width = {1: 1, 2: 2, 13: 2, 8: 8}.get(column_type, 4)
        return "number", int.from_bytes(buf.take(width), "little", signed=not is_unsigned)
    if column_type in (4, 5):
        return "bits", buf.number(4 if column_type == 4 else 8)
    if column_type in (7, 10, 12):
        return "date", temporal(buf, [2, 1, 1, 1, 1, 1, 4], (0, 4, 7, 11))
    if column_type == 11:
        fields = temporal(buf, [1, 4, 1, 1, 1, 4], (0, 8, 12))
        return "time", fields[0] == 1, fields[1:]
    if column_type == 6:
        return None
    raise Invalid


def date_with_offset(buf):
    """A date, a time of day with microseconds and an offset in minutes: 13 bytes (`time_zone_displacement` in sql/sql_prepare.cc)."""
    buf.const(b"\x0d")
    date = [buf.number(width) for width in (2, 1, 1, 1, 1, 1, 4)]
    return "date", date, int.from_bytes(buf.take(2), "little", signed=True)


def param_value(buf, column_type, is_unsigned):
    """The value of a parameter or an attribute, as `get_ps_param_len` in sql/protocol_classic.cc has it: of any type but those of numbers, dates
    and times it is a string."""
    if column_type in (7, 12) and buf.data[:1] == b"\x0d":
        return date_with_offset(buf.block(14))
    if column_type in (1, 2, 3, 4, 5, 6, 7, 8, 10, 11, 12):
        return bin_value(buf, column_type, UNSIGNED if is_unsigned else 0)
    return buf.string()
