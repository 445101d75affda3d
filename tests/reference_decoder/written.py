"""An execution as it is written again of what was read as it was sent: what stands before the values in its shortest form, and the bytes of the
values as they came. Clients send that form; where another one could stand are the count and the lengths of names in more bytes than they
need, bits past the last parameter, and a byte other than 1 before types."""
from .buf import Buf
from .statements import QUERY_ATTRIBUTES, execution_front


def lenenc(number):
    for most, front, width in ((0xFA, b"", 1), (0xFFFF, b"\xfc", 2), (0xFFFFFF, b"\xfd", 3)):
        if number <= most:
            return front + number.to_bytes(width, "little")
    return b"\xfe" + number.to_bytes(8, "little")


def execution(content, bound, capabilities):
    """An execution whose bytes, with none after them, are these, of parameters of these types, in a session with these capabilities."""
    buf, has_names = Buf(content), bool(capabilities & QUERY_ATTRIBUTES)
    _, has_count, count, bits, sends_types, types = execution_front(buf, bound, capabilities)
    front = content[:10] + (lenenc(count) if has_count else b"")
    if count:
        front += (bits & (1 << count) - 1).to_bytes((count + 7) // 8, "little") + bytes([sends_types])
    if sends_types:
        front += b"".join(bytes([kind, flags]) + (lenenc(len(name)) + name if has_names else b"") for kind, flags, name in types)
    return front + buf.data
