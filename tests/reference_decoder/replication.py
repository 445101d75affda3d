"""What a replica sends, and the stream that it is answered with."""
import re

from .buf import Invalid, counted


def register_slave(buf):
    block = buf.block(5)
    block.const(b"\x15")
    server_id, texts = block.number(4), [buf.u8_string() for _ in range(3)]
    block = buf.block(10)
    return server_id, texts, block.number(2), block.number(4), block.number(4)


def table_dump(buf):
    buf.const(b"\x13")
    return buf.u8_string(), buf.u8_string()


def binlog_dump(buf):
    block = buf.block(11)
    block.const(b"\x12")
    return block.number(4), block.number(2), block.number(4), buf.all()


def semi_sync_ack(buf):
    block = buf.block(9)
    block.const(b"\xef")
    return block.number(8), buf.all()


def stream_event(buf, is_semi_sync):
    """The flags of semi-synchronous replication, where it is agreed on, and the event."""
    buf.const(b"\0")
    if not is_semi_sync:
        return None, buf.all()
    header = buf.block(2)
    header.const(b"\xef")
    return header.number(1), buf.all()


def stream_packet(buf, is_semi_sync):
    """What a packet of a stream is, and its parts."""
    kind = {b"\xfe": "end", b"\xff": "err"}.get(buf.data[:1], "event")
    return kind, stream_event(buf, is_semi_sync) if kind == "event" else buf.all()


def gno_interval(buf):
    block = buf.block(16)
    return block.number(8), block.number(8)


def tag(buf):
    text = buf.take(buf.varlen())
    if text and not re.fullmatch(rb"[a-z_][a-z0-9_]{0,31}", text):
        raise Invalid
    return text


def sid(buf, has_tags):
    uuid, text = buf.take(16), tag(buf) if has_tags else b""
    return uuid, text, counted(buf, buf.number(8), gno_interval)


def sids(block, is_strict):
    head = block.number(8)
    if is_strict and head >> 56 > 1:
        raise Invalid
    has_tags = head >> 56 == 1
    count = head >> 8 & 0xFFFF_FFFF_FFFF if has_tags else head & 0xFF_FFFF_FFFF_FFFF
    read = counted(block, count, lambda b: sid(b, has_tags))
    if is_strict and block.data:
        raise Invalid
    return read


def binlog_dump_gtid(buf, is_strict):
    block = buf.block(7)
    block.const(b"\x1e")
    flags, server_id = block.number(2), block.number(4)
    name, position = buf.take(buf.number(4)), buf.number(8)
    return flags, server_id, name, position, sids(buf.block(buf.number(4)), is_strict)
