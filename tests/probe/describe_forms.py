"""What is shown of wire forms, by the reference decoder."""
from describe import READERS, by, lossy, x

from reference_decoder.buf import Invalid, to_the_end


def value(record):
    return [f"value={record}"]


def content(record):
    return [f"content={x(record)}", f"content_str={lossy(record)}"]


def bare(record):
    return [f"content={x(record)}"]


def code(record):
    return [f"code={record}"]


def nothing(_record):
    return []


def counted(record):
    return [f"count={len(record)}"] + [f"value={x(it) if isinstance(it, bytes) else it}" for it in record]


NUMBERS = {"u8": "U8", "le_u16": "LeU16", "le_u24": "LeU24", "le_u32": "LeU32", "le_u64": "LeU64", "lenenc": "LenEnc", "varlen": "VarLen"}
STRINGS = {"lenenc_bytes": "LenEncBytes", "null_bytes": "NullBytes", "eof_bytes": "EofBytes", "u8_bytes": "U8Bytes",
           "u32_bytes": "U32Bytes", "eof_name": "EofName"}
CONSTANTS = {"const_u8": "ConstU8", "const_u32": "ConstU32", "const_bytes": "ConstBytes", "skip": "Skip"}
CODES = {"column_type": "ColumnType", "bulk_indicator": "BulkIndicator", "session_state_type": "SessionStateType", "server_command": "ServerCommand",
         "status_flags": "StatusFlags"}
# (a word of flags keeps every bit, so it is read as its number)
WORDS = {"capability_flags": "LeU32", "mariadb_capabilities": "LeU32", "cursor_type": "U8", "column_flags": "LeU16",
         "dump_flags": "LeU16", "bulk_flags": "LeU16", "param_flags": "U8", "params_flags": "U8"}
LISTS = {"seq": "Seq", "seq_of_bytes": "SeqOfByteStrings"}
DESCRIBES = [(NUMBERS, value), (STRINGS, content), (CONSTANTS, nothing), (CODES, code), (WORDS, code), (LISTS, counted)]
OF_COUNT = {"bare_bytes": ("BareBytes", content), "block": ("Block", bare),
            "seq_of_count": ("SeqOfACountHandedIn", counted)}
TO_THE_END = {"all": "LeU64", "all_of_bytes": "LenEncBytes"}


def all_of_nothing(buf):
    if buf.data:
        raise Invalid
    return ["count=0"]


def form(name, *count):
    """A form's reading, with the count that is handed in."""
    for names, describe in DESCRIBES:
        if name in names:
            return by(names[name], describe)
    if name in OF_COUNT:
        reader, describe = OF_COUNT[name]
        return by(reader, describe, int(count[0]))
    if name in TO_THE_END:
        return lambda buf: counted(to_the_end(buf, READERS[TO_THE_END[name]]))
    if name == "all_of_nothing":
        return all_of_nothing
    if name == "array":
        return by("ByteArray", bare)
    return lambda buf: bare(buf.take(2))  # (array_of_2)


DESCRIBERS = {
    "form": form,
    "varlen": lambda: by("VarLen", value),
}
