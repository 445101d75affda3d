"""What is shown of statements and of rows, by the reference decoder."""
from describe import by, numbers, x
from describe_values import cell, columns_of, param_word, word_of

from reference_decoder import values, written
from reference_decoder.statements import QUERY_ATTRIBUTES


def describe_stmt(record):
    (statement, columns, params), warnings = record
    return numbers(("statement_id", "num_columns", "num_params", "warning_count"), (statement, columns, params, warnings))


def describe_stmt_with_metadata(record):
    packet, metadata = record
    return describe_stmt(packet) + [f"metadata={'none' if metadata is None else metadata}"]


def describe_long_data(record):
    statement, param, content = record
    return numbers(("stmt_id", "param_index"), (statement, param)) + [f"data_ref={x(content)}"]


def describe_head(record):
    stmt_id, flags, iteration_count = record
    words = numbers(("stmt_id", "flags"), (stmt_id, flags)) + [f"cursor={flags & ~8}"] * (flags >> 3 & 1)
    return words + [f"iteration_count={iteration_count}"] * (iteration_count != 1)


def describe_execution(record):
    head, sends_types, params, attributes = record
    words = numbers(("stmt_id", "flags"), head[:2]) + [f"types={'yes' if sends_types else 'no'}"]
    for at, (kind, flags, name, is_sent_ahead, value) in enumerate(params + attributes):
        words += [f"name={x(name)}"] * (name != b"" or at >= len(params))
        words.append(f"{kind}-{flags}={'ahead' if is_sent_ahead else param_word(kind, flags, value)}")
    return words


def execution(bound, capabilities):
    read = by("ComStmtExecute", describe_execution, bound_of(bound), capabilities)
    read.written = lambda content: written.execution(content, bound_of(bound), capabilities)
    return read


def bound_of(text):
    """The types of an earlier execution, and whether each parameter was sent ahead."""
    def one(word):
        kind = word.rstrip("+")
        return int(kind.rstrip("u")), 128 if kind.endswith("u") else 0, word.endswith("+")
    return [] if text == "()" else [one(word) for word in text.split(",")]


def binary_row(buf, columns, offset):
    buf.take(1)
    bits = int.from_bytes(buf.take((len(columns) + 7 + offset) // 8), "little") >> offset
    return ["N" if bits >> i & 1 else cell(buf, column) for i, column in enumerate(columns)]


def text_row(buf, columns):
    return [word_of(values.text_value(buf)) for _ in columns]


def bitmap(side, count):
    reader, offset = {"client": ("ClientBitmap", 0), "server": ("ServerBitmap", 2)}[side]

    def describe(content):
        bits = int.from_bytes(content, "little") >> offset
        return [f"bytes={x(content)}"] + [f"null={i}" for i in range(64) if bits >> i & 1]
    return by(reader, describe, int(count))


DESCRIBERS = {
    "stmt": lambda: by("StmtPacket", describe_stmt),
    "stmt_metadata": lambda caps: by("StmtPacketWithMetadata", describe_stmt_with_metadata, int(caps)),
    "com_close": lambda: by("ComStmtClose", lambda it: numbers(("stmt_id",), (it,))),
    "com_execute_head": lambda: by("ComStmtExecuteHead", describe_head),
    "com_execute": lambda bound: execution(bound, 0),
    "com_execute_attributes": lambda bound: execution(bound, QUERY_ATTRIBUTES),
    "com_long_data": lambda: by("ComStmtSendLongData", describe_long_data),
    "row": lambda columns: lambda buf: binary_row(buf, columns_of(columns), 2),
    "row_client": lambda columns: lambda buf: binary_row(buf, columns_of(columns), 0),
    "row_text": lambda columns: lambda buf: text_row(buf, columns_of(columns)),
    "row_text_client": lambda columns: lambda buf: text_row(buf, columns_of(columns)),
    "bitmap": bitmap,
}
