"""What is shown of values and of bulk requests, by the reference decoder."""
import describe  # noqa: F401  (it finds the reference decoder)

from reference_decoder import codes, statements, values
from reference_decoder.buf import Buf, Invalid

from describe import x


def word_of(value, unsigned=False):
    """A binary value as a word."""
    if value is None:
        return "N"
    if isinstance(value, bytes):
        return x(value)
    kind, *rest = value
    if kind == "number":
        return ("u" if unsigned else "i") + str(rest[0])
    if kind == "bits":
        return rest[0]
    if kind == "date":
        return "D" + "-".join(map(str, rest[0])) + "".join(f"{it:+}" for it in rest[1:])
    negative, fields = rest
    return f"T{int(negative)}-" + "-".join(map(str, fields))


def param_word(kind, flags, value):
    """The value of a parameter or an attribute of that type."""
    if value is not None and kind in (4, 5):
        return ("f" if kind == 4 else "d") + str(value[1])
    return word_of(value, bool(flags & 128) and kind == 8)


def column_of(word):
    return int(word.removesuffix("u")), codes.UNSIGNED if word.endswith("u") else 0


def columns_of(text):
    return [] if text == "()" else [column_of(it) for it in text.split(",")]


def cell(buf, column):
    """A value of a column, as a word."""
    kind, flags = column
    value = values.bin_value(buf, kind, flags)
    if kind in (4, 5):
        return ("f" if kind == 4 else "d") + str(value[1])
    # (narrower numbers fit the signed one)
    return word_of(value, bool(flags) and kind == 8)


def size_of(word):
    """How many bytes the value of a word has in its binary form."""
    kind, parts = word[0], word[1:].split("-")
    if kind == "x":
        size = len(word) // 2
        return size + (1 if size < 251 else 3 if size < 65536 else 4 if size < 1 << 24 else 9)
    if kind in "DT":
        day, clock, micros = parts[:3] if kind == "D" else parts[1:2], parts[-4:-1], parts[-1:]
        sizes = zip((5, 8, 12) if kind == "D" else (9, 9, 13), (day, clock, micros))
        return max((size for size, part in sizes if any(map(int, part))), default=1)
    return {"N": 0, "f": 4}.get(kind, 8)


def value(buf, column):
    word = cell(buf, column)
    return [word, f"bin_len={size_of(word)}"]


def text_value(buf):
    word = word_of(values.text_value(buf))
    return [word, f"bin_len={size_of(word)}"]


def bulk_type(buf):
    kind, flags = statements.bulk_type(buf)
    return [f"type={kind}", f"flags={flags}"]


def bulk_cell(buf, column):
    """The indicator of a value, and its word."""
    indicator = buf.code(range(4))
    return indicator, cell(buf, column) if indicator == 0 else "N"


def bulk_value(buf, column):
    indicator, word = bulk_cell(buf, column)
    return [f"indicator={indicator}", f"value={word}"]


def bulk_head(buf, columns):
    buf.const(b"\xfa")
    head = [f"stmt_id={buf.number(4)}"]
    flags = buf.number(2)
    # (all of their bytes have to be there before one is looked at)
    sent = Buf(buf.take(2 * len(columns))) if flags & 128 else None
    types = [statements.bulk_type(sent) for _ in columns] if sent else []
    answered = [(code, codes.UNSIGNED if sent & 128 else 0) for code, sent in types] or columns
    return head + [f"bulk_flags={flags}"] + [word for code, sent in types for word in (f"type={code}", f"flags={sent}")], answered


def bulk(buf, columns):
    head, answered = bulk_head(buf, columns)
    cells = [bulk_cell(buf, it) for it in answered]
    row, indicators = ",".join(word for _, word in cells) or "()", "".join(str(it) for it, _ in cells)
    return head + [f"values={row}", f"indicators={indicators}."]


def bulk_rows(buf, columns):
    _, answered = bulk_head(buf, columns)
    rows = []
    while buf.data:
        before = len(buf.data)
        rows.append("values=" + ",".join(bulk_cell(buf, it)[1] for it in answered))
        if len(buf.data) == before:
            raise Invalid
    return rows


DESCRIBERS = {
    "value_text": lambda: text_value,
    "value": lambda column: lambda buf: value(buf, column_of(column)),
    "cell": lambda column: lambda buf: [cell(buf, column_of(column))],
    "param_type": lambda: bulk_type,
    "bulk_type": lambda: bulk_type,
    "bulk_value": lambda column: lambda buf: bulk_value(buf, column_of(column)),
    "bulk_values": lambda columns: lambda buf: [word for it in columns_of(columns) for word in bulk_value(buf, it)],
    "bulk": lambda columns: lambda buf: bulk(buf, columns_of(columns)),
    "bulk_rows": lambda columns: lambda buf: bulk_rows(buf, columns_of(columns)),
}
