"""What the test server has to say: values of each type, with what a client must show of them, and its answers to commands."""
from dataclasses import dataclass


@dataclass(frozen=True)
class Cell:
    """A value of a column: the column's name, type and flags, the fields of its `myp_value`, and its text."""

    name: str
    type: str
    text: bytes
    value: dict
    flags: tuple = ()
    character_set: int = 63


def number(name, type_, n, unsigned=False):
    # (a narrower number fits the signed one)
    kind = "MYP_VALUE_UINT" if unsigned and type_ == "MYP_TYPE_LONGLONG" else "MYP_VALUE_INT"
    return Cell(name, type_, str(n).encode(), {"kind": kind, "number": n & (2**64 - 1)}, ("MYP_COLUMN_FLAG_UNSIGNED",) if unsigned else ())


def string(name, type_, content, character_set=45, flags=()):
    return Cell(name, type_, content, {"kind": "MYP_VALUE_BYTES", "bytes": content}, flags, character_set)


def date(name, type_, text, **fields):
    return Cell(name, type_, text, {"kind": "MYP_VALUE_DATE", **fields}, ("MYP_COLUMN_FLAG_BINARY",))


def time(name, text, **fields):
    return Cell(name, "MYP_TYPE_TIME", text, {"kind": "MYP_VALUE_TIME", **fields}, ("MYP_COLUMN_FLAG_BINARY",))


CELLS = [
    number("tiny", "MYP_TYPE_TINY", -128), number("tiny_u", "MYP_TYPE_TINY", 255, True),
    number("short", "MYP_TYPE_SHORT", -32768), number("short_u", "MYP_TYPE_SHORT", 65535, True),
    number("medium", "MYP_TYPE_INT24", -8388608), number("medium_u", "MYP_TYPE_INT24", 16777215, True),
    number("long", "MYP_TYPE_LONG", -2147483648), number("long_u", "MYP_TYPE_LONG", 4294967295, True),
    number("big", "MYP_TYPE_LONGLONG", -9223372036854775808), number("big_u", "MYP_TYPE_LONGLONG", 18446744073709551615, True),
    number("year", "MYP_TYPE_YEAR", 1999, True),
    Cell("single", "MYP_TYPE_FLOAT", b"-1.5", {"kind": "MYP_VALUE_FLOAT", "number": 0xBFC00000}),
    Cell("double", "MYP_TYPE_DOUBLE", b"0.25", {"kind": "MYP_VALUE_DOUBLE", "number": 0x3FD0000000000000}),
    string("decimal", "MYP_TYPE_NEWDECIMAL", b"-12345678901234567890.0123456789", 63),
    date("day", "MYP_TYPE_DATE", b"2024-02-29", days=2024, month=2, day=29),
    date("moment", "MYP_TYPE_DATETIME", b"2024-02-29 23:59:58.000123", days=2024, month=2, day=29, hour=23, minute=59, second=58, micros=123),
    date("stamp", "MYP_TYPE_TIMESTAMP", b"1999-12-31 01:02:03", days=1999, month=12, day=31, hour=1, minute=2, second=3),
    time("span", b"-26:03:04", is_negative=1, days=1, hour=2, minute=3, second=4),
    string("name", "MYP_TYPE_VAR_STRING", "h\u00e4 \u6587".encode()),
    string("fixed", "MYP_TYPE_STRING", b""),
    string("long_text", "MYP_TYPE_BLOB", b"t" * 70000),
    string("bytes", "MYP_TYPE_BLOB", b"\x00\xff\xfe\xfb\x01", 63, ("MYP_COLUMN_FLAG_BINARY", "MYP_COLUMN_FLAG_BLOB")),
    Cell("nothing", "MYP_TYPE_LONG", None, {"kind": "MYP_VALUE_NULL"}),
]
NAME = next(it for it in CELLS if it.name == "name")
# what the statement `update` answers, and the error of `fail`
UPDATED = {"affected_rows": 3, "last_insert_id": 70000, "warnings": 2, "info": b"Rows matched: 5  Changed: 3  Warnings: 2"}
CHANGES = [("MYP_SESSION_TRACK_SYSTEM_VARIABLES", b"\x0aautocommit\x03OFF"), ("MYP_SESSION_TRACK_SCHEMA", b"\x05other")]
ERROR = {"code": 1146, "sql_state": b"42S02", "message": b"Table 'live.nothing_here' doesn't exist"}
USER, PASSWORD, SCHEMA = b"tester", b"secret", b"served"
# the texts of the parameters that the client over libmariadb sends, which are sent back
PARAMETERS = [b"-5", b"65535", b"-70000", b"18446744073709551615", b"-1.5", b"0.25", b"2024-02-29", b"2024-02-29 23:59:58", b"-26:03:04", b"a\0b", None,
              b"sent ahead"]
