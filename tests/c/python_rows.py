#!/usr/bin/env python3
"""Random lists of rows, written in bulk by the Python package: ragged rows and values that can't be sent are refused by row and column before
anything is written; all others are read back from the requests by the reference decoder. The array that is passed to the library lies right
before a page that may not be touched.

python_rows.py [COUNT]    COUNT lists (10,000); MYSQL_PACKETS_PREFIX names where the library is installed
The last line is 'N passed, N failed', where a list is one."""
import ctypes
import datetime
import decimal
import enum
import mmap
import random
import struct
import sys
import uuid
from pathlib import Path

TOP = Path(__file__).resolve().parent.parent.parent
sys.path[:0] = [str(TOP / "examples/python"), str(TOP / "tests")]
import mysql_packets  # noqa: E402
from mysql_packets.values import Packed  # noqa: E402
from reference_decoder import statements  # noqa: E402
from reference_decoder.buf import Buf  # noqa: E402

PAGE = mmap.PAGESIZE
UTC = datetime.timezone.utc
LIBC = ctypes.CDLL(None, use_errno=True)


class Color(enum.Enum):
    RED = 1


def guarded(content):
    """These bytes right before a page that may neither be read nor written."""
    pages = -(-len(content) // PAGE)
    area = mmap.mmap(-1, (pages + 1) * PAGE)
    last = ctypes.addressof(ctypes.c_char.from_buffer(area)) + pages * PAGE
    if LIBC.mprotect(ctypes.c_void_p(last), PAGE, 0):
        raise OSError(ctypes.get_errno(), "mprotect")
    start = pages * PAGE - len(content)
    area[start : start + len(content)] = content
    return memoryview(area)[start : pages * PAGE]


def moment(chance):
    return datetime.datetime(chance.randrange(1, 9999), chance.randrange(1, 13), chance.randrange(1, 29), *(chance.choice([0, chance.randrange(top)]) for top in (24, 60, 60, 10**6)))


def span(chance):
    return chance.choice([1, -1]) * datetime.timedelta(chance.randrange(40), chance.randrange(86400), chance.randrange(10**6))


# values of a column of one kind
KINDS = [
    lambda it: it.choice([0, 1, -1, it.randrange(-(2**63), 2**63), True]),
    lambda it: it.choice([0, 2**64 - 1, it.randrange(2**64)]),
    lambda it: it.choice([0.0, it.random(), it.uniform(-1e300, 1e300), it.randrange(1000)]),
    lambda it: it.choice(["", "text", "é" * it.randrange(200), it.randbytes(it.randrange(300)), bytearray(b"ab")]),
    lambda it: it.choice([decimal.Decimal("12.50"), it.randrange(99), decimal.Decimal(it.randrange(10**6)).scaleb(-3)]),
    lambda it: it.choice([moment(it), moment(it).date()]),
    lambda it: moment(it).date(),
    lambda it: it.choice([span(it), moment(it).time()]),
    lambda it: uuid.UUID(int=it.randrange(2**128)),
]
# what stands for a value, and its indicator
CELLS = {mysql_packets.Cell.DEFAULT: 2, mysql_packets.Cell.IGNORE: 3}
# values that can't be sent, whatever stands beside them
REFUSED = [2**64, -(2**63) - 1, [1, 2], (1,), {}, object(), Color.RED, datetime.datetime(2024, 1, 1, tzinfo=UTC), datetime.time(1, tzinfo=UTC), 1j, "\ud800"]


def midnight(value):
    return value if isinstance(value, datetime.datetime) else datetime.datetime(value.year, value.month, value.day)


def expected(column):
    """What a reader of the request must find of a column's values."""
    values = [it for it in column if it is not None and not isinstance(it, mysql_packets.Cell)]
    if any(isinstance(it, float) for it in values):
        alone = lambda it: ("bits", int.from_bytes(struct.pack("<d", it), "little"))  # noqa: E731
    elif any(isinstance(it, decimal.Decimal) for it in values):
        alone = lambda it: str(it).encode()  # noqa: E731
    else:
        alone = expected_alone
    return [("cell", CELLS[it]) if isinstance(it, mysql_packets.Cell) else it if it is None else alone(it) for it in column]


def expected_alone(value):
    if isinstance(value, bytes):
        return value
    if isinstance(value, int):
        return ("number", int(value))
    if isinstance(value, datetime.date):
        date = midnight(value)
        return ("date", [date.year, date.month, date.day, date.hour, date.minute, date.second, date.microsecond])
    if isinstance(value, datetime.time):
        value = datetime.timedelta(hours=value.hour, minutes=value.minute, seconds=value.second, microseconds=value.microsecond)
    if isinstance(value, datetime.timedelta):
        whole = abs(value)
        return ("time", value < datetime.timedelta(), [whole.days, whole.seconds // 3600, whole.seconds // 60 % 60, whole.seconds % 60, whole.microseconds])
    return bytes(value) if isinstance(value, bytearray) else str(value).encode()


def found(requests, width):
    """The rows of requests, as the reference decoder reads them."""
    rows, types = [], []
    for request in requests:
        buf = Buf(request)
        (_, _, sent), answered = statements.bulk_head(buf, types or [(6, 0)] * width)
        types = answered if sent else types
        while buf.data:
            row = [statements.bulk_value(buf, *it) for it in types]
            rows.append([("cell", indicator) if indicator in CELLS.values() else value for indicator, value in row])
    return rows


def plain(value):
    return (value[0], *(list(it) if isinstance(it, (list, tuple)) else it for it in value[1:])) if isinstance(value, tuple) else value


def listed(chance):
    """A list of rows, and where it is refused: the row and the column, or none."""
    width, count = chance.randrange(1, 6), chance.randrange(1, 30)
    columns = []
    for _ in range(width):
        kind = chance.choice(KINDS)
        columns.append([chance.choice([None, *CELLS]) if chance.random() < 0.25 else kind(chance) for _ in range(count)])
    rows = [list(it) for it in zip(*columns)]
    fate = chance.random()
    if fate < 0.2 and count > 1:
        at = chance.randrange(1, count)
        rows[at] = rows[at][: chance.randrange(width)] if chance.random() < 0.5 else rows[at] + [1]
        return rows, (at, min(len(rows[at]), width))
    if fate < 0.4:
        row, column = chance.randrange(count), chance.randrange(width)
        rows[row][column] = chance.choice(REFUSED)
        return rows, (row, column)
    return rows, None


def main(count="10000"):
    Packed.allocate = staticmethod(guarded)
    session, chance, passed, failures = mysql_packets.Session(), random.Random(1), 0, []
    statement = mysql_packets.Statement(1, 0, 0, 0)
    for number in range(int(count)):
        rows, refused = listed(chance)
        try:
            requests, answer = list(session.write_bulk(statement, iter(rows), chance.choice([1 << 24, 8000]))), None
        except mysql_packets.InvalidValue as error:
            requests, answer = [], (error.row, error.column)
        except mysql_packets.RowTooLarge:
            passed += 1
            continue
        wanted = [] if refused else list(map(list, zip(*map(expected, zip(*rows)))))
        got = [[plain(it) for it in row] for row in found(requests, len(rows[0]))]
        if answer == refused and got == wanted:
            passed += 1
        elif len(failures) < 10:
            failures.append(f"list {number}: {rows}: {answer} {got[:2]}")
        else:
            failures.append("")
    for it in filter(None, failures):
        print(it[:1000])
    print(f"{passed} passed, {len(failures)} failed")
    return 1 if failures else 0


if __name__ == "__main__":
    sys.exit(main(*sys.argv[1:]))
