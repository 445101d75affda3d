"""Python values as a server takes them, the types of columns, and the `myp_value` structs of both."""
import ctypes
import datetime
import decimal
import enum
import struct
import uuid
from itertools import accumulate, chain
from typing import Any, Callable, Dict, List, NamedTuple, Sequence, Set, Tuple, Type, Union

from .errors import InvalidValue
from .records import Cell

# What a value is converted to before it is sent.
Sent = Union[None, int, float, bytes, decimal.Decimal, datetime.datetime, datetime.date, datetime.timedelta, Cell]
# These have no type of their own, and fit each.
UNTYPED: Set[Type[Any]] = {type(None), Cell}
# The fields of a myp_value, and their bytes.
FIELDS = ["kind", "is_negative", "month", "day", "hour", "minute", "second", "reserved", "micros", "days", "number", "bytes"]
LAYOUT = struct.Struct("<8BIIQQQ")
BITS = 2**64 - 1
EXACT = 2**53


def _text(value: str) -> bytes:
    try:
        return value.encode()
    except UnicodeEncodeError:
        raise InvalidValue("a str that is not valid Unicode") from None


def _whole(value: int) -> int:
    if not -(2**63) <= value < 2**64:
        raise InvalidValue("an int outside 64 bits")
    return int(value)


def _moment(value: datetime.datetime) -> datetime.datetime:
    if value.tzinfo is not None:
        raise InvalidValue("an aware datetime: convert it to the time zone of the session, and remove its tzinfo")
    if type(value) is datetime.datetime:
        return value
    return datetime.datetime(value.year, value.month, value.day, value.hour, value.minute, value.second, value.microsecond)


def _time(value: datetime.time) -> datetime.timedelta:
    if value.tzinfo is not None:
        raise InvalidValue("an aware time")
    return datetime.timedelta(hours=value.hour, minutes=value.minute, seconds=value.second, microseconds=value.microsecond)


def _day(value: datetime.date) -> datetime.date:
    return datetime.date(value.year, value.month, value.day)


def _span(value: datetime.timedelta) -> datetime.timedelta:
    return datetime.timedelta(value.days, value.seconds, value.microseconds)


# (a datetime is a date too, and a bool an int)
CONVERSIONS: List[Tuple[Any, Callable[[Any], Sent]]] = [
    (int, _whole), (float, float), (str, _text), ((bytes, bytearray, memoryview), bytes), (decimal.Decimal, decimal.Decimal),
    (datetime.datetime, _moment), (datetime.date, _day), (datetime.time, _time), (datetime.timedelta, _span), (uuid.UUID, lambda it: str(it).encode()),
]


def converted(value: Any) -> Sent:
    """A value as it is sent. A UUID is its text, and a time of day a span of time since midnight. Raises InvalidValue for an int outside 64 bits, an
    aware datetime or time, an Enum that is neither an int nor a str, and any other type."""
    if value is None:
        return None
    for kind, conversion in CONVERSIONS:
        if isinstance(value, kind):
            return conversion(value)
    if isinstance(value, Cell):
        raise InvalidValue(f"{value.name}, which a row of a bulk request alone takes")
    if isinstance(value, enum.Enum):
        raise InvalidValue("an Enum: pass its value")
    raise InvalidValue(f"a {type(value).__name__}")


class ColumnValues(NamedTuple):
    """The values of a column, and the type that all of them are sent as."""

    type_name: str
    is_unsigned: bool
    values: Sequence[Sent]


def column_of(values: Sequence[Any], column: int) -> ColumnValues:
    """The values of a column as they are sent, under one type.

    Ints and floats together are sent as DOUBLE, a Decimal and numbers beside it as text, and dates and datetimes together as DATETIME. Raises
    InvalidValue, with row and column, for a value that no type has together with those before it."""
    kinds: Set[Type[Any]] = {type(it) for it in values} - UNTYPED
    if kinds == {float}:
        return ColumnValues("DOUBLE", False, values)
    if kinds and kinds <= {str, bytes}:
        try:
            return ColumnValues("VAR_STRING", False, [it.encode() if type(it) is str else it for it in values])
        except UnicodeEncodeError:
            pass
    sent: List[Sent] = []
    for row, it in enumerate(values):
        try:
            sent.append(it if isinstance(it, Cell) else converted(it))
        except InvalidValue as error:
            raise InvalidValue(error.reason, column, row) from None
    return _unified(sent, column)


def _unified(sent: List[Sent], column: int) -> ColumnValues:
    kinds: Set[Type[Any]] = {type(it) for it in sent} - UNTYPED
    if kinds == {int}:
        return _integers(sent, column)
    if kinds <= {int, float} and kinds:
        return ColumnValues("DOUBLE", False, [_float(it, column, row) for row, it in enumerate(sent)])
    if kinds <= {int, float, decimal.Decimal} and kinds:
        return ColumnValues("VAR_STRING", False, [it if type(it) in UNTYPED else str(it).encode() for it in sent])
    if kinds <= {datetime.date, datetime.datetime} and len(kinds) == 2:
        return ColumnValues("DATETIME", False, [_midnight(it) for it in sent])
    names: Dict[Type[Any], str] = {bytes: "VAR_STRING", datetime.date: "DATE", datetime.datetime: "DATETIME", datetime.timedelta: "TIME"}
    if len(kinds) <= 1:
        kind = next(iter(kinds), bytes)
        return ColumnValues(next((name for it, name in names.items() if kind is it), "VAR_STRING"), False, sent)
    first = next(type(it) for it in sent if type(it) not in UNTYPED)
    row = next(row for row, it in enumerate(sent) if type(it) not in UNTYPED and type(it) is not first)
    raise InvalidValue(f"a {type(sent[row]).__name__} in a column of {first.__name__}", column, row)


def _integers(sent: List[Sent], column: int) -> ColumnValues:
    """BIGINT, unsigned if a value is 2**63 or more."""
    is_unsigned = any(isinstance(it, int) and it >= 2**63 for it in sent)
    row = next((row for row, it in enumerate(sent) if is_unsigned and isinstance(it, int) and it < 0), None)
    if row is not None:
        raise InvalidValue("a negative int in a column that has one of 2**63 or more", column, row)
    return ColumnValues("LONGLONG", is_unsigned, sent)


def _float(value: Any, column: int, row: int) -> Union[None, float, Cell]:
    if isinstance(value, int) and abs(value) > EXACT:
        raise InvalidValue("an int in a column of floats that no float equals", column, row)
    return value if type(value) in UNTYPED else float(value)


def _midnight(value: Sent) -> Sent:
    if isinstance(value, datetime.date) and not isinstance(value, datetime.datetime):
        return datetime.datetime(value.year, value.month, value.day)
    return value


class Packed:
    """Values as an array of myp_value, and the bytes that it points to."""

    # (tests place it before a page that may not be touched)
    allocate: Callable[[bytes], Any] = bytearray

    def __init__(self, of: "Structs", columns: Sequence[Sequence[Sent]]):
        self.held: List[bytes] = []
        packed = [self._column(of, it) for it in columns]
        self.array = self.allocate(b"".join(chain.from_iterable(zip(*packed))) or bytes(LAYOUT.size))
        self.count = sum(map(len, packed))
        self.address = ctypes.addressof(ctypes.c_uint8.from_buffer(self.array))

    def _column(self, of: "Structs", values: Sequence[Sent]) -> List[bytes]:
        if not any(isinstance(it, bytes) for it in values):
            return [of.pack(it) for it in values]
        content = b"".join(it for it in values if isinstance(it, bytes))
        self.held.append(content)
        at = ctypes.cast(ctypes.c_char_p(content), ctypes.c_void_p).value or 0
        places = accumulate((len(it) if isinstance(it, bytes) else 0 for it in values), initial=at)
        return [of.pack_bytes(place, len(it)) if isinstance(it, bytes) else of.pack(it) for place, it in zip(places, values)]


class Structs:
    """How this library lays out a myp_value."""

    def __init__(self, numbers: Dict[str, int], struct_type: Any):
        if [name for name, _ in struct_type._fields_] != FIELDS or ctypes.sizeof(struct_type) != LAYOUT.size:
            raise ImportError("the header has another myp_value than this package")
        self.kinds = {name: numbers[f"MYP_VALUE_{name}"] for name in ("NULL", "BYTES", "INT", "UINT", "FLOAT", "DOUBLE", "DATE", "TIME", "DATE_WITH_OFFSET", "DEFAULT", "IGNORE")}
        self.null = self._packed("NULL")
        self.readers: Dict[int, Callable[..., Any]] = {
            self.kinds["NULL"]: lambda *it: None,
            self.kinds["BYTES"]: lambda *it: ctypes.string_at(it[11], it[12]) if it[12] else b"",
            self.kinds["INT"]: lambda *it: it[10] - (it[10] >> 63 << 64),
            self.kinds["UINT"]: lambda *it: it[10],
            self.kinds["FLOAT"]: lambda *it: struct.unpack("<f", it[10].to_bytes(4, "little"))[0],
            self.kinds["DOUBLE"]: lambda *it: struct.unpack("<d", it[10].to_bytes(8, "little"))[0],
            self.kinds["DATE"]: _date_read, self.kinds["DATE_WITH_OFFSET"]: _offset_read, self.kinds["TIME"]: _time_read,
        }

    def _packed(self, kind: str, number: int = 0, negative: int = 0, month: int = 0, day: int = 0, hour: int = 0, minute: int = 0, second: int = 0,
                micros: int = 0, days: int = 0) -> bytes:
        return LAYOUT.pack(self.kinds[kind], negative, month, day, hour, minute, second, 0, micros, days, number, 0, 0)

    def pack_bytes(self, address: int, length: int) -> bytes:
        return LAYOUT.pack(self.kinds["BYTES"], 0, 0, 0, 0, 0, 0, 0, 0, 0, 0, address, length)

    def pack(self, value: Sent) -> bytes:
        """A converted value that is not bytes."""
        if value is None:
            return self.null
        if isinstance(value, Cell):
            return self._packed(value.name)
        if isinstance(value, int):
            return self._packed("INT" if value < 2**63 else "UINT", value & BITS)
        if isinstance(value, float):
            return self._packed("DOUBLE", int.from_bytes(struct.pack("<d", value), "little"))
        if isinstance(value, datetime.datetime):
            return self._packed("DATE", 0, 0, value.month, value.day, value.hour, value.minute, value.second, value.microsecond, value.year)
        if isinstance(value, datetime.date):
            return self._packed("DATE", month=value.month, day=value.day, days=value.year)
        assert isinstance(value, datetime.timedelta)
        whole = abs(value)
        minutes, second = divmod(whole.seconds, 60)
        return self._packed("TIME", 0, int(value < datetime.timedelta()), 0, 0, minutes // 60, minutes % 60, second, whole.microseconds, whole.days)

    def read(self, values: Any) -> List[Any]:
        """The contents of structs, in order, of a buffer of them."""
        readers = self.readers
        return [readers[it[0]](*it) for it in LAYOUT.iter_unpack(values)]


def _date_read(*it: int) -> Any:
    """A datetime, or a text where there is no such date, as of the year 0."""
    _, _, month, day, hour, minute, second, _, micros, year = it[:10]
    try:
        return datetime.datetime(year, month, day, hour, minute, second, micros)
    except ValueError:
        return "%04d-%02d-%02d %02d:%02d:%02d.%06d" % (year, month, day, hour, minute, second, micros)


def _offset_read(*it: int) -> Any:
    """An aware datetime, or a text where there is no such date or offset."""
    date, minutes = _date_read(*it), it[10] - (it[10] >> 63 << 64)
    if isinstance(date, datetime.datetime) and abs(minutes) < 24 * 60:
        return date.replace(tzinfo=datetime.timezone(datetime.timedelta(minutes=minutes)))
    return f"{date}{'-' if minutes < 0 else '+'}{abs(minutes) // 60:02}:{abs(minutes) % 60:02}"


def _time_read(*it: int) -> datetime.timedelta:
    of = datetime.timedelta(it[9], hours=it[4], minutes=it[5], seconds=it[6], microseconds=it[8])
    return -of if it[1] else of
