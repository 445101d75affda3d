"""Rows: many of one result are read by one reader, and many are written into the fewest bulk requests."""
import ctypes
from typing import Any, Iterable, Iterator, List, Sequence

from .errors import InvalidValue
from .records import BulkValue, Column, Row
from .values import LAYOUT, Packed, column_of


class RowReader:
    """Reads the rows of one result, in the text protocol or the binary one."""

    def __init__(self, library: Any, columns: Sequence[Column], is_binary: bool):
        self.library, count = library, len(columns)
        self.name = "myp_read_binary_row" if is_binary else "myp_read_text_row"
        places = bytearray(max(count, 1) * LAYOUT.size)
        self.values = (library.types["myp_value"] * max(count, 1)).from_buffer(places)
        self.view, self.used = memoryview(places)[: count * LAYOUT.size], ctypes.c_size_t()
        types = [library.new("myp_column_type", column_type=it.column_type, is_unsigned=int(it.is_unsigned)) for it in columns]
        self.types = [library.array("myp_column_type", types), count] if is_binary else []
        self.arguments = *self.types, self.values, count, ctypes.byref(self.used)

    def read(self, payload: bytes) -> Row:
        """The values of a row: of a text row a byte string each, or None."""
        start = ctypes.cast(ctypes.c_char_p(payload), ctypes.POINTER(ctypes.c_uint8))
        code = getattr(self.library.dll, self.name)(start, len(payload), *self.arguments)
        if code:
            raise self.library.refusal(self.name, code)
        return tuple(self.library.structs.read(self.view))


def of_one_length(rows: Iterable[Sequence[BulkValue]]) -> List[Sequence[BulkValue]]:
    """Rows in a list. InvalidValue for the first row that has not as many values as the first one."""
    listed = list(rows)
    for place, row in enumerate(listed):
        if len(row) != len(listed[0]):
            raise InvalidValue(f"a row of {len(row)} values, where the first has {len(listed[0])}", min(len(row), len(listed[0])), place)
    return listed


class BulkRows:
    """Rows that are written into bulk requests, and the types of their columns. InvalidValue if one can't be sent."""

    def __init__(self, library: Any, rows: Iterable[Sequence[BulkValue]]):
        listed = of_one_length(rows)
        self.library, self.columns = library, [column_of(it, place) for place, it in enumerate(zip(*listed))]
        types = [library.new("myp_column_type", column_type=getattr(library, f"MYP_TYPE_{it.type_name}"), is_unsigned=int(it.is_unsigned)) for it in self.columns]
        self.types, self.count = library.array("myp_column_type", types), len(listed)

    def requests(self, statement_id: int, limit: int) -> Iterator[bytes]:
        """The fewest requests of at most `limit` - 4 bytes with all rows."""
        width, done = len(self.columns), 0
        out, written, taken = (ctypes.c_uint8 * max(limit, 1))(), ctypes.c_size_t(), ctypes.c_size_t()
        packed = Packed(self.library.structs, [it.values for it in self.columns])
        pointer = ctypes.POINTER(self.library.types["myp_value"])
        while done < self.count:
            values = ctypes.cast(packed.address + done * width * LAYOUT.size, pointer)
            left = (self.count - done) * width
            code = self.library.dll.myp_write_bulk(statement_id, 0, limit, self.types, width, values, left, out, len(out), ctypes.byref(written), ctypes.byref(taken))
            if code:
                raise self.library.refusal("myp_write_bulk", code, written.value)
            yield ctypes.string_at(out, written.value)
            done += taken.value
