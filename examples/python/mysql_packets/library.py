"""The packets library for C, called from Python by ctypes.

What mysql_packets.h declares is made from the header as it is read: a ctypes structure of each struct, a number of each enum
value, a function of each call. So this file names no field and no number of its own.

    packets = Library("/usr/local")
    ok = packets.read("myp_read_ok", payload, packets.MYP_OK_COMMON, capabilities, into="myp_ok")
    payload = packets.write("myp_write_close", statement_id)
"""
import ctypes
import decimal
import os
import re
import sys
from pathlib import Path
from typing import Any, Dict, Iterable, Iterator, List, Optional, Sequence, Tuple, Union

from .errors import NAMES, InvalidValue, PacketError
from .records import Value
from .values import Packed, Sent, Structs, converted

Content = bytes  # (a method of Library has that name)
Location = Union[str, "os.PathLike[str]"]
NUMBERS: Dict[str, Any] = {
    "uint8_t": ctypes.c_uint8, "uint16_t": ctypes.c_uint16, "uint32_t": ctypes.c_uint32, "uint64_t": ctypes.c_uint64,
    "size_t": ctypes.c_size_t, "int64_t": ctypes.c_int64, "double": ctypes.c_double,
}
# a comment, a struct, an enum, a call
COMMENT = re.compile(r"/\*.*?\*/", re.S)
STRUCT = re.compile(r"typedef struct (\w+) \{(.*?)\} \1;", re.S)
ENUM = re.compile(r"enum \w+ \{(.*?)\};", re.S)
MACRO = re.compile(r"^#define (MYP_\w+) (0x[0-9a-f]+)u$", re.M)
CALL = re.compile(r"^(?:MYP_MUST_CHECK )?uint32_t (myp_\w+)\(([^)]*)\);", re.M)
DECLARED = re.compile(r"(?:const )?(\w+) (\**)(\w+)(?:\[(\d+)\])?$")


def found(prefix: Optional[Location] = None) -> Tuple[Path, Path]:
    """The shared library and its header: under the prefix that is given or named by MYSQL_PACKETS_PREFIX, beside this file, or where
    Python, or a system, has its libraries."""
    beside = Path(__file__).parent
    named = prefix or os.environ.get("MYSQL_PACKETS_PREFIX")
    if not named and (beside / "mysql_packets.h").exists():
        return next(beside.glob("libmysql_packets.so*")), beside / "mysql_packets.h"
    for it in map(Path, [named] if named else [sys.prefix, "/usr/local", "/usr"]):
        for library in [it / "lib/libmysql_packets.so", *it.glob("lib/*/libmysql_packets.so")]:
            if library.exists():
                return library, it / "include/mysql_packets.h"
    raise ImportError("libmysql_packets.so is not found: pass the prefix of mypackets-c, or name it in MYSQL_PACKETS_PREFIX")


def declared(text: str) -> Tuple[str, str, str, Optional[str]]:
    """The type of a declaration, its stars, its name, and the size of an array."""
    it = DECLARED.match(text)
    if not it:
        raise ImportError(f"the header has a declaration that this package does not read: {text}")
    return it[1], it[2], it[3], it[4]


class Library:
    """The library that is installed under a prefix, or found."""

    def __init__(self, prefix: Optional[Location] = None, library: Optional[Location] = None, header: Optional[Location] = None):
        if not (library and header):
            where = found(prefix)
            library, header = library or where[0], header or where[1]
        text = COMMENT.sub("", Path(header).read_text())
        self.dll = ctypes.CDLL(str(library))
        self.types = dict(NUMBERS)
        self.calls: Dict[str, List[str]] = {}
        self.numbers: Dict[str, int] = {}
        for name, value in MACRO.findall(text):
            self.numbers[name] = int(value, 16)
        for body in ENUM.findall(text):
            self._number(body)
        for name, body in STRUCT.findall(text):
            fields = [field for line in body.split(";") if line.strip() for field in self._fields(line)]
            self.types[name] = type(name, (ctypes.Structure,), {"_fields_": fields})
        for name, arguments in CALL.findall(text):
            of = [self._argument(it) for it in arguments.split(",") if it.strip() != "void"]
            function = getattr(self.dll, name)
            function.argtypes, function.restype = [it for _, it in of], ctypes.c_uint32
            self.calls[name] = [it for it, _ in of]
        if self.dll.myp_version() != self.MYP_VERSION:
            raise ImportError("the library and its header have different versions")
        self.structs = Structs(self.numbers, self.types["myp_value"])

    def __getattr__(self, name: str) -> int:
        try:
            numbers: Dict[str, int] = self.__dict__["numbers"]
            return numbers[name]
        except KeyError:
            raise AttributeError(name) from None

    def _number(self, body: str) -> None:
        """The values of an enum: each is the one before it and 1, where none is written."""
        value = -1
        for part in body.split(","):
            if part.strip():
                name, _, given = part.partition("=")
                shifted = [int(it, 0) for it in given.split("<<")] if given.strip() else [value + 1]
                value = shifted[0] << shifted[1] if len(shifted) == 2 else shifted[0]
                self.numbers[name.strip()] = value

    def _fields(self, line: str) -> Iterator[Tuple[str, Any]]:
        """The fields of a line of a struct: one type, and names with commas between them."""
        first, *more = [it.strip() for it in line.strip().split(",")]
        of, stars, name, size = declared(first)
        kind: Any = ctypes.POINTER(self.types[of]) if stars else self.types[of]
        for it in [name + (f"[{size}]" if size else ""), *more]:
            array = re.fullmatch(r"(\w+)\[(\d+)\]", it)
            yield (array[1], kind * int(array[2])) if array else (it, kind)

    def _argument(self, text: str) -> Tuple[str, Any]:
        of, stars, name, _ = declared(" ".join(text.split()))
        return name, ctypes.POINTER(self.types[of]) if stars else self.types[of]

    def bytes(self, content: Content) -> Any:
        """A byte string as a `myp_bytes`, which keeps the bytes that it points to."""
        held = ctypes.create_string_buffer(content, len(content) + 1)
        it = self.types["myp_bytes"](ctypes.cast(held, ctypes.POINTER(ctypes.c_uint8)), len(content))
        it.held = held
        return it

    def new(self, name: str, /, **fields: Any) -> Any:
        """A struct with these fields: numbers, byte strings, and lists of structs, beside which `n_FIELD` is set. Each other
        byte string is empty."""
        it = self.types[name]()
        it.held = []
        for field, kind in it._fields_:
            value = fields.pop(field, b"" if kind is self.types["myp_bytes"] else None)
            if isinstance(value, bytes) and kind is self.types["myp_bytes"]:
                value = self.bytes(value)
            elif isinstance(value, bytes):
                value = kind(*value)
            elif isinstance(value, list):
                it.held.append(value)
                setattr(it, f"n_{field}", len(value))
                value = self.array(kind._type_, value)
            if value is not None:
                it.held.append(value)
                setattr(it, field, value)
        if fields:
            raise TypeError(f"{name} has no {', '.join(fields)}")
        return it

    def refer(self, it: Any) -> Any:
        """What is passed for an output parameter."""
        return ctypes.byref(it)

    def array(self, kind: Any, items: Sequence[Any]) -> Any:
        kind = self.types.get(kind, kind)
        it = (kind * max(len(items), 1))(*items)
        it.held = items
        return it

    def text(self, span: Any) -> Content:
        """The bytes that a `myp_bytes` stands for."""
        return ctypes.string_at(span.data, span.len) if span.len else b""

    def refusal(self, call: str, code: int, written: int = 0) -> PacketError:
        """The exception of a code."""
        kind = next((it for name, it in NAMES.items() if self.numbers[name] == code), PacketError)
        return kind(call, code, written)

    def read(self, call: str, packet: Content, *context: Any, into: str) -> Any:
        """What a reader gives of a packet: a struct, or the number or byte string that it hands out."""
        payload = self.bytes(packet)
        out = self.new(into) if into not in NUMBERS and into != "myp_bytes" else self.bytes(b"") if into == "myp_bytes" else NUMBERS[into]()
        code = getattr(self.dll, call)(payload.data, payload.len, *context, ctypes.byref(out))
        if code:
            raise self.refusal(call, code)
        out.packet = payload
        return out

    def next(self, call: str, rest: Any, *out: Any, given: Sequence[Any] = ()) -> bool:
        """Whether another one stood at the front of `rest`, which then begins after it."""
        code: int = getattr(self.dll, call)(ctypes.byref(rest), *given, *(ctypes.byref(it) for it in out))
        if code not in (self.MYP_OK, self.MYP_END):
            raise self.refusal(call, code)
        return code == self.MYP_OK

    def converted(self, values: Iterable[Value]) -> List[Sent]:
        """Parameters as they are sent: None, numbers, bytes, dates and spans of time. InvalidValue if one can't be."""
        sent: List[Sent] = []
        for place, value in enumerate(values):
            try:
                it = converted(value)
            except InvalidValue as error:
                raise InvalidValue(error.reason, place) from None
            sent.append(str(it).encode() if isinstance(it, decimal.Decimal) else it)
        return sent

    def packed(self, values: Sequence[Sent]) -> Any:
        """Converted values as an array of `myp_value`, which keeps what it points to."""
        packed = Packed(self.structs, [[it] for it in values])
        it = (self.types["myp_value"] * packed.count).from_buffer(packed.array)
        it.held = packed
        return it

    def parameters(self, values: Sequence[Sent], types: Sequence[Optional[str]] = (), names: Sequence[Content] = ()) -> Any:
        """Converted values as an array of `myp_parameter`: each of the type of its kind, or of one that is named."""
        packed = self.packed(values)
        parameters = [self.types["myp_parameter"](value=value) for value in packed[: len(values)]]
        for place, (it, named) in enumerate(zip(parameters, types)):
            if named is not None:
                name, _, sign = named.partition(" ")
                if f"MYP_TYPE_{name}" not in self.numbers or sign not in ("", "UNSIGNED"):
                    raise InvalidValue(f"{named}, which is no type", place)
                it.has_type, it.column_type, it.is_unsigned = 1, self.numbers[f"MYP_TYPE_{name}"], int(bool(sign))
        held = [self.bytes(it) for it in names]
        for it, of in zip(parameters, held):
            it.name = of
        it = self.array("myp_parameter", parameters)
        it.held_values = packed, held
        return it

    def value(self, value: Value) -> Any:
        """A value as a `myp_value`. InvalidValue if it can't be sent."""
        return self.packed(self.converted([value]))[0]

    def content(self, value: Any) -> Any:
        """What a `myp_value` is in Python. A date that is none is a text."""
        return self.structs.read(bytes(value))[0]

    def write(self, call: str, *arguments: Any, size: int = 512, after: Sequence[Any] = ()) -> Content:
        """What a writer writes, into a buffer that grows once where it is too small. A struct is handed in as its place, and
        a byte string as its bytes and their count."""
        flat: List[Any] = []
        for it in arguments:
            if isinstance(it, bytes):
                it = self.bytes(it)
                flat += [it.data, it.len]
            elif isinstance(it, ctypes.Array):
                held: Any = getattr(it, "held", None)
                flat += [it, len(held) if isinstance(held, list) else len(it)]
            else:
                flat.append(ctypes.byref(it) if isinstance(it, ctypes.Structure) else it)
        while True:
            out, written = (ctypes.c_uint8 * size)(), ctypes.c_size_t()
            code = getattr(self.dll, call)(*flat, out, size, ctypes.byref(written), *(ctypes.byref(it) for it in after))
            if code != self.MYP_ERROR_BUFFER_TOO_SMALL:
                break
            size = written.value
        if code:
            raise self.refusal(call, code, written.value)
        return ctypes.string_at(out, written.value)
