"""An exception for each code of enum myp_code that is a refusal."""
from typing import Dict, Optional, Type


class PacketError(Exception):
    """A call answered another code than MYP_OK. Nothing is changed by it."""

    text = "unknown code"

    def __init__(self, call: str, code: int, written: int = 0):
        super().__init__(f"{call}: {self.text}")
        self.call, self.code, self.written = call, code, written


class UnexpectedEof(PacketError):
    text = "the packet is truncated"


class InvalidData(PacketError):
    text = "the bytes are not a valid packet of this type"


class InvalidInput(PacketError):
    text = "an argument fits no packet"


class TooLarge(PacketError):
    text = "the total length overflows size_t"


class BufferTooSmall(PacketError):
    """`written` is how many bytes it takes."""

    text = "the buffer is too small"


class RowTooLarge(PacketError):
    text = "a row is too large for a request"


class OutOfRange(PacketError):
    text = "the number is out of range"


class Compressed(PacketError):
    text = "both sides agreed on compression"


class TooManyCommands(PacketError):
    text = "too many pipelined commands"


class InvalidValue(ValueError):
    """A value that can't be sent: nothing was written. `column` is its place in its row or among the parameters and `row` the place of its row,
    both counted from 0; None where there is none."""

    def __init__(self, reason: str, column: Optional[int] = None, row: Optional[int] = None):
        places = [f"{name} {at}" for name, at in (("row", row), ("column", column)) if at is not None]
        super().__init__(f"{', '.join(places)}: {reason}" if places else reason)
        self.reason, self.column, self.row = reason, column, row


NAMES: Dict[str, Type[PacketError]] = {
    "MYP_ERROR_UNEXPECTED_EOF": UnexpectedEof,
    "MYP_ERROR_INVALID_DATA": InvalidData,
    "MYP_ERROR_INVALID_INPUT": InvalidInput,
    "MYP_ERROR_TOO_LARGE": TooLarge,
    "MYP_ERROR_BUFFER_TOO_SMALL": BufferTooSmall,
    "MYP_ERROR_ROW_TOO_LARGE": RowTooLarge,
    "MYP_ERROR_OUT_OF_RANGE": OutOfRange,
    "MYP_ERROR_COMPRESSED": Compressed,
    "MYP_ERROR_TOO_MANY_COMMANDS": TooManyCommands,
}
