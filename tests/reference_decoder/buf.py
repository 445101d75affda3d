"""Bytes that are read from the front, and what is wrong with them."""


class Eof(Exception):
    """Bytes are missing."""


class Invalid(Exception):
    """The bytes spell nothing."""


class Buf:
    """Bytes that are read from the front."""

    def __init__(self, data):
        self.data = bytes(data)

    def take(self, n):
        if n > len(self.data):
            raise Eof
        front, self.data = self.data[:n], self.data[n:]
        return front

    def all(self):
        return self.take(len(self.data))

    def block(self, n):
        return Buf(self.take(n))

    def number(self, n):
        return int.from_bytes(self.take(n), "little")

    def lenenc(self):
        first = self.number(1)
        if first in (0xFB, 0xFF):
            raise Invalid
        return self.number({0xFC: 2, 0xFD: 3, 0xFE: 8}[first]) if first > 0xFA else first

    def string(self):
        return self.take(self.lenenc())

    def u8_string(self):
        return self.take(self.number(1))

    def null_string(self):
        if 0 not in self.data:
            raise Eof
        content = self.take(self.data.index(0))
        self.take(1)
        return content

    def varlen(self):
        if not self.data:
            raise Eof
        first = self.data[0]
        ones = next((k for k in range(8) if not first >> k & 1), 8)
        if ones == 8:
            self.take(1)
            return self.number(8)
        return self.number(ones + 1) >> (ones + 1)

    def const(self, content):
        if self.take(len(content)) != content:
            raise Invalid

    def code(self, codes):
        code = self.number(1)
        if code not in codes:
            raise Invalid
        return code


def to_the_end(buf, read):
    values = []
    while buf.data:
        values.append(read(buf))
    return values


def counted(buf, count, read):
    return [read(buf) for _ in range(count)]
