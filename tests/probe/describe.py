"""What the readings by the reference decoder share: fields as the words of an answer."""
import sys
from pathlib import Path

sys.path.insert(0, str(Path(__file__).resolve().parent.parent))

from reference_decoder.readers import READERS  # noqa: E402


def x(content):
    return "none" if content is None else "x" + content.hex()


def lossy(content):
    return "none" if content is None else x(content.decode("utf-8", "replace").encode())


def numbers(names, values):
    return [f"{name}={'none' if value is None else value}" for name, value in zip(names, values)]


class Described(list):
    """What is answered of a record, and the record."""

    record = None


def by(reader, describe, *context):
    def read(buf):
        record = READERS[reader](buf, *context)
        words = Described(describe(record))
        words.record = record
        return words
    read.reader = reader
    return read
