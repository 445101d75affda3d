#!/usr/bin/env python3
"""Holds what the rows `bulk .. columns=..` of tests/vectors/program/bulk.txt want to the reference decoder: the requests hold, value by
value, the rows of the input that they are asked for, under the types that they send.

What the program answers is held to these rows by vectors.py. The last line is 'N passed, N failed', where a row is one."""
import sys

from lines import summary, vectors
import describe  # noqa: F401  (it finds the reference decoder)

from reference_decoder import statements
from reference_decoder.buf import Buf
from reference_decoder.codes import UNSIGNED

INDICATORS = {1: "N", 2: "D", 3: "I"}


def word_of(indicator, column_type, value):
    """The word that spells what was read: of a number it is the number."""
    if indicator:
        return INDICATORS[indicator]
    if isinstance(value, bytes):
        return f"b{value.hex()}"
    kind, held = value[0], value[1:]
    if kind == "number":
        return held[0]
    if kind == "bits":
        return f"f{held[0]:08x}" if column_type == 4 else f"d{held[0]:016x}"
    if kind == "date":
        return "y{:04}-{:02}-{:02}T{:02}:{:02}:{:02}.{:06}".format(*held[0])
    return "t{}{}T{:02}:{:02}:{:02}.{:06}".format("-" if held[0] else "", *held[1])


def columns_of(request):
    words = request.split("columns=")[1].split(" ")[0].split(",")
    return [(int(it.rstrip("u")), UNSIGNED if it.endswith("u") else 0) for it in words]


def asked(request):
    """The words of the rows of the input; numbers are compared by their value."""
    lines = request.split(" < ")[1].removesuffix("/").split("/") if " < " in request else []
    return [[int(it[1:]) if it[0] in "iu" else it for it in line.split(" ")] for line in lines]


def answered(request, wanted):
    columns, rows = columns_of(request), []
    for name, value in zip(wanted, wanted[1:]):
        if name != "request:":
            continue
        buf = Buf(bytes.fromhex(value.rstrip(";")))
        (_, _, types), _ = statements.bulk_head(buf, columns)
        if types and [(code, UNSIGNED if flags & 128 else 0) for code, flags in types] != columns:
            return None
        while buf.data:
            rows.append([(indicator, code, value) for code, flags in columns for indicator, value in [statements.bulk_value(buf, code, flags)]])
    return [[word_of(*it) for it in row] for row in rows]


def main():
    rows = [it for it in vectors("program") if it.request.startswith("bulk ") and " columns=" in it.request and it.wanted[:2] == ["status", "0;"]]
    failures = [f"{it.request}\n  {answered(it.request, it.wanted)}\n  is not\n  {asked(it.request)}" for it in rows
                if answered(it.request, it.wanted) != asked(it.request)]
    return summary("bulk", len(rows) - len(failures), failures)


if __name__ == "__main__":
    sys.exit(main())
