"""The words for captured values: what an API reported of rows, and what was handed in for bulk executions.

They are the probe's words, except for an integer, which is a number after an n; '-' stands for a value of which nothing is known."""
import re
import struct

UNREPORTED = "-"
INTEGERS = {1, 2, 3, 8, 9, 13}
DATES = {7, 10, 12}


def date(shown):
    """The fields of YEAR-MONTH-DAY HOUR:MINUTE:SECOND.MICROS, the later of which may lack."""
    fields = [int(it) for it in re.split(r"[-: ]", shown.partition(".")[0])]
    micros = int((shown.partition(".")[2] + "000000")[:6])
    return "D" + "-".join(str(it) for it in [*fields, *[0] * (6 - len(fields)), micros])


def time(shown):
    """The fields of -HOURS:MINUTES:SECONDS.MICROS, whose hours may be days."""
    hours, minutes, seconds = (int(it) for it in shown.lstrip("-").partition(".")[0].split(":"))
    micros = int((shown.partition(".")[2] + "000000")[:6])
    fields = [int(shown.startswith("-")), hours // 24, hours % 24, minutes, seconds, micros]
    return "T" + "-".join(str(it) for it in fields)


def bin_value(kind, reported, content):
    """The word for a binary value of a column's type, from what an API reported, as itself and as bytes."""
    if kind in INTEGERS:
        year = kind == 13 and "-" in str(reported)
        return "n" + str(int(content.decode().partition("-")[0] if year else content))
    if kind == 4:
        return "f" + str(struct.unpack("<I", struct.pack("<f", float(reported)))[0])
    if kind == 5:
        return "d" + str(struct.unpack("<Q", struct.pack("<d", float(reported)))[0])
    if kind in DATES:
        return date(content.decode())
    if kind == 11:
        return time(content.decode())
    if kind == 16:  # bits, which the APIs report as a number without their width
        return UNREPORTED
    return "x" + content.hex()


def bin_word(kind, reported, encoding):
    if reported is None:  # Connector/J reports the dates of zeros as null too
        return UNREPORTED if kind in DATES and encoding == "JDBC getString" else "N"
    if not isinstance(reported, str):
        content = str(reported).encode()
    elif encoding == "PHP native, strings as hex":
        content = bytes.fromhex(reported)
    else:
        content = reported.encode()
    return bin_value(kind, reported, content)


def text_word(reported, encoding):
    if reported is None:
        return "N"
    return "x" + (reported if encoding.startswith("hex") else reported.encode().hex())


def row_of(packet, count):
    """The words for a row of a result, of a given number of values."""
    api = packet.get("expected", {}).get("api")
    if api is None:
        return [UNREPORTED] * count
    if packet["kind"] == "text_row":
        return [text_word(value, api["encoding"]) for value in api["values"]]
    kinds = [kind for kind, _ in packet["columns"]]
    return [bin_word(*pair, api["encoding"]) for pair in zip(kinds, api["values"], strict=True)]


def handed_word(kind, handed):
    """The word for a value that was handed in, or for an indicator, after which no value stands."""
    if handed in (None, "DEFAULT", "IGNORE"):
        return "N"
    if isinstance(handed, dict):
        return date(handed["dt"])
    return bin_value(kind, handed, bytes.fromhex(handed) if isinstance(handed, str) else str(handed).encode())


def sent_types(packet):
    """The types that a bulk execution sends, each with its byte of flags: none where the execution's flags lack 128."""
    payload = bytes.fromhex(packet["payload"])
    end = 7 + 2 * packet["expected"]["input"]["cols"] if payload[5] & 128 else 7
    return list(zip(payload[7:end:2], payload[8:end:2], strict=True))


def statement(packet):
    """The connection, and the statement's number there."""
    return packet["id"].rpartition("-")[0], packet["expected"]["input"]["stmt_id"]


def bound_rows(packet, packets):
    """The columns of a bulk execution, and its rows: without types, the types and values of the last that sent them for the statement."""
    until = packets[:packets.index(packet) + 1]
    typed = [it for it in until if it["kind"] == packet["kind"] and sent_types(it)]
    bound = [it for it in typed if statement(it) == statement(packet)][-1]
    types = sent_types(bound)
    columns = ",".join("253" if bound is packet else f"{kind}{'u' if flags & 128 else ''}" for kind, flags in types)
    handed = bound["expected"]["input"]["values"][:packet["expected"]["input"]["rows"]]
    return columns, [[handed_word(kind, value) for (kind, _), value in zip(types, row, strict=True)] for row in handed]
