"""What is shown of replies, of session changes and of constant fields, by the reference decoder."""
from describe import READERS, by, lossy, numbers, x

from reference_decoder import replies
from reference_decoder.buf import Buf, Eof, Invalid, to_the_end


FAULTS = {Eof: "UnexpectedEof", Invalid: "InvalidData"}


def describe_column(record):
    names, (charset, length, kind, flags, decimals) = record
    keys = "schema table org_table name org_name".split()
    return ([f"{k}={x(v)}" for k, v in zip(keys, names)]
            + numbers("character_set column_length column_type flags decimals".split(), (charset, length, kind, flags, decimals))
            + [f"{k}_str={lossy(v)}" for k, v in zip(keys, names)])


def shown_kind(kind):
    return {0: "TypeName", 1: "FormatName"}.get(kind, str(kind))


def describe_attribute(record):
    kind, text = record
    return [f"kind={shown_kind(kind)}", f"text={x(text)}", f"text_str={lossy(text)}"]


def describe_attributes(buf):
    """Attributes to the end, or to the first that is none."""
    words = []
    while buf.data:
        try:
            kind, text = replies.column_attribute(buf)
        except (Eof, Invalid) as fault:
            return [*words, f"attribute={FAULTS[type(fault)]}"]
        words += [f"kind={shown_kind(kind)}", f"text={x(text)}"]
    return words


def describe_extended_column(record):
    column, metadata = record
    return [*describe_column(column), f"metadata={x(metadata)}", *describe_attributes(Buf(metadata or b""))]


def describe_field_list_column(record):
    (column, metadata), default = record
    return [*describe_column(column), f"metadata={x(metadata)}", f"default_value={x(default)}"]


def describe_column_count(record):
    count, byte = record
    return [f"count={count}"] + numbers(("metadata_byte",), (byte,)) + ["metadata_follows=" + ("no" if byte == 0 else "yes")]


def shown_progress(stage, most, progress, info):
    whole = f"{progress // 1000}.{progress % 1000 // 10:02d}"
    return f"Stage: {stage} of {most} '{info.decode('utf-8', 'replace')}'  {whole}% of stage done"


def describe_err(record):
    if len(record) == 4:
        stage, most, progress, info = record
        return (numbers(("stage", "max_stage", "progress"), record) + [f"stage_info={x(info)}", f"stage_info_str={lossy(info)}"]
                + [f"shown={x(shown_progress(*record).encode())}"])
    code, state, message = record
    words = f" ({state.decode('utf-8', 'replace')})" if state is not None else ""
    shown = f"ERROR {code}{words}: {message.decode('utf-8', 'replace')}"
    return [f"error={code}", f"sql_state={x(state)}", f"message={x(message)}", f"message_str={lossy(message)}", f"shown={x(shown.encode())}"]


def describe_infos(data):
    try:
        infos = to_the_end(Buf(data), READERS["SessionStateInfo"])
    except (Eof, Invalid) as fault:
        return [f"changes={FAULTS[type(fault)]}"] + [word for it in replies.changes_as_sent(data) for word in describe_sent(it)]
    return [f"changes={len(infos)}"] + [word for it in infos for word in describe_info(it)]


def describe_sent(change):
    if isinstance(change, tuple):
        return ["sent=read"] + describe_change(*change)
    return [f"sent={FAULTS[type(change)]}"]


def describe_ok(record):
    numbers_, status, warnings, (info, state) = record
    rows, insert_id = numbers_ or (0, None)
    return (numbers(("affected_rows", "last_insert_id", "status_flags", "warnings"), (rows, insert_id, status, warnings))
            + [f"info={x(info)}", f"session_state_info={x(state)}", f"info_str={lossy(info)}"] + describe_infos(state or b""))


def describe_eof(record):
    warnings, status = record
    return describe_ok((None, status, warnings, (None, None)))


def describe_text(text):
    return [f"bytes={x(text)}", f"as_str={lossy(text)}"]


def describe_state(state):
    return [f"sql_state={x(state)}", f"sql_state_str={lossy(state)}"]


def describe_variable(record):
    name, value = record
    return [f"name={x(name)}", f"value={x(value)}", f"name_str={lossy(name)}", f"value_str={lossy(value)}"]


TEXTS = {1: "schema", 3: "gtids", 4: "characteristics", 5: "state"}


def describe_change(kind, record):
    if kind == 2:
        return ["is_tracked=" + ("yes" if record else "no")]
    if kind == 0:
        return [f"variables={len(record)}"] + [word for it in record for word in (*describe_variable(it), "variable=same")]
    return [f"{TEXTS[kind]}={x(record)}", f"as_str={lossy(record)}"]


def describe_other_change(buf):
    text = replies.session_state_change(buf, 1)
    return describe_text(text)


def shown_change(name, kind, read):
    try:
        return [f"{name}=read"] + describe_change(kind, read())
    except (Eof, Invalid) as fault:
        return [f"{name}={FAULTS[type(fault)]}"]


def describe_info(record):
    kind, data = record
    words = [f"data_type={kind}", f"data={x(data)}"]
    change = shown_change("change", kind, lambda: replies.session_state_change(Buf(data), kind))
    sent = shown_change("sent", kind, lambda: replies.change_as_sent(kind, data))
    return words + change + (sent if sent[1:] != change[1:] or len(sent) == 1 and sent[0][5:] != change[0][7:] else [])


def ok_body(capabilities):
    """An OK packet without its first byte."""
    return lambda buf: describe_ok(replies.ok_packet(buf, int(capabilities), b"", True))


# constant fields, by their names
MARKERS = {"ColumnDefinitionCatalog": b"\x03def", "FixedLengthFieldsLen": b"\x0c", "ErrPacketHeader": b"\xff",
           "SqlStateMarker": b"#", "LocalInfileHeader": b"\xfb", "GtidsEncoding": b"\0", "ComStmtExecuteHeader": b"\x17",
           "ComStmtSendLongDataHeader": b"\x18", "ComStmtCloseHeader": b"\x19", "ComQueryHeader": b"\3", "ComFieldListHeader": b"\4",
           "ComSetOptionHeader": b"\x1b", "ComStmtFetchHeader": b"\x1c", "ComStmtResetHeader": b"\x1a", "IterationCount": b"\1\0\0\0"}


DESCRIBERS = {
    "column": lambda: by("Column", describe_column),
    "extended_column": lambda mariadb: by("ExtendedColumn", describe_extended_column, int(mariadb)),
    "field_list_column": lambda mariadb: by("FieldListColumn", describe_field_list_column, int(mariadb)),
    "column_attribute": lambda: by("ColumnAttribute", describe_attribute),
    "column_count": lambda caps, mariadb: by("ColumnCount", describe_column_count, int(caps), int(mariadb)),
    "greeting_error": lambda: by("GreetingError", describe_err),
    "err": lambda caps: by("ErrPacket", describe_err, int(caps)),
    "ok": lambda caps: by("CommonOkPacket", describe_ok, int(caps)),
    "ok_end": lambda caps: by("ResultSetTerminator", describe_ok, int(caps)),
    "ok_eof": lambda caps: by("OldEofPacket", describe_eof, int(caps)),
    "ok_stream": lambda caps: by("NetworkStreamTerminator", describe_eof, int(caps)),
    "local_infile": lambda: by("LocalInfilePacket", lambda it: [f"file_name={x(it[1])}", f"file_name_str={lossy(it[1])}"]),
    "ok_body": ok_body,
    "session_info": lambda: by("SessionStateInfo", describe_info),
    "server_error": lambda code, state: by("ServerError", describe_err, int(code), state == "1"),
    "sql_state": lambda: by("SqlState", describe_state),
    "progress": lambda: by("ProgressReport", describe_err),
    "change": lambda kind: describe_other_change if kind == "other" else lambda buf: describe_change(int(kind), replies.session_state_change(buf, int(kind))),
    "schema": lambda: by("Schema", describe_text),
    "gtids": lambda: by("Gtids", describe_text),
    "characteristics": lambda: by("TransactionCharacteristics", describe_text),
    "state": lambda: by("TransactionState", describe_text),
    "unsupported": lambda: by("Unsupported", describe_text),
    "variable": lambda: by("SystemVariable", describe_variable),
    "variables": lambda: by("SystemVariables", lambda it: describe_change(0, it)),
    "marker": lambda name: lambda buf: buf.const(MARKERS[name]) or [],
}
