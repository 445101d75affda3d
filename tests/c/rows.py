#!/usr/bin/env python3
"""The rows of tests/vectors/ and malformed input, read by the library for C and by the reference decoder.

rows.py --seeds: prints the bytes of each row that is read, in hexadecimal digits, for hostile.c
rows.py LIBRARY [COUNT]: each row of bytes that a call of mysql_packets.h reads, and COUNT inputs that are cut, changed and spliced
(100,000). The fields of the struct, the count of bytes that are used, and the code of a refusal must be those of the reference
decoder; after a refusal the struct is as it was. The last line is 'N passed, N failed'."""
import ctypes
import random
import re
import sys
from pathlib import Path

TOP = Path(__file__).resolve().parent.parent.parent
sys.path[:0] = [str(TOP / "tests/probe"), str(TOP / "examples/python")]
import malformed
from describe import lossy, x
from describe_connections import plugin
from described import READS, describer
from describe_statements import bound_of
from describe_values import columns_of
from lines import summary, vectors
from mysql_packets import Library

CODES = {"": "MYP_OK", "UnexpectedEof": "MYP_ERROR_UNEXPECTED_EOF", "InvalidData": "MYP_ERROR_INVALID_DATA"}
COLUMN = "schema table org_table name org_name character_set column_length column_type flags decimals"
# the struct of each word that is read into one, its call, and its fields: the name that the reference decoder has for each, or none
# where it is the same, and `?` after it where what is absent is 0 or empty
STRUCTS = {
    "handshake": ("myp_handshake", "myp_read_handshake", "protocol_version server_version connection_id scramble_1 scramble_2? capabilities default_collation "
                  "status_flags mariadb_capabilities=mariadb auth_plugin_name?"),
    "auth_switch": ("myp_auth_switch", "myp_read_auth_switch", "plugin_data=raw"),
    "next_factor": ("myp_auth_switch", "myp_read_auth_next_factor", "plugin_data=raw"),
    **{word: ("myp_statement", "myp_read_statement", "statement_id num_columns num_params warning_count") for word in ("stmt", "stmt_metadata")},
    "column": ("myp_column", "myp_read_column", COLUMN),
    **{word: ("myp_ok", "myp_read_ok", "affected_rows last_insert_id? status_flags warnings info? session_state=session_state_info?")
       for word in ("ok", "ok_end", "ok_eof", "ok_stream")},
    "err": ("myp_error", "myp_read_error", ""),
    "tls": ("myp_ssl_request", "myp_read_ssl_request", "capabilities max_packet_size character_set"),
    "response": ("myp_login", "myp_read_login", "capabilities collation mariadb_capabilities=mariadb user auth_response=scramble_buf"),
    "binlog_dump": ("myp_dump", "myp_read_dump", "position=pos flags server_id file_name=filename"),
    "register_slave": ("myp_register_replica", "myp_read_register_replica", "server_id hostname user password port replication_rank master_id"),
    "gtid": ("myp_gtid_dump", "myp_read_gtid_dump", "server_id flags file_name=filename position=pos n_sids=sids"),
    "table_dump": ("myp_table_dump", "myp_read_table_dump", "database table"),
    "semi_sync_ack": ("myp_semi_sync_ack", "myp_read_semi_sync_ack", "position file_name=filename"),
    "column_count": ("myp_column_count", "myp_read_column_count", "count"),
    "extended_column": ("myp_column", "myp_read_column", f"{COLUMN} metadata?"),
    "field_list_column": ("myp_field_list_column", "myp_read_field_list_column", ""),
    "stream": ("myp_stream_packet", "myp_read_stream_packet", ""),
    "command": ("myp_command", "myp_read_command", ""),
    "com_bulk_ref": ("myp_bulk_head", "myp_read_bulk_head", "statement_id=stmt_id flags=bulk_flags rows"),
    "com_long_data": ("myp_long_data", "myp_read_long_data", "statement_id=stmt_id param_index content=data_ref"),
}
# what else a call is passed, of the words of the context
GIVEN = {**dict.fromkeys(("err", "extended_column", "field_list_column", "command"), lambda caps: [int(caps) & 0xFFFFFFFF]),
         "column_count": lambda caps, mariadb: [int(caps) & 0xFFFFFFFF, int(mariadb) & 0xFFFFFFFF],
         **dict.fromkeys(("stmt", "column"), lambda: [0]), "stmt_metadata": lambda caps: [int(caps) & 0xFFFFFFFF],
         "stream": lambda agreed: [int(agreed == "semi_sync")]}
KINDS = {"ok": 0, "ok_end": 1, "ok_eof": 2, "ok_stream": 3}
# a word that is read as one number or one byte string
SINGLE = {"local_infile": ("myp_read_local_infile", "file_name"), "auth_more_data": ("myp_read_auth_more_data", "data"),
          "com_close": ("myp_read_close", "stmt_id")}


def field_word(packets, out, field):
    """A field of a struct as the reference decoder has it."""
    name, _, other = field.rstrip("?").partition("=")
    value = getattr(out, name)
    if isinstance(value, packets.types["myp_bytes"]):
        content = packets.text(value)
        return f"{other or name}={'none' if field.endswith('?') and not content else x(content)}"
    return f"{other or name}={'none' if field.endswith('?') and not value else value}"


def error_words(packets, out):
    message, state = packets.text(out.message), packets.text(out.sql_state)
    if out.is_progress:
        return [f"stage={out.stage}", f"max_stage={out.max_stage}", f"progress={out.progress}", f"stage_info={x(message)}"]
    return [f"error={out.code}", f"sql_state={x(state) if state else 'none'}", f"message={x(message)}"]


def login_words(packets, out):
    """What may be absent of a login, and its attributes: of a key that comes again the last value counts."""
    name, value, texts = packets.bytes(b""), packets.bytes(b""), {}
    rest = out.attributes
    while packets.next("myp_next_connection_attribute", rest, name, value):
        texts[lossy(packets.text(name))] = lossy(packets.text(value))
    words = [f"db_name={x(packets.text(out.database)) if out.has_database else 'none'}",
             plugin(packets.text(out.auth_plugin_name)) if out.has_auth_plugin_name else "plugin=none",
             f"zstd_level={out.zstd_level if out.has_zstd_level else 'none'}"]
    if not out.has_attributes:
        return words + ["attributes=none"]
    return words + [f"attributes={len(texts)}"] + [word for k, v in texts.items() for word in (f"key={k}", f"value={v}")]


def sid_words(packets, out):
    """The sids of a dump, gone through one by one, with their intervals."""
    rest, sid, interval, words = out.sids, packets.new("myp_sid_places"), packets.new("myp_interval"), []
    while packets.next("myp_next_sid", rest, sid, given=[out.is_tagged]):
        words += [f"uuid={x(bytes(sid.uuid))}", f"tag={packets.text(sid.tag).decode() or 'none'}", f"intervals={sid.n_intervals}"]
        left = sid.intervals
        while packets.next("myp_next_interval", left, interval):
            words += [f"start={interval.start}", f"end={interval.end}"]
    return words


def version_words(packets, text):
    """The versions in a server's version text."""
    words, version = [], packets.new("myp_server_version")
    for call, name in (("myp_read_server_version", "version"), ("myp_read_mariadb_version", "maria_db")):
        code = getattr(packets.dll, call)(text.data, text.len, ctypes.byref(version))
        words += [f"{name}=none"] if code == packets.MYP_ERROR_INVALID_DATA else [f"{name}={version.major}", f"minor={version.minor}", f"patch={version.patch}"]
    return words


def extended_words(packets, out):
    """The attributes of an extended column to the end, or to the first that is none."""
    words, attribute, rest = [], packets.new("myp_column_attribute"), out.metadata
    while not (code := packets.dll.myp_next_column_attribute(ctypes.byref(rest), ctypes.byref(attribute))):
        words += [f"kind={ {0: 'TypeName', 1: 'FormatName'}.get(attribute.kind, attribute.kind)}", f"text={x(packets.text(attribute.text))}"]
    faults = {getattr(packets, code): fault for fault, code in CODES.items()}
    return words if code == packets.MYP_END else [*words, f"attribute={faults[code]}"]


def field_list_words(packets, out):
    """The column of one that answers COM_FIELD_LIST, its metadata, and its default value."""
    words = [field_word(packets, out.column, it) for it in f"{COLUMN} metadata?".split()]
    return [*words, f"default_value={x(packets.text(out.default_value)) if out.has_default_value else 'none'}"]


def stream_words(packets, out, is_semi_sync):
    content = x(packets.text(out.content))
    if out.kind != packets.MYP_STREAM_EVENT:
        return [f"{'end' if out.kind == packets.MYP_STREAM_END else 'err'}={content}"]
    return [f"wants_ack={('no', 'yes')[out.wants_ack] if is_semi_sync else 'none'}", f"event={content}"]


# what a command says, by the names of the reference decoder
SAYS = {**dict.fromkeys(("COM_INIT_DB", "COM_CREATE_DB", "COM_DROP_DB", "COM_QUERY", "COM_STMT_PREPARE"), "text"), "COM_FIELD_LIST": "text=table wildcard",
        "COM_REFRESH": "number=options", "COM_SHUTDOWN": "number=level", "COM_PROCESS_KILL": "number=id", "COM_SET_OPTION": "number=code",
        **dict.fromkeys(("COM_STMT_CLOSE", "COM_STMT_RESET"), "number=stmt_id"), "COM_STMT_FETCH": "number=stmt_id rows=num_rows"}
# what has a record that another call reads
OTHERS = {f"COM_{it}" for it in ("QUIT STATISTICS PROCESS_INFO DEBUG PING RESET_CONNECTION CHANGE_USER BINLOG_DUMP TABLE_DUMP REGISTER_SLAVE STMT_EXECUTE "
                                 "STMT_SEND_LONG_DATA BINLOG_DUMP_GTID STMT_BULK_EXECUTE").split()}


def command_words(packets, out):
    named = {number: name.removeprefix("MYP_") for name, number in packets.numbers.items() if name.startswith("MYP_COM_")}
    name = named.get(out.code, "")
    if name in SAYS:
        # (a shutdown without a byte is one of 0)
        return [name] + [field_word(packets, out, it) for it in SAYS[name].split() if name != "COM_SHUTDOWN" or out.number]
    return [name] if name in OTHERS else ["unknown", f"code={out.code}", f"content={x(packets.text(out.text))}"]


def attribute_words(packets, payload):
    """The attributes of a query, to the last."""
    words, place, out = [], 0, packets.new("myp_parameter")
    while not (code := packets.dll.myp_read_query_attribute(payload.data, payload.len, place, ctypes.byref(out))):
        words += [f"name={x(packets.text(out.name))}", f"{out.column_type}-{128 * out.is_unsigned}={value_word(packets, out.value)}"]
        place += 1
    return [f"attributes={place if code == packets.MYP_END else code}", *words]


def value_word(packets, value):
    """A value as a word of an answer."""
    kinds = [getattr(packets, f"MYP_VALUE_{it}") for it in "NULL BYTES INT UINT FLOAT DOUBLE DATE TIME DATE_WITH_OFFSET".split()]
    match kinds.index(value.kind):
        case 0: return "N"
        case 1: return x(packets.text(value.bytes))
        case 2: return f"i{ctypes.c_int64(value.number).value}"
        case 6 | 8 as date:
            offset = f"{ctypes.c_int64(value.number).value:+}" if date == 8 else ""
            return f"D{value.days}-{value.month}-{value.day}-{value.hour}-{value.minute}-{value.second}-{value.micros}{offset}"
        case 7: return f"T{value.is_negative}-{value.days}-{value.hour}-{value.minute}-{value.second}-{value.micros}"
        case it: return f"{'ufd'[it - 3]}{value.number}"


def places(packets, out):
    """Each byte string of a struct."""
    if isinstance(out, packets.types["myp_bytes"]):
        return [out]
    found = [getattr(out, name) for name, kind in getattr(out, "_fields_", []) if kind is packets.types["myp_bytes"]]
    return found + (places(packets, out.column) if hasattr(out, "column") else [])


class Calls:
    """What a call answers of a packet: its code, the words of what it gives, how many bytes it uses, and what is wrong with it."""

    def __init__(self, packets):
        self.packets = packets

    def answer(self, request, content):
        word, *context = request.split(" ")
        payload = self.packets.bytes(content)
        if word in ("row", "row_text"):
            return self.row(word, context, payload)
        if word in ("com_execute", "com_execute_attributes"):
            return self.execution(context, payload, self.packets.MYP_CLIENT_QUERY_ATTRIBUTES if word == "com_execute_attributes" else 0)
        if word in ("bulk", "bulk_rows"):
            return self.bulk(word, columns_of(context[0]), payload)
        if word in SINGLE:
            return self.single(word, payload)
        return self.struct(word, context, payload)

    def struct(self, word, context, payload):
        p = self.packets
        name, call, fields = STRUCTS[word]
        out = p.new(name)
        before = bytes(out)
        given = [KINDS[word]] if word in KINDS else []
        given += [int(context[0]) & 0xFFFFFFFF] if word in KINDS else GIVEN[word](*context) if word in GIVEN else []
        code = getattr(p.dll, call)(payload.data, payload.len, *given, ctypes.byref(out))
        if code:
            return code, [], None, "" if bytes(out) == before else "the struct is changed"
        words = error_words(p, out) if word == "err" else [field_word(p, out, it) for it in fields.split()]
        words += login_words(p, out) if word == "response" else []
        words += sid_words(p, out) if word == "gtid" else []
        words += version_words(p, out.server_version) if word == "handshake" else []
        words += [f"metadata_follows={('no', 'yes')[out.metadata_follows]}"] if word == "column_count" else []
        words += [f"metadata={out.metadata_follows if given[0] & p.MYP_CLIENT_OPTIONAL_RESULTSET_METADATA else 'none'}"] if word == "stmt_metadata" else []
        words += extended_words(p, out) if word == "extended_column" else []
        words += field_list_words(p, out) if word == "field_list_column" else []
        words += stream_words(p, out, *given) if word == "stream" else []
        words += command_words(p, out) if word == "command" else []
        words += attribute_words(p, payload) if word == "command" and out.code == p.MYP_COM_QUERY and given[0] & p.MYP_CLIENT_QUERY_ATTRIBUTES else []
        used = out.column.used if word == "field_list_column" else getattr(out, "used", None)
        return code, words, used, self.outside(payload, places(p, out))

    def single(self, word, payload):
        p, (call, name) = self.packets, SINGLE[word]
        out = ctypes.c_uint32(7) if word == "com_close" else p.bytes(b"")
        before = bytes(out)
        code = getattr(p.dll, call)(payload.data, payload.len, ctypes.byref(out))
        if code:
            return code, [], None, "" if bytes(out) == before else "the place is changed"
        if word == "com_close":
            return code, [f"{name}={out.value}"], None, ""
        return code, [f"{name}={x(p.text(out))}"], None, self.outside(payload, [out])

    def row(self, word, context, payload):
        p, columns, used = self.packets, columns_of(context[0]), ctypes.c_size_t(7)
        values = p.array("myp_value", [p.new("myp_value") for _ in columns])
        if word == "row":
            types = p.array("myp_column_type", [p.types["myp_column_type"](kind, int(bool(flags))) for kind, flags in columns])
            code = p.dll.myp_read_binary_row(payload.data, payload.len, types, len(columns), values, len(columns), ctypes.byref(used))
        else:
            code = p.dll.myp_read_text_row(payload.data, payload.len, values, len(columns), ctypes.byref(used))
        if code:
            return code, [], None, "" if used.value == 7 else "the count of bytes is changed"
        found = list(values)[:len(columns)]
        return code, [value_word(p, it) for it in found], used.value, self.outside(payload, [it.bytes for it in found])

    def execution(self, context, payload, capabilities):
        p, bound = self.packets, bound_of(context[0])
        count, out = len(bound), p.new("myp_execution")
        known = p.array("myp_bound_param", [p.types["myp_bound_param"](kind, int(bool(flags)), int(ahead)) for kind, flags, ahead in bound])
        values = p.array("myp_value", [p.new("myp_value") for _ in bound])
        types = p.array("myp_column_type", [p.new("myp_column_type") for _ in bound])
        before = bytes(out)
        code = p.dll.myp_read_execution(payload.data, payload.len, capabilities, known, count, values, count, types, count, ctypes.byref(out))
        if code:
            attribute = p.new("myp_parameter")
            attribute_before = bytes(attribute)
            again = p.dll.myp_read_execution_attribute(payload.data, payload.len, capabilities, known, count, 0, ctypes.byref(attribute))
            is_kept = bytes(out) == before and again == code and bytes(attribute) == attribute_before
            return code, [], None, "" if is_kept else "a struct is changed, or reading an attribute answers another code"
        words = [f"stmt_id={out.statement_id}", f"flags={out.flags}", f"types={'yes' if out.sends_types else 'no'}"]
        for (_, _, ahead), value, of in zip(bound, values, types):
            words.append(f"{of.column_type}-{128 * of.is_unsigned}={'ahead' if ahead else value_word(p, value)}")
        spans = [it.bytes for it in list(values)[:count]]
        # (a packet may have enough that reading each anew takes a while)
        for place in range(min(out.attributes, 100)):
            it = p.new("myp_parameter")
            code = p.dll.myp_read_execution_attribute(payload.data, payload.len, capabilities, known, count, place, ctypes.byref(it))
            if code:
                return code, [], None, "an attribute is not read"
            words += [f"name={x(p.text(it.name))}", f"{it.column_type}-{128 * it.is_unsigned}={value_word(p, it.value)}"]
            spans += [it.name, it.value.bytes]
        after = p.dll.myp_read_execution_attribute(payload.data, payload.len, capabilities, known, count, out.attributes, ctypes.byref(p.new("myp_parameter")))
        return code, words, out.used, self.outside(payload, spans) if after == p.MYP_END else "there are more attributes"

    def bulk(self, word, columns, payload):
        """A bulk execution, of whose rows `bulk` reads the first one."""
        p, head, count = self.packets, self.packets.new("myp_bulk_head"), len(columns)
        code = p.dll.myp_read_bulk_head(payload.data, payload.len, ctypes.byref(head))
        if code:
            return code, [], None, ""
        rest, words = head.rows, [f"stmt_id={head.statement_id}", f"bulk_flags={head.flags}"]
        types = p.array("myp_column_type", [p.types["myp_column_type"](kind, int(bool(flags))) for kind, flags in columns])
        values, indicators = p.array("myp_value", [p.new("myp_value") for _ in columns]), (ctypes.c_uint8 * max(count, 1))()
        if head.flags & p.MYP_BULK_SEND_TYPES_TO_SERVER:
            code = p.dll.myp_read_bulk_types(ctypes.byref(rest), types, count)
            words += [] if code else [word for it in list(types)[:count] for word in (f"type={it.column_type}", f"flags={128 * it.is_unsigned}")]
        rows, spans = [], []
        while not code and not (word == "bulk" and (rows or not count)):
            code = p.dll.myp_next_bulk_row(ctypes.byref(rest), types, count, values, count, indicators, count)
            found = [] if code else list(values)[:count]
            rows += [] if code else ["values=" + ",".join(value_word(p, it) for it in found)]
            spans += [it.bytes for it in found]
        if word == "bulk_rows":
            return (0 if code == p.MYP_END else code), rows, payload.len - rest.len, self.outside(payload, [rest, *spans])
        words += [*(rows or ["values=()"]), f"indicators={''.join(str(it) for it in list(indicators)[:count])}."]
        return (p.MYP_ERROR_UNEXPECTED_EOF if code == p.MYP_END else code), words, payload.len - rest.len, self.outside(payload, [rest, *spans])

    def outside(self, payload, spans):
        """What is wrong where a byte string lies outside of the packet."""
        first = ctypes.addressof(payload.data.contents)
        for span in spans:
            at = ctypes.addressof(span.data.contents)
            if span.len and not first <= at <= at + span.len <= first + payload.len:
                return "a byte string lies outside of the packet"
        return ""


def without_names(words, params):
    """The words of an execution without the names of its parameters, which C has not."""
    kept = []
    for word in words:
        if word.startswith("name=") and sum("-" in it.split("=")[0] for it in kept) < params:
            continue
        kept.append(word)
    return kept


def follow(words, wanted):
    """Whether these words stand among the others one after another."""
    return any(wanted[at : at + len(words)] == words for at in range(len(wanted)))


def wrong(packets, calls, describer_, request, content):
    """What is wrong with an answer, or nothing."""
    right = malformed.Reading(describer_, content)
    code, words, used, why = calls.answer(request, content)
    if request.startswith("handshake") and content[:1] not in (b"", b"\x09", b"\x0a"):
        # (the decoder takes any first byte for a version)
        return why or ("" if code == packets.MYP_ERROR_INVALID_DATA else f"code {code} for an unknown version")
    if code != getattr(packets, CODES[right.refused]):
        return f"code {code}, the reference decoder: {right.refused or right.words}"
    if why or code:
        return why
    wanted = right.words
    if request.startswith(("com_execute", "command")):
        # (of a type's flags C has the one of unsigned numbers)
        wanted = [re.sub(r"^(\d+)-(\d+)=", lambda it: f"{it[1]}-{int(it[2]) & 128}=", word) for word in wanted]
    if request.startswith("com_execute"):
        wanted = without_names(wanted, len(bound_of(request.split(" ")[1])))
    if request.startswith("response") and not any(it.startswith("zstd_level=") for it in wanted):
        wanted = [*wanted, "zstd_level=none"]
    if request.startswith("gtid"):
        # (after the five fields of the dump, those of its sids in their order; the decoder has a text of the file's name more)
        wanted = [it for it in wanted if not it.startswith("filename_str=")]
    if request.startswith("bulk "):
        wanted = [f"flags={int(it[6:]) & 128}" if it.startswith("flags=") else it for it in wanted]
    if request.startswith(("row ", "row_text", "com_execute", "bulk")):
        is_same = words == wanted
    elif request.startswith("gtid"):
        is_same = set(words[:5]) == set(wanted[:5]) and words[5:] == wanted[5:]
    elif request.startswith("handshake"):
        # (the versions stand together)
        is_same = set(words) <= {*wanted, *(f"{word[:-1]}none" for word in wanted if word.endswith("=x"))} and follow(words[10:], wanted)
    else:
        # (what is absent and what is empty is one in C, except for a default value)
        is_same = set(words) <= {*wanted, *(f"{word[:-1]}none" for word in wanted if word.endswith("=x") and word != "default_value=x"), "affected_rows=0"}
    if not is_same:
        return f"{words}, the reference decoder: {wanted}"
    return "" if used is None or used == len(content) - right.left else f"{used} bytes are used"


READ = {*STRUCTS, *SINGLE, "row", "row_text", "com_execute", "com_execute_attributes", "bulk", "bulk_rows"}


def rows_read():
    """How the request of each row begins, and its bytes."""
    for probe in READS:
        for it in vectors(probe):
            head, _, digits = it.request.rpartition(" ")
            if head.split(" ")[0] in READ and describer(it.request):
                yield head, bytes.fromhex("" if digits == "()" else digits)


def main(library, count="100000"):
    if library == "--seeds":
        print("\n".join(sorted({content.hex() for _, content in rows_read() if len(content) < 1000})))
        return 0
    packets = Library(library=library, header=TOP / "include/mysql_packets.h")
    calls, rows, inputs = Calls(packets), list(rows_read()), []
    for probe in READS:
        inputs += [it for it in malformed.inputs(probe, int(count), 0) if it[0].split(" ")[0] in READ]
    inputs = random.Random(3).sample(inputs, min(len(inputs), int(count)))
    failures, describers = [], {}
    for head, content in rows + inputs:
        it = describers.setdefault(head, describer(f"{head} 00"))
        why = wrong(packets, calls, it, head, content)
        if why:
            failures.append(f"{head} {content.hex()}\n  {why}")
    print(f"rows in C: {len(rows)} rows, {len(inputs)} malformed inputs")
    return summary("rows in C", len(rows) + len(inputs) - len(failures), failures, 10)


if __name__ == "__main__":
    sys.exit(main(*sys.argv[1:]))
