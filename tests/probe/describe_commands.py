"""What is shown of commands, by the reference decoder."""
from describe import by, numbers, x
from describe_statements import describe_long_data
from describe_values import param_word


def one(name):
    return lambda value: [f"{name}={'none' if value is None else value}"]


def text(content):
    return [f"text={x(content)}"]


def nothing(_record):
    return []


def describe_attribute(attribute):
    name, kind, flags, value = attribute
    return [f"name={x(name)}", f"{kind}-{flags}={param_word(kind, flags, value)}"]


def describe_query(record):
    attributes, content = record
    words = [f"attributes={'none' if attributes is None else len(attributes)}"]
    return words + [word for it in attributes or [] for word in describe_attribute(it)] + text(content)


def describe_field_list(record):
    table, wildcard = record
    return [f"table={x(table)}", f"wildcard={x(wildcard)}"]


def describe_set_option(code):
    return numbers(("code",), (code,)) + [f"option={ {0: 'MultiStatementsOn', 1: 'MultiStatementsOff'}.get(code, 'none')}"]


def describe_execute(record):
    head, params = record
    return numbers(("stmt_id", "flags"), head[:2]) + [f"params={x(params)}"]


def describe_bulk(record):
    stmt_id, flags, rows = record
    return numbers(("stmt_id", "bulk_flags"), (stmt_id, flags)) + [f"rows={x(rows)}"]


def describe_unknown(record):
    code, content = record
    return numbers(("code",), (code,)) + [f"content={x(content)}"]


def describe_change(record):
    ((user, answer, database), more), size = record
    return [f"user={x(user)}", f"auth_plugin_data={x(answer)}", f"database={x(database)}", f"more_data={'no' if more is None else 'yes'}", f"sent={size}"]


def describe_dump(record):
    pos, flags, server, name = record
    return numbers(("pos", "flags", "server_id"), (pos, flags, server)) + [f"filename={x(name)}"]


def describe_table(record):
    database, table = record
    return [f"database={x(database)}", f"table={x(table)}"]


def describe_register(record):
    server, texts, port, rank, master = record
    keys = ("hostname", "user", "password")
    return [f"server_id={server}"] + [f"{k}={x(v)}" for k, v in zip(keys, texts)] + numbers(("port", "replication_rank", "master_id"), (port, rank, master))


def describe_gtid(record):
    (flags, server, name, pos, sids), size = record
    return numbers(("flags", "server_id"), (flags, server)) + [f"filename={x(name)}"] + numbers(("pos", "sids", "sent"), (pos, len(sids), size))


SHOWN = {
    "COM_INIT_DB": text, "COM_QUERY": describe_query, "COM_FIELD_LIST": describe_field_list, "COM_CREATE_DB": text, "COM_DROP_DB": text,
    "COM_REFRESH": one("options"), "COM_SHUTDOWN": one("level"), "COM_PROCESS_KILL": one("id"), "COM_CHANGE_USER": describe_change,
    "COM_BINLOG_DUMP": describe_dump, "COM_TABLE_DUMP": describe_table, "COM_REGISTER_SLAVE": describe_register, "COM_STMT_PREPARE": text,
    "COM_STMT_EXECUTE": describe_execute, "COM_STMT_SEND_LONG_DATA": lambda it: [w.replace("data_ref", "data") for w in describe_long_data(it)],
    "COM_STMT_CLOSE": one("stmt_id"), "COM_STMT_RESET": one("stmt_id"), "COM_SET_OPTION": describe_set_option,
    "COM_STMT_FETCH": lambda it: numbers(("stmt_id", "num_rows"), it), "COM_BINLOG_DUMP_GTID": describe_gtid,
    "COM_STMT_BULK_EXECUTE": describe_bulk, "unknown": describe_unknown,
}


def describe_command(record):
    name, fields = record
    return [name] + SHOWN.get(name, nothing)(fields)


DESCRIBERS = {
    "command": lambda caps: by("Command", describe_command, int(caps)),
    "com_query": lambda caps: by("ComQueryRef", describe_query, int(caps)),
    "com_field_list": lambda: by("ComFieldListRef", describe_field_list),
    "com_set_option": lambda: by("ComSetOption", describe_set_option),
    "com_reset": lambda: by("ComStmtReset", one("stmt_id")),
    "com_fetch": lambda: by("ComStmtFetch", lambda it: numbers(("stmt_id", "num_rows"), it)),
    "com_execute_ref": lambda: by("ComStmtExecuteRef", describe_execute),
    "com_bulk_ref": lambda: by("ComStmtBulkExecuteRef", describe_bulk),
    "com_unknown": lambda: by("UnknownCommand", describe_unknown),
    "to_end": lambda: by("BytesRef", lambda it: [f"bytes={x(it)}"]),
}
