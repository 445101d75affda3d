"""The names of a record's fields, where a cut of a vector is read too: a reading's record, as pairs."""

PLUGINS = {b"mysql_old_password", b"mysql_clear_password", b"mysql_native_password", b"caching_sha2_password",
           b"client_ed25519", b"parsec"}


def error_fields(record):
    return [("error", record[0]), ("sql_state", record[1]), ("message", record[2])]


def variables_fields(record):
    return [("variables", len(record))] + [pair for name, value in record for pair in (("name", name), ("value", value))]


def change_fields(record):
    return [("gtids", record)] if isinstance(record, bytes) else variables_fields(record)


def ok_fields(record):
    (rows, insert_id), status, warnings, (info, state) = record
    return [("affected_rows", rows), ("last_insert_id", insert_id), ("status_flags", status), ("warnings", warnings),
            ("info", info), ("session_state_info", state)]


def plugin_fields(name):
    return [("plugin" if name in PLUGINS else "other_plugin", name)]


def switch_fields(record):
    name, data = record
    return plugin_fields(name) + [("plugin_data", data[:-1] if data.endswith(b"\0") else data)]


def response_fields(record):
    capabilities, _size, collation, mariadb, user, data, database, plugin, _attributes, _level = record
    named = [("capabilities", capabilities), ("collation", collation), ("mariadb_ext_capabilities", mariadb),
             ("user", user), ("scramble_buf", data), ("db_name", database)]
    return named + ([("plugin", None)] if plugin is None else plugin_fields(plugin))


def change_user_fields(record):
    """The bytes that are written of a change of user without more data."""
    (user, data, database), more = record
    assert more is None
    return [("written", b"\x11" + user + b"\0" + bytes([len(data)]) + data + database + b"\0")]


def named(*names):
    return lambda record: zip(names, record)


FIELDS = {
    "EofBytes": lambda record: [("content", record)],
    "Gtids": change_fields,
    "SystemVariables": change_fields,
    "SessionStateChange": change_fields,
    "LocalInfilePacket": lambda record: [("file_name", record[1])],
    "ServerError": error_fields,
    "ErrPacket": error_fields,
    "CommonOkPacket": ok_fields,
    "BulkRows": lambda record: [("rows", len(record))],
    "EofName": lambda record: [("name", record)],
    "AuthPlugin": plugin_fields,
    "AuthMoreData": lambda record: [("data", record[1])],
    "PublicKeyResponse": lambda record: [("rsa_key", record[1])],
    "AuthSwitchRequest": switch_fields,
    "HandshakePacket": named("protocol_version", "server_version", "connection_id", "scramble_1", "scramble_2",
                             "capabilities", "default_collation", "status_flags", "mariadb_ext_capabilities",
                             "auth_plugin_name"),
    "HandshakeResponse": response_fields,
    "ComChangeUser": change_user_fields,
    "ComBinlogDump": named("pos", "flags", "server_id", "filename"),
    "SemiSyncAckPacket": named("position", "filename"),
}
