"""What is shown of authentication and replication, by the reference decoder."""
import re

from describe import by, lossy, numbers, x

from reference_decoder.fields import PLUGINS


def plugin(name):
    return f"{'plugin' if name in PLUGINS else 'other_plugin'}={x(name)}"


VERSION = rb"(\d{1,2})\.(\d{1,2})\.(\d{1,3})"


def version(name, pattern, text):
    found = re.match(pattern, text)
    return numbers((name, "minor", "patch"), map(int, found.groups())) if found else [f"{name}=none"]


def mariadb_version(text):
    answered = version("maria_db", rb"5\.5\.5-" + VERSION + b"-MariaDB", text)
    return answered if len(answered) > 1 else version("maria_db", VERSION + b"-MariaDB", text)


def describe_handshake(record):
    protocol, text, connection, first, second, capabilities, collation, status, mariadb, name = record
    return (numbers(("protocol_version",), (protocol,)) + [f"server_version={x(text)}"] + numbers(("connection_id",), (connection,))
            + [f"scramble_1={x(first)}", f"scramble_2={x(second)}"]
            + numbers(("capabilities", "default_collation", "status_flags", "mariadb"), (capabilities, collation, status, mariadb))
            + [f"auth_plugin_name={x(name)}"] + version("version", VERSION, text) + mariadb_version(text)
            + [f"server_version_str={lossy(text)}", f"auth_plugin_name_str={lossy(name)}",
               plugin(name.removesuffix(b"\0").removesuffix(b"\0")) if name is not None else "plugin=none", f"nonce={x(nonce(first, second))}"])


def nonce(first, second):
    """Both scrambles, cut to 20 bytes or filled with zeros."""
    return (first + (second or b""))[:20].ljust(20, b"\0")


def describe_response(record):
    capabilities, _size, collation, mariadb, user, data, database, name, attributes, level = record
    ended = [] if level is None else [f"zstd_level={level}"]
    words = numbers(("capabilities", "collation", "mariadb"), (capabilities, collation, mariadb))
    words += [f"user={x(user)}", f"scramble_buf={x(data)}", f"db_name={x(database)}", plugin(name) if name is not None else "plugin=none"]
    if attributes is None:
        return words + ["attributes=none"] + ended
    texts = {}
    for key, value in attributes:
        texts[lossy(key)] = lossy(value)
    return words + [f"attributes={len(texts)}"] + [word for k, v in texts.items() for word in (f"key={k}", f"value={v}")] + ended


def describe_plugin(name):
    words = [plugin(name), f"variant={VARIANTS.get(name, 'Other')}"]
    return words + (["iterations=0", "salt=x" + "00" * 18] if name == b"parsec" else [])


VARIANTS = {b"mysql_old_password": "MysqlOldPassword", b"mysql_clear_password": "MysqlClearPassword",
            b"mysql_native_password": "MysqlNativePassword", b"caching_sha2_password": "CachingSha2Password",
            b"client_ed25519": "Ed25519", b"parsec": "MariadbParsec"}


def describe_tls(record):
    fields, _mariadb = record
    return numbers(("capabilities", "max_packet_size", "character_set"), fields)


def describe_switch(record):
    name, data = record
    return [plugin(name), f"plugin_data={x(data[:-1] if data.endswith(bytes(1)) else data)}", f"raw={x(data)}"]


def describe_reply(record):
    kind, parts = record
    if kind == "old_switch":
        return [kind]
    if kind in ("switch", "next_factor"):
        name, data = parts
        return [f"{kind}={x(name)}", f"raw={x(data)}"]
    return [f"{kind}={x(parts)}"]


def describe_event(record):
    flags, event = record
    return [f"wants_ack={'none' if flags is None else ('no', 'yes')[flags & 1]}", f"event={x(event)}"]


def describe_stream(record):
    kind, parts = record
    return describe_event(parts) if kind == "event" else [f"{kind}={x(parts)}"]


def describe_register(record):
    server, texts, port, rank, master = record
    keys = ("hostname", "user", "password")
    return ([f"server_id={server}"] + [f"{k}={x(v)}" for k, v in zip(keys, texts)]
            + numbers(("port", "replication_rank", "master_id"), (port, rank, master))
            + [f"{k}_str={lossy(v)}" for k, v in zip(keys, texts)])


def describe_sid(sid):
    uuid, tag, intervals = sid
    return ([f"uuid={x(uuid)}", f"tag={tag.decode() or 'none'}", f"intervals={len(intervals)}"]
            + [word for start, end in intervals for word in (f"start={start}", f"end={end}")])


def describe_shown_sid(sid):
    """A sid in the form without tags, and its text: the last number of an interval is the one before its end."""
    uuid, _tag, intervals = sid
    digits = uuid.hex()
    text = "-".join((digits[:8], digits[8:12], digits[12:16], digits[16:20], digits[20:]))
    shown = [str(start) if end and start == end - 1 else f"{start}-{max(end - 1, 0)}" for start, end in intervals]
    return describe_sid(sid) + [f"shown={':'.join([text, *shown])}"]


def describe_binlog_dump(record):
    *found, name = record
    return numbers(("pos", "flags", "server_id"), found) + [f"filename={x(name)}", f"filename_str={lossy(name)}"]


def describe_ack(record):
    position, name = record
    return [f"position={position}", f"filename={x(name)}", f"filename_str={lossy(name)}"]


def describe_table(record):
    database, table = record
    return [f"database={x(database)}", f"table={x(table)}", f"database_str={lossy(database)}", f"table_str={lossy(table)}"]


def describe_gtid(record):
    flags, server, name, position, sids = record
    return ([f"server_id={server}", f"flags={flags}", f"filename={x(name)}", f"filename_str={lossy(name)}", f"pos={position}",
             f"sids={len(sids)}"] + [word for sid in sids for word in describe_sid(sid)])


DESCRIBERS = {
    "handshake": lambda: by("HandshakePacket", describe_handshake),
    "response": lambda: by("HandshakeResponse", describe_response),
    "change_user": lambda caps: by("ComChangeUser", lambda it: [], int(caps)),
    "more_data": lambda caps: by("ComChangeUserMoreData", lambda it: [], int(caps)),
    "auth_switch": lambda: by("AuthSwitchRequest", describe_switch),
    "next_factor": lambda: by("AuthNextFactor", describe_switch),
    "auth_reply": lambda caps: by("AuthReply", describe_reply, int(caps)),
    "old_switch": lambda: by("OldAuthSwitchRequest", lambda it: [plugin(b"mysql_old_password")]),
    "auth_more_data": lambda: by("AuthMoreData", lambda it: [f"data={x(it[1])}"]),
    "key_request": lambda: by("PublicKeyRequest", lambda it: []),
    "key": lambda: by("PublicKeyResponse", lambda it: [f"rsa_key={lossy(it[1])}"]),
    "tls": lambda: by("SslRequest", describe_tls),
    "plugin": lambda: by("AuthPlugin", describe_plugin),
    "register_slave": lambda: by("ComRegisterSlave", describe_register),
    "table_dump": lambda: by("ComTableDump", describe_table),
    "binlog_dump": lambda: by("ComBinlogDump", describe_binlog_dump),
    "semi_sync_ack": lambda: by("SemiSyncAckPacket", describe_ack),
    "stream_event": lambda agreed: by("BinlogStreamEvent", describe_event, agreed == "semi_sync"),
    "stream": lambda agreed: by("BinlogStreamPacket", describe_stream, agreed == "semi_sync"),
    "interval": lambda: by("GnoInterval", lambda it: numbers(("start", "end"), it)),
    "sid_bytes": lambda: by("Sid", describe_shown_sid),
    "gtid": lambda: by("ComBinlogDumpGtid", describe_gtid),
    "gtid_strict": lambda: by("StrictDumpGtid", describe_gtid),
}
