"""What is said before the first command, and when the user changes."""
from .buf import to_the_end
from .codes import CONNECT_ATTRS, CONNECT_WITH_DB, LENENC_CLIENT_DATA, MULTI_FACTOR_AUTHENTICATION, PLUGIN_AUTH, SECURE_CONNECTION, ZSTD
from .replies import system_variable


def eof_name(buf):
    name = buf.all()
    return name[:-1] if name.endswith(b"\0") else name


def auth_switch_request(buf):
    buf.const(b"\xfe")
    return buf.null_string(), buf.all()


def auth_next_factor(buf):
    buf.const(b"\x02")
    return buf.null_string(), buf.all()


def auth_reply(buf, capabilities):
    """What a reply is, by its first byte, and its parts."""
    first, payload = buf.data[:1], buf.data
    if first == b"\xfe":
        return ("old_switch", buf.all()) if len(payload) == 1 else ("switch", auth_switch_request(buf))
    if first == b"\x02" and capabilities & MULTI_FACTOR_AUTHENTICATION:
        return "next_factor", auth_next_factor(buf)
    kind = {b"\x00": "ok", b"\xff": "err", b"\x01": "more_data"}.get(first, "plugin_data")
    return kind, buf.all()[1 if kind == "more_data" else 0:]


def ssl_request(buf):
    block = buf.block(32)
    fields = block.number(4), block.number(4), block.number(1)
    block.take(19)
    return fields, block.number(4)


def handshake(buf):
    protocol, version = buf.number(1), buf.null_string()
    block = buf.block(31)
    connection, scramble_1 = block.number(4), block.take(8)
    block.take(1)
    low, collation, status, high, length = (block.number(n) for n in (2, 1, 2, 2, 1))
    block.take(6)
    capabilities = low | high << 16
    scramble_2 = buf.take(max(13, length - 8)) if capabilities & SECURE_CONNECTION else None
    name = eof_name(buf) if capabilities & PLUGIN_AUTH else None
    return (protocol, version, connection, scramble_1, scramble_2, capabilities, collation, status, block.number(4), name)


def attributes(buf):
    """Keys with their last values, each at its key's first place."""
    return list(dict(to_the_end(buf.block(buf.lenenc()), system_variable)).items())


def scramble(buf, capabilities):
    if capabilities & LENENC_CLIENT_DATA:
        return buf.string()
    return buf.u8_string() if capabilities & SECURE_CONNECTION else buf.null_string()


def handshake_response(buf):
    (capabilities, packet_size, collation), mariadb = ssl_request(buf)
    user, data = buf.null_string(), scramble(buf, capabilities)
    database = buf.null_string() if capabilities & CONNECT_WITH_DB else None
    plugin = None
    if capabilities & PLUGIN_AUTH:
        plugin = buf.null_string() if 0 in buf.data else buf.all()
    answered = attributes(buf) if capabilities & CONNECT_ATTRS else None
    # (the level of compression: `parse_client_handshake_packet` in sql/auth/sql_authentication.cc)
    level = buf.number(1) if capabilities & ZSTD and buf.data else None
    return capabilities, packet_size, collation, mariadb, user, data, database, plugin, answered, level


def change_user(buf, capabilities):
    buf.const(b"\x11")
    names = buf.null_string(), buf.u8_string(), buf.null_string()
    return names, more_data(buf, capabilities) if buf.data else None


def more_data(buf, capabilities):
    collation = buf.number(2)
    plugin = buf.null_string() if capabilities & PLUGIN_AUTH else None
    return collation, plugin, attributes(buf) if capabilities & CONNECT_ATTRS else None
