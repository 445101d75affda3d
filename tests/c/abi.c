/* Packets of the protocol's pages through every call, and the sizes of the structs: here what a client reads. */
#include "abi.h"

int passed, failed;

static void headers(void)
{
    uint8_t out[8];
    size_t n = 9;
    myp_header h = MYP_HEADER_INIT;
    CHECK(myp_read_header((const uint8_t *)"\x05\x00\x01\x07rest", 8, &h) == MYP_OK && h.payload_length == 0x10005 && h.sequence_id == 7);
    CHECK(myp_read_header((const uint8_t *)"\x05\x00\x00", 3, &h) == MYP_ERROR_UNEXPECTED_EOF && h.payload_length == 0x10005);
    CHECK(myp_write_header(0xffffff, 3, out, sizeof out, &n) == MYP_OK && n == 4 && !memcmp(out, "\xff\xff\xff\x03", 4));
    CHECK(myp_write_header(0x1000000, 3, out, sizeof out, &n) == MYP_ERROR_INVALID_INPUT && n == 0);
    CHECK(myp_write_header(1, 3, out, 3, &n) == MYP_ERROR_BUFFER_TOO_SMALL && n == 4);
    static const uint8_t stream[] = { 1, 0, 0, 0, 0x0e, 0, 0, 0, 9, 2, 0, 0, 1, 'a' };
    myp_bytes rest = { stream, sizeof stream };
    myp_frame f = MYP_FRAME_INIT;
    CHECK(myp_next_frame(&rest, &f) == MYP_OK && f.content.data == stream + 4 && f.content.len == 1 && f.sequence_id == 0 && f.is_last == 1 && rest.data == stream + 5);
    CHECK(myp_next_frame(&rest, &f) == MYP_OK && f.content.len == 0 && f.sequence_id == 9 && f.is_last == 1 && rest.len == 5);
    CHECK(myp_next_frame(&rest, &f) == MYP_END && f.sequence_id == 9 && rest.len == 5);
    static uint8_t full[4 + 0xffffff + 4] = { 0xff, 0xff, 0xff, 2 };
    full[4 + 0xffffff + 3] = 3;
    rest.data = full, rest.len = sizeof full - 5;
    CHECK(myp_next_frame(&rest, &f) == MYP_END);
    rest.len = sizeof full;
    CHECK(myp_next_frame(&rest, &f) == MYP_OK && f.content.len == 0xffffff && f.sequence_id == 2 && f.is_last == 0);
    CHECK(myp_next_frame(&rest, &f) == MYP_OK && f.content.len == 0 && f.sequence_id == 3 && f.is_last == 1 && rest.len == 0);
}

static void replies(void)
{
    myp_column_count c = MYP_COLUMN_COUNT_INIT;
    CHECK(myp_read_column_count((const uint8_t *)"\xfc\x00\x01", 3, 0, 0, &c) == MYP_OK && c.count == 256 && c.metadata_follows == 1 && c.used == 3);
    CHECK(myp_read_column_count((const uint8_t *)"\x02\x00", 2, 0, MYP_MARIADB_CLIENT_CACHE_METADATA, &c) == MYP_OK && c.count == 2 && c.metadata_follows == 0 && c.used == 2);
    CHECK(myp_read_column_count((const uint8_t *)"\xfb", 1, 0, 0, &c) == MYP_ERROR_INVALID_DATA && c.count == 2);
    uint32_t optional = MYP_CLIENT_OPTIONAL_RESULTSET_METADATA; /* replies.txt: a byte after the count */
    CHECK(myp_read_column_count((const uint8_t *)"\x08\x01", 2, optional, 0, &c) == MYP_OK && c.count == 8 && c.metadata_follows == 1 && c.used == 2);
    CHECK(myp_read_column_count((const uint8_t *)"\x02\x00", 2, optional, 0, &c) == MYP_OK && c.count == 2 && c.metadata_follows == 0);
    CHECK(myp_read_column_count((const uint8_t *)"\x04\x00\x01", 3, optional, MYP_MARIADB_CLIENT_CACHE_METADATA, &c) == MYP_OK && c.count == 4 && c.metadata_follows == 0 && c.used == 2);
    CHECK(myp_read_column_count((const uint8_t *)"\x01\x02", 2, ~optional, 0, &c) == MYP_OK && c.count == 1 && c.metadata_follows == 1 && c.used == 1);
    CHECK(myp_read_column_count((const uint8_t *)"\x01", 1, optional, 0, &c) == MYP_ERROR_UNEXPECTED_EOF && c.count == 1);
}

/* a query and its rows, an execution of a statement that has none, and what doesn't come */
static void conversations(void)
{
    static const uint8_t column[] = "\x03" "def" "\0\0\0\x01" "1\0\x0c\x3f\0\x01\0\0\0\x03\x81\0\0\0\0", eof[] = { 0xfe, 0, 0, 2, 0 }, ok[] = { 0, 0, 0, 2, 0, 0, 0 };
    myp_conversation c = MYP_CONVERSATION_INIT;
    myp_packet p = MYP_PACKET_INIT;
    uint8_t rests = 7;
    CHECK(myp_begin_conversation(0, 0, 0, &c) == MYP_ERROR_INVALID_INPUT && myp_begin_conversation(0, 0, 3, &c) == MYP_ERROR_INVALID_INPUT && c.opening == 0);
    /* one that isn't begun */
    CHECK(myp_next_packet(&c, MYP_SIDE_CLIENT, (const uint8_t *)"\x0e", 1, &p) == MYP_ERROR_INVALID_INPUT && p.command == 0 && c.place == 0);
    CHECK(myp_is_idle(&c, &rests) == MYP_ERROR_INVALID_INPUT && rests == 7);
    CHECK(myp_begin_conversation(0, 0, MYP_OPENING_AFTER_LOGIN, &c) == MYP_OK && myp_is_idle(&c, &rests) == MYP_OK && rests == 0);
    CHECK(myp_next_packet(&c, MYP_SIDE_SERVER, ok, 7, &p) == MYP_OK && p.kind == MYP_PACKET_OK && myp_is_idle(&c, &rests) == MYP_OK && rests == 1);
    CHECK(myp_next_packet(&c, MYP_SIDE_CLIENT, (const uint8_t *)"\x03" "select 1", 9, &p) == MYP_OK && p.kind == MYP_PACKET_COMMAND && p.command == MYP_COM_QUERY);
    CHECK(p.exchange == 1 && myp_next_packet(&c, MYP_SIDE_CLIENT, (const uint8_t *)"\xef", 1, &p) == MYP_ERROR_INVALID_DATA && p.command == MYP_COM_QUERY);
    CHECK(myp_next_packet(&c, MYP_SIDE_SERVER, (const uint8_t *)"\x01", 1, &p) == MYP_OK && p.kind == MYP_PACKET_COLUMN_COUNT && p.columns == 1 && p.metadata_follows == 1 && p.command == 0);
    CHECK(myp_next_packet(&c, MYP_SIDE_SERVER, column, sizeof column - 1, &p) == MYP_OK && p.kind == MYP_PACKET_COLUMN);
    CHECK(myp_next_packet(&c, MYP_SIDE_SERVER, (const uint8_t *)"\x01" "1", 2, &p) == MYP_ERROR_INVALID_DATA && p.kind == MYP_PACKET_COLUMN);
    CHECK(myp_next_packet(&c, MYP_SIDE_SERVER, eof, 5, &p) == MYP_OK && p.kind == MYP_PACKET_EOF);
    myp_conversation copy = c;
    CHECK(myp_next_packet(&copy, MYP_SIDE_SERVER, (const uint8_t *)"\x01" "1", 2, &p) == MYP_OK && p.kind == MYP_PACKET_TEXT_ROW);
    CHECK(myp_next_packet(&copy, MYP_SIDE_SERVER, eof, 5, &p) == MYP_OK && p.kind == MYP_PACKET_EOF && myp_is_idle(&copy, &rests) == MYP_OK && rests == 1);
    CHECK(myp_is_idle(&c, &rests) == MYP_OK && rests == 0 && myp_next_packet(&c, 2, eof, 5, &p) == MYP_ERROR_INVALID_INPUT);
    CHECK(myp_next_packet(&copy, MYP_SIDE_CLIENT, (const uint8_t *)"\x17\1\0\0\0\0\1\0\0\0", 10, &p) == MYP_OK && p.command == MYP_COM_STMT_EXECUTE);
    CHECK(myp_next_packet(&copy, MYP_SIDE_SERVER, (const uint8_t *)"\xff\x15\x04#28000no", 11, &p) == MYP_OK && p.kind == MYP_PACKET_ERROR);
    copy.place = 99;
    CHECK(myp_is_idle(&copy, &rests) == MYP_ERROR_INVALID_INPUT && rests == 0 && myp_next_packet(&copy, MYP_SIDE_SERVER, eof, 5, &p) == MYP_ERROR_INVALID_INPUT && copy.place == 99);
}

/* Eight commands wait while a query is answered, a ninth is refused until one of them is reached, and the answers come in order. */
static void pipelined(void)
{
    static const uint8_t column[] = "\x03" "def" "\0\0\0\x01" "1\0\x0c\x3f\0\x01\0\0\0\x03\x81\0\0\0\0", cursor[] = { 0xfe, 0, 0, 0x42, 0 };
    static const uint8_t ok[] = { 0, 0, 0, 2, 0, 0, 0 }, error[] = "\xff\x15\x04#28000no", ping[] = "\x0e", fetch[] = "\x17\1\0\0\0\1\1\0\0\0", close[] = "\x19\1\0\0\0";
    myp_conversation c = MYP_CONVERSATION_INIT, before;
    myp_packet p = MYP_PACKET_INIT;
    uint8_t rests = 7;
    CHECK(myp_begin_conversation(0, 0, MYP_OPENING_BETWEEN_COMMANDS, &c) == MYP_OK);
    CHECK(myp_next_packet(&c, MYP_SIDE_CLIENT, (const uint8_t *)"\x03" "select 1", 9, &p) == MYP_OK && p.exchange == 1);
    CHECK(myp_next_packet(&c, MYP_SIDE_CLIENT, fetch, 10, &p) == MYP_OK && p.exchange == 2 && myp_next_packet(&c, MYP_SIDE_CLIENT, close, 5, &p) == MYP_OK && p.exchange == 3);
    for (uint64_t n = 4; n < 10; n++)
        CHECK(myp_next_packet(&c, MYP_SIDE_CLIENT, ping, 1, &p) == MYP_OK && p.kind == MYP_PACKET_COMMAND && p.command == MYP_COM_PING && p.exchange == n);
    before = c;
    CHECK(myp_next_packet(&c, MYP_SIDE_CLIENT, ping, 1, &p) == MYP_ERROR_TOO_MANY_COMMANDS && !memcmp(&c, &before, sizeof c) && p.exchange == 9);
    CHECK(myp_next_packet(&c, MYP_SIDE_CLIENT, (const uint8_t *)"\xef", 1, &p) == MYP_ERROR_INVALID_DATA && !memcmp(&c, &before, sizeof c));
    CHECK(myp_next_packet(&c, MYP_SIDE_SERVER, error, 11, &p) == MYP_OK && p.kind == MYP_PACKET_ERROR && p.exchange == 1 && c.exchange == 2 && c.commands == 9);
    CHECK(myp_next_packet(&c, MYP_SIDE_CLIENT, (const uint8_t *)"\x01", 1, &p) == MYP_OK && p.command == MYP_COM_QUIT && p.exchange == 10);
    CHECK(myp_next_packet(&c, MYP_SIDE_CLIENT, ping, 1, &p) == MYP_ERROR_INVALID_DATA && p.exchange == 10);
    /* the execution opens a cursor, so no rows come */
    CHECK(myp_next_packet(&c, MYP_SIDE_SERVER, (const uint8_t *)"\x01", 1, &p) == MYP_OK && p.kind == MYP_PACKET_COLUMN_COUNT && p.exchange == 2);
    CHECK(myp_next_packet(&c, MYP_SIDE_SERVER, column, sizeof column - 1, &p) == MYP_OK && p.exchange == 2 && myp_next_packet(&c, MYP_SIDE_SERVER, cursor, 5, &p) == MYP_OK && p.exchange == 2);
    for (uint64_t n = 4; n < 10; n++)
        CHECK(myp_is_idle(&c, &rests) == MYP_OK && rests == 0 && myp_next_packet(&c, MYP_SIDE_SERVER, ok, 7, &p) == MYP_OK && p.kind == MYP_PACKET_OK && p.exchange == n);
    CHECK(myp_is_idle(&c, &rests) == MYP_OK && rests == 1 && c.exchange == 10 && c.commands == 10 && myp_next_packet(&c, MYP_SIDE_SERVER, ok, 7, &p) == MYP_ERROR_INVALID_DATA);
    /* fewer commands than were answered, and nine that wait */
    for (uint64_t n = 9; n < 20; n += 10) {
        before.exchange = 10, before.commands = n;
        CHECK(myp_is_idle(&before, &rests) == MYP_ERROR_INVALID_INPUT && myp_next_packet(&before, MYP_SIDE_SERVER, ok, 7, &p) == MYP_ERROR_INVALID_INPUT);
    }
}

static uint32_t next_of(myp_conversation *c, uint32_t from, const uint8_t *payload, size_t len, uint8_t *kind)
{
    myp_packet p = MYP_PACKET_INIT;
    uint32_t code = myp_next_packet(c, from, payload, len, &p);
    *kind = code ? 255 : p.kind;
    return code;
}

/* The greeting and the login of the protocol's page on the connection phase: both sides agree on the flags that both have. */
static void sessions(void)
{
    uint8_t greeting[128], login[128], kind, rests = 7;
    size_t n = hex(greeting, "0a352e352e322d6d32000b00000064764840492d434a00fff7080200000000000000000000000000002a34647c635a776b345e5d3a00");
    size_t m = hex(login, "85a6030000000001080000000000000000000000000000000000000000000000" "70616d00" "14ab09eef6bcb1323e61143865c0991d957d75d447" "7465737400");
    myp_conversation c = MYP_CONVERSATION_INIT, tls;
    CHECK(myp_begin_session(&c) == MYP_OK && c.opening == MYP_OPENING_SESSION && myp_is_idle(&c, &rests) == MYP_OK && rests == 0);
    CHECK(next_of(&c, MYP_SIDE_CLIENT, login, m, &kind) == MYP_ERROR_INVALID_DATA && next_of(&c, 2, greeting, n, &kind) == MYP_ERROR_INVALID_INPUT);
    CHECK(next_of(&c, MYP_SIDE_SERVER, greeting, n - 30, &kind) == MYP_ERROR_INVALID_DATA && c.place == 0);
    CHECK(next_of(&c, MYP_SIDE_SERVER, greeting, n, &kind) == MYP_OK && kind == MYP_PACKET_HANDSHAKE && c.capabilities == 0xf7ff && c.opening == MYP_OPENING_SESSION);
    tls = c;
    CHECK(next_of(&c, MYP_SIDE_CLIENT, login, m, &kind) == MYP_OK && kind == MYP_PACKET_LOGIN && c.opening == MYP_OPENING_AFTER_LOGIN && c.capabilities == 0xa685 && c.mariadb_capabilities == 0);
    CHECK(next_of(&c, MYP_SIDE_SERVER, (const uint8_t *)"\0\0\0\2\0\0\0", 7, &kind) == MYP_OK && kind == MYP_PACKET_OK && myp_is_idle(&c, &rests) == MYP_OK && rests == 1);
    /* a request for TLS has the flag that the login after it has too; a login without a name's end is answered by an error */
    login[1] |= MYP_CLIENT_SSL >> 8;
    CHECK(next_of(&tls, MYP_SIDE_CLIENT, login, 32, &kind) == MYP_OK && kind == MYP_PACKET_SSL_REQUEST && tls.opening == MYP_OPENING_SESSION);
    c = tls;
    CHECK(next_of(&c, MYP_SIDE_CLIENT, login, m, &kind) == MYP_OK && kind == MYP_PACKET_LOGIN && c.capabilities == 0xa685);
    CHECK(next_of(&tls, MYP_SIDE_CLIENT, login, 34, &kind) == MYP_OK && kind == MYP_PACKET_LOGIN && tls.opening == MYP_OPENING_SESSION);
    CHECK(next_of(&tls, MYP_SIDE_SERVER, (const uint8_t *)"\xff\x13\x04#08S01no", 11, &kind) == MYP_OK && kind == MYP_PACKET_ERROR && myp_is_idle(&tls, &rests) == MYP_OK && rests == 1);
    CHECK(next_of(&tls, MYP_SIDE_SERVER, (const uint8_t *)"\xff\x13\x04#08S01no", 11, &kind) == MYP_ERROR_INVALID_DATA);
    /* MariaDB's own flags are those of a client that leaves out MYP_CLIENT_LONG_PASSWORD */
    static const uint8_t mariadb[] = "\x0a" "5.5.5-10.11.19-MariaDB\0\x01\0\0\0abcdefgh\0\xfe\xf7\x2d\x02\0\xff\x81\x15\0\0\0\0\0\0\x1d\0\0\0ijklmnopqrst\0mysql_native_password";
    for (uint8_t mysql = 0; mysql < 2; mysql++) {
        static const uint8_t zeros[64];
        memcpy(login, zeros, sizeof zeros), login[0] = mysql, login[1] = 0x82, login[28] = 0x0e, login[32] = 'u';
        CHECK(myp_begin_session(&c) == MYP_OK && next_of(&c, MYP_SIDE_SERVER, mariadb, sizeof mariadb, &kind) == MYP_OK && c.mariadb_capabilities == 0x1d);
        CHECK(next_of(&c, MYP_SIDE_CLIENT, login, 35, &kind) == MYP_OK && c.mariadb_capabilities == (mysql ? 0 : 0x0c) && c.capabilities == 0x8200);
    }
    /* both have MYP_CLIENT_COMPRESS */
    CHECK(myp_begin_session(&c) == MYP_OK && next_of(&c, MYP_SIDE_SERVER, mariadb, sizeof mariadb, &kind) == MYP_OK);
    tls = c, login[0] |= MYP_CLIENT_COMPRESS;
    CHECK(next_of(&c, MYP_SIDE_CLIENT, login, 35, &kind) == MYP_ERROR_COMPRESSED && !memcmp(&c, &tls, sizeof c));
    /* an error in place of the greeting */
    CHECK(myp_begin_session(&c) == MYP_OK && next_of(&c, MYP_SIDE_SERVER, (const uint8_t *)"\xff\x10\x04no", 5, &kind) == MYP_OK && kind == MYP_PACKET_UNSOLICITED_ERROR && myp_is_idle(&c, &rests) == MYP_OK && rests == 1);
}

static void connection(void)
{
    static const uint8_t handshake[] = "\x0a" "5.5.5-10.11.19-MariaDB\0\x01\0\0\0abcdefgh\0\xfe\xf7\x2d\x02\0\xff\x81\x15\0\0\0\0\0\0\x1d\0\0\0ijklmnopqrst\0mysql_native_password";
    myp_handshake h = MYP_HANDSHAKE_INIT;
    CHECK(myp_read_handshake(handshake, sizeof handshake - 1, &h) == MYP_OK);
    CHECK(h.protocol_version == 10 && IS(h.server_version, "5.5.5-10.11.19-MariaDB") && h.connection_id == 1 && h.used == sizeof handshake - 1);
    CHECK(IS(h.scramble_1, "abcdefgh") && IS(h.scramble_2, "ijklmnopqrst\0") && IS(h.auth_plugin_name, "mysql_native_password"));
    CHECK(h.capabilities == 0x81fff7fe && h.mariadb_capabilities == 0x1d && h.default_collation == 0x2d && h.status_flags == 2);
    CHECK(myp_read_handshake(handshake, 30, &h) == MYP_ERROR_UNEXPECTED_EOF && myp_read_handshake(NULL, 0, &h) == MYP_ERROR_UNEXPECTED_EOF);
    /* another version, and an error in place of the greeting */
    static const uint8_t refused[] = "\xff\x10\x04Too many connections";
    CHECK(myp_read_handshake(handshake + 1, sizeof handshake - 2, &h) == MYP_ERROR_INVALID_DATA && myp_read_handshake(refused, sizeof refused - 1, &h) == MYP_ERROR_INVALID_DATA && h.connection_id == 1);
    myp_error e = MYP_ERROR_INIT;
    CHECK(myp_read_error(refused, sizeof refused - 1, 0, &e) == MYP_OK && e.code == 1040 && IS(e.message, "Too many connections"));
    myp_server_version v = MYP_SERVER_VERSION_INIT;
    CHECK(myp_read_server_version(h.server_version.data, h.server_version.len, &v) == MYP_OK && v.major == 5 && v.minor == 5 && v.patch == 5);
    CHECK(myp_read_mariadb_version(h.server_version.data, h.server_version.len, &v) == MYP_OK && v.major == 10 && v.minor == 11 && v.patch == 19);
    CHECK(myp_read_server_version((const uint8_t *)"8.0.1234", 8, &v) == MYP_OK && v.major == 8 && v.minor == 0 && v.patch == 123); /* handshakes.txt: its first row */
    CHECK(myp_read_mariadb_version((const uint8_t *)"8.0.1234", 8, &v) == MYP_ERROR_INVALID_DATA && v.patch == 123);
    CHECK(myp_read_mariadb_version((const uint8_t *)"10.11.6-MariaDB-1", 17, &v) == MYP_OK && v.major == 10 && v.minor == 11 && v.patch == 6);
    CHECK(myp_read_server_version((const uint8_t *)"100.0.1", 7, &v) == MYP_ERROR_INVALID_DATA && myp_read_server_version(NULL, 0, &v) == MYP_ERROR_INVALID_DATA && v.major == 10);
    static const uint8_t change[] = "\xfe" "caching_sha2_password\0aaaaaaaaaaaaaaaaaaaa";
    myp_auth_switch s = MYP_AUTH_SWITCH_INIT;
    CHECK(myp_read_auth_switch(change, sizeof change, &s) == MYP_OK && IS(s.plugin_name, "caching_sha2_password") && s.plugin_data.len == 21 && s.plugin_data.data == change + 23);
    CHECK(myp_read_auth_switch(change, 5, &s) == MYP_ERROR_UNEXPECTED_EOF && myp_read_auth_switch(change + 1, 5, &s) == MYP_ERROR_INVALID_DATA);
    myp_bytes more = MYP_BYTES_INIT;
    CHECK(myp_read_auth_more_data((const uint8_t *)"\x01\x04", 2, &more) == MYP_OK && IS(more, "\x04"));
    CHECK(myp_read_auth_more_data((const uint8_t *)"\x02\x04", 2, &more) == MYP_ERROR_INVALID_DATA && IS(more, "\x04"));
}

static void answers(void)
{
    static const uint8_t schema[] = { 0x00, 0x00, 0x00, 0x02, 0x40, 0x00, 0x00, 0x00, 0x0c, 0x01, 0x0a, 0x09, 'n', 'e', 'w', '_', 's', 'c', 'h', 'm', '1' };
    myp_ok o = MYP_OK_INIT;
    CHECK(myp_read_ok(schema, sizeof schema, MYP_OK_COMMON, MYP_CLIENT_SESSION_TRACK, &o) == MYP_OK && o.status_flags == 0x4002 && o.info.len == 0 && o.session_state.len == 12 && o.session_state.data == schema + 9 && o.used == sizeof schema);
    static const uint8_t rows[] = { 0, 3, 0xfc, 0x10, 0x27, 2, 0, 1, 0 };
    CHECK(myp_read_ok(rows, sizeof rows, MYP_OK_COMMON, 0, &o) == MYP_OK && o.affected_rows == 3 && o.last_insert_id == 10000 && o.warnings == 1 && o.session_state.len == 0);
    CHECK(myp_read_ok(rows, sizeof rows, MYP_OK_TERMINATOR, 0, &o) == MYP_ERROR_INVALID_DATA && o.affected_rows == 3);
    CHECK(myp_read_ok(rows, sizeof rows, 4, 0, &o) == MYP_ERROR_INVALID_INPUT && o.affected_rows == 3);
    static const uint8_t end[] = { 0xfe, 0, 0, 2, 0, 0, 0 }, eof[] = { 0xfe, 1, 0, 2, 0 };
    CHECK(myp_read_ok(end, sizeof end, MYP_OK_TERMINATOR, MYP_CLIENT_DEPRECATE_EOF, &o) == MYP_OK && o.status_flags == 2 && o.affected_rows == 0);
    CHECK(myp_read_ok(eof, sizeof eof, MYP_OK_OLD_EOF, 0, &o) == MYP_OK && o.status_flags == 2 && o.warnings == 1);
    CHECK(myp_read_ok(eof, sizeof eof, MYP_OK_STREAM_END, 0, &o) == MYP_OK && o.warnings == 1 && o.used == 5);
    static const uint8_t err[] = "\xff\x48\x04#HY000No tables used";
    myp_error e = MYP_ERROR_INIT;
    CHECK(myp_read_error(err, sizeof err - 1, MYP_CLIENT_PROTOCOL_41, &e) == MYP_OK && e.code == 1096 && !e.is_progress && IS(e.sql_state, "HY000") && IS(e.message, "No tables used") && e.message.data == err + 9 && e.sql_state.data == err + 4);
    static const uint8_t progress[] = "\xff\xff\xff\x01\x02\x03\x10\x27\x00\x04text";
    CHECK(myp_read_error(progress, sizeof progress - 1, MYP_CLIENT_PROGRESS, &e) == MYP_OK && e.is_progress == 1 && e.stage == 2 && e.max_stage == 3 && e.progress == 10000 && IS(e.message, "text") && e.code == 0xffff);
    myp_bytes file = MYP_BYTES_INIT;
    CHECK(myp_read_local_infile((const uint8_t *)"\xfb/tmp/x", 7, &file) == MYP_OK && IS(file, "/tmp/x"));
    CHECK(myp_read_local_infile((const uint8_t *)"", 0, &file) == MYP_ERROR_UNEXPECTED_EOF && IS(file, "/tmp/x"));
}

static void results(void)
{
    static const uint8_t stmt[] = { 0, 1, 0, 0, 0, 1, 0, 2, 0, 0, 0, 0 };
    myp_statement s = MYP_STATEMENT_INIT;
    CHECK(myp_read_statement(stmt, sizeof stmt, 0, &s) == MYP_OK && s.statement_id == 1 && s.num_columns == 1 && s.num_params == 2 && s.used == 12);
    CHECK(myp_read_statement(stmt, 11, 0, &s) == MYP_ERROR_UNEXPECTED_EOF && myp_read_statement(stmt + 1, 11, 0, &s) != MYP_OK);
    static const uint8_t without[] = { 0, 1, 0, 0, 0, 1, 0, 2, 0, 0, 0, 0, 0 };
    uint8_t back[13] = { 0 };
    size_t n = 0;
    myp_statement m = MYP_STATEMENT_INIT;
    const uint32_t optional = MYP_CLIENT_OPTIONAL_RESULTSET_METADATA;
    CHECK(myp_read_statement(without, 13, optional, &m) == MYP_OK && m.statement_id == 1 && m.num_columns == 1 && m.num_params == 2 && m.metadata_follows == 0 && m.used == 13);
    CHECK(myp_write_statement(&m, optional, back, sizeof back, &n) == MYP_OK && n == 13 && !memcmp(back, without, 13));
    CHECK(myp_read_statement(without, 12, optional, &m) == MYP_ERROR_UNEXPECTED_EOF && m.used == 13);
    CHECK(myp_write_statement(&m, 0, back, sizeof back, &n) == MYP_ERROR_INVALID_INPUT && n == 0);
    CHECK(myp_read_statement(without, 12, 0, &m) == MYP_OK && m.metadata_follows == 1 && m.used == 12);
    CHECK(myp_write_statement(&m, 0, back, 11, &n) == MYP_ERROR_BUFFER_TOO_SMALL && n == 12);
    static const uint8_t column[] = "\003def\004test\003tbl\003org\001a\001b\x0c\x3f\0\x0b\0\0\0\x08\x21\0\0\0\0";
    myp_column c = MYP_COLUMN_INIT;
    CHECK(myp_read_column(column, sizeof column - 1, 0, &c) == MYP_OK && IS(c.schema, "test") && IS(c.table, "tbl") && IS(c.org_table, "org") && IS(c.name, "a") && IS(c.org_name, "b"));
    CHECK(c.character_set == 63 && c.column_length == 11 && c.column_type == MYP_TYPE_LONGLONG && c.flags == 33 && c.decimals == 0 && c.used == sizeof column - 1);
    uint8_t x[64]; /* replies.txt: a column with a type's name and a format's */
    size_t len = hex(x, "0364656602766501740174016a016a090004757569640101610c2d00fffffffffc9000000000");
    myp_column ex = MYP_COLUMN_INIT;
    CHECK(myp_read_column(x, len, MYP_MARIADB_CLIENT_EXTENDED_METADATA, &ex) == MYP_OK && IS(ex.schema, "ve") && IS(ex.name, "j") && ex.column_type == MYP_TYPE_BLOB && ex.flags == 144 && ex.used == len);
    CHECK(ex.has_metadata == 1 && ex.metadata.len == 9 && ex.metadata.data == x + 16);
    myp_column_attribute at = MYP_COLUMN_ATTRIBUTE_INIT;
    CHECK(myp_next_column_attribute(&ex.metadata, &at) == MYP_OK && at.kind == MYP_COLUMN_ATTRIBUTE_TYPE_NAME && IS(at.text, "uuid") && ex.metadata.len == 3);
    CHECK(myp_next_column_attribute(&ex.metadata, &at) == MYP_OK && at.kind == MYP_COLUMN_ATTRIBUTE_FORMAT_NAME && IS(at.text, "a") && ex.metadata.len == 0);
    CHECK(myp_next_column_attribute(&ex.metadata, &at) == MYP_END && at.kind == MYP_COLUMN_ATTRIBUTE_FORMAT_NAME);
    myp_bytes bad = { (const uint8_t *)"\x00\xff", 2 };
    CHECK(myp_next_column_attribute(&bad, &at) == MYP_ERROR_INVALID_DATA && bad.len == 2 && (bad.len = 1) && myp_next_column_attribute(&bad, &at) == MYP_ERROR_UNEXPECTED_EOF && bad.len == 1);
    CHECK(myp_read_column(x, len, 0, &ex) == MYP_ERROR_INVALID_DATA && myp_read_column(x, len - 1, MYP_MARIADB_CLIENT_EXTENDED_METADATA, &ex) == MYP_ERROR_UNEXPECTED_EOF && ex.has_metadata == 1);
    CHECK(myp_read_column(column, sizeof column - 1, 0, &ex) == MYP_OK && ex.has_metadata == 0 && ex.metadata.len == 0 && IS(ex.org_name, "b") && ex.used == sizeof column - 1);
    uint8_t f[64]; /* replies.txt: columns that answer COM_FIELD_LIST */
    len = hex(f, "03646566026839056b696e6473056b696e64730269640269640c3f000b0000000303420000000130");
    myp_field_list_column fl = MYP_FIELD_LIST_COLUMN_INIT;
    CHECK(myp_read_field_list_column(f, len, 0, &fl) == MYP_OK && IS(fl.column.name, "id") && fl.column.has_metadata == 0 && fl.column.used == len);
    CHECK(fl.has_default_value == 1 && fl.default_value.len == 1 && fl.default_value.data == f + len - 1);
    CHECK(myp_read_field_list_column(f, len - 1, 0, &fl) == MYP_ERROR_UNEXPECTED_EOF && myp_read_field_list_column(f, len - 2, 0, &fl) == MYP_ERROR_UNEXPECTED_EOF && fl.has_default_value == 1);
    f[len - 2] = 0xfb;
    CHECK(myp_read_field_list_column(f, len, 0, &fl) == MYP_OK && fl.has_default_value == 0 && fl.default_value.len == 0 && fl.column.used == len - 1);
    f[len - 2] = 0xff;
    CHECK(myp_read_field_list_column(f, len, 0, &fl) == MYP_ERROR_INVALID_DATA && fl.column.used == len - 1);
    static const uint8_t text[] = { 1, '7', 0xfb, 3, 'a', 'b', 'c', 9 };
    myp_value v[4] = { MYP_VALUE_INIT, MYP_VALUE_INIT, MYP_VALUE_INIT, MYP_VALUE_INIT };
    size_t used = 0;
    CHECK(myp_read_text_row(text, sizeof text, v, 3, &used) == MYP_OK && v[0].kind == MYP_VALUE_BYTES && v[1].kind == MYP_VALUE_NULL && v[2].bytes.data == text + 4 && v[2].bytes.len == 3 && used == 7);
    CHECK(myp_read_text_row(text, 6, v, 3, &used) == MYP_ERROR_UNEXPECTED_EOF && used == 7);
    static const uint8_t row[] = { 0, 1 << 3, 0xff, 0xff, 0xff, 0xff, 2, 'o', 'k', 7, 0xe8, 0x07, 2, 29, 23, 59, 58 };
    static const myp_column_type types[] = { { MYP_TYPE_LONG, 0 }, { MYP_TYPE_LONGLONG, 0 }, { MYP_TYPE_VAR_STRING, 0 }, { MYP_TYPE_DATETIME, 0 } };
    CHECK(myp_read_binary_row(row, sizeof row, types, 4, v, 4, &used) == MYP_OK && used == sizeof row);
    CHECK(v[0].kind == MYP_VALUE_INT && (int64_t)v[0].number == -1 && v[1].kind == MYP_VALUE_NULL && v[2].bytes.len == 2 && v[2].bytes.data == row + 7);
    CHECK(v[3].kind == MYP_VALUE_DATE && v[3].days == 2024 && v[3].month == 2 && v[3].day == 29 && v[3].hour == 23 && v[3].minute == 59 && v[3].second == 58 && v[3].micros == 0);
    CHECK(myp_read_binary_row(row, sizeof row, types, 4, v, 3, &used) == MYP_ERROR_BUFFER_TOO_SMALL);
}

#define INT(text) myp_text_to_int((const uint8_t *)(text), sizeof(text) - 1, &i)
#define UINT(text) myp_text_to_uint((const uint8_t *)(text), sizeof(text) - 1, &u)
#define DOUBLE(text) myp_text_to_double((const uint8_t *)(text), sizeof(text) - 1, &d)

static void text_numbers(void)
{
    int64_t i = 7;
    uint64_t u = 7;
    double d = 0.5;
    CHECK(INT("9223372036854775807") == MYP_OK && i == INT64_MAX && INT("-9223372036854775808") == MYP_OK && i == INT64_MIN && INT("+0042") == MYP_OK && i == 42);
    CHECK(INT("9223372036854775808") == MYP_ERROR_OUT_OF_RANGE && INT("-9223372036854775809") == MYP_ERROR_OUT_OF_RANGE && i == 42);
    CHECK(INT("") == MYP_ERROR_INVALID_DATA && INT("-") == MYP_ERROR_INVALID_DATA && INT("1.5") == MYP_ERROR_INVALID_DATA && INT(" 1") == MYP_ERROR_INVALID_DATA && INT("99999999999999999999x") == MYP_ERROR_INVALID_DATA && i == 42);
    CHECK(UINT("18446744073709551615") == MYP_OK && u == UINT64_MAX && UINT("18446744073709551616") == MYP_ERROR_OUT_OF_RANGE && UINT("-1") == MYP_ERROR_OUT_OF_RANGE && UINT("0x10") == MYP_ERROR_INVALID_DATA && u == UINT64_MAX);
    CHECK(DOUBLE("1.7976931348623157e308") == MYP_OK && d == 1.7976931348623157e308 && DOUBLE("-0.1") == MYP_OK && d == -0.1 && DOUBLE("4e-324") == MYP_OK && d > 0);
    CHECK(DOUBLE("1e309") == MYP_ERROR_OUT_OF_RANGE && DOUBLE("-1e999") == MYP_ERROR_OUT_OF_RANGE && DOUBLE("inf") == MYP_ERROR_INVALID_DATA && DOUBLE("nan") == MYP_ERROR_INVALID_DATA && DOUBLE("") == MYP_ERROR_INVALID_DATA && DOUBLE("1e") == MYP_ERROR_INVALID_DATA && d > 0);
}

static void commands(void)
{
    uint8_t out[16];
    size_t n = 0;
    static const struct { uint8_t code, len; const char *text, *wildcard; uint32_t number, rows; const char *bytes; } sent[] = {
        { MYP_COM_QUERY, 9, "select 1", "", 0, 0, "\x03select 1" }, { MYP_COM_INIT_DB, 3, "db", "", 0, 0, "\x02" "db" }, { MYP_COM_PING, 1, "no", "", 9, 9, "\x0e" },
        { MYP_COM_FIELD_LIST, 5, "t", "a%", 0, 0, "\x04t\0a%" }, { MYP_COM_PROCESS_KILL, 5, "", "", 0x01020304, 0, "\x0c\x04\x03\x02\x01" },
        { MYP_COM_STMT_FETCH, 9, "", "", 1, 10, "\x1c\x01\0\0\0\x0a\0\0\0" }, { MYP_COM_SET_OPTION, 3, "", "", 1, 0, "\x1b\x01\0" }, { MYP_COM_REFRESH, 2, "", "", 4, 0, "\x07\x04" },
        { MYP_COM_STMT_RESET, 5, "", "", 5, 0, "\x1a\x05\0\0\0" }, { MYP_COM_STMT_PREPARE, 2, "?", "", 0, 0, "\x16?" } };
    for (size_t i = 0; i < sizeof sent / sizeof *sent; i++) {
        size_t len = sent[i].len;
        myp_command c = { { (const uint8_t *)sent[i].text, strlen(sent[i].text) }, { (const uint8_t *)sent[i].wildcard, strlen(sent[i].wildcard) }, 0, sent[i].number, sent[i].rows, sent[i].code };
        CHECK(myp_write_command(&c, out, sizeof out, &n) == MYP_OK && n == len && !memcmp(out, sent[i].bytes, len));
        CHECK(myp_write_command(&c, out, len - 1, &n) == MYP_ERROR_BUFFER_TOO_SMALL && n == len);
    }
    CHECK(myp_write_query((const uint8_t *)"select 1", 8, NULL, 0, 0, out, sizeof out, &n) == MYP_OK && n == 9 && !memcmp(out, "\x03select 1", 9));
    CHECK(myp_write_query((const uint8_t *)"select 1", 8, NULL, 0, MYP_CLIENT_QUERY_ATTRIBUTES, out, sizeof out, &n) == MYP_OK && n == 11 && !memcmp(out, "\x03\x00\x01select 1", 11));
    CHECK(myp_write_query(NULL, 0, NULL, 0, ~(uint32_t)MYP_CLIENT_QUERY_ATTRIBUTES, out, sizeof out, &n) == MYP_OK && n == 1 && myp_write_query(NULL, 0, NULL, 0, MYP_CLIENT_QUERY_ATTRIBUTES, out, 2, &n) == MYP_ERROR_BUFFER_TOO_SMALL && n == 3);
    myp_command bad = MYP_COMMAND_INIT;
    bad.code = MYP_COM_STMT_EXECUTE;
    CHECK(myp_write_command(&bad, out, sizeof out, &n) == MYP_ERROR_INVALID_INPUT && n == 0);
    bad.code = MYP_COM_REFRESH, bad.number = 256;
    CHECK(myp_write_command(&bad, out, sizeof out, &n) == MYP_ERROR_INVALID_INPUT && n == 0);
    bad.code = MYP_COM_SET_OPTION, bad.number = 65536;
    CHECK(myp_write_command(&bad, out, sizeof out, &n) == MYP_ERROR_INVALID_INPUT && n == 0);
    CHECK(myp_write_close(0x01020304, out, sizeof out, &n) == MYP_OK && n == 5 && !memcmp(out, "\x19\x04\x03\x02\x01", 5));
    CHECK(myp_write_close(1, out, 4, &n) == MYP_ERROR_BUFFER_TOO_SMALL && n == 5 && out[1] == 4);
    myp_long_data data = { { (const uint8_t *)"abc", 3 }, 5, 2 };
    CHECK(myp_write_long_data(&data, out, sizeof out, &n) == MYP_OK && n == 10 && !memcmp(out, "\x18\x05\0\0\0\x02\0abc", 10));
    data.content.len = 0;
    CHECK(myp_write_long_data(&data, out, 6, &n) == MYP_ERROR_BUFFER_TOO_SMALL && n == 7);
}

/* NULL with a length of 0 is an empty string or list, as an argument and in a struct */
static void nulls(void)
{
    static const myp_bytes null = { NULL, 0 };
    uint8_t out[128], again[128];
    size_t n = 0, m = 0, rows = 9;
    uint8_t as_long_data = 7;
    myp_bytes rest = null, name = MYP_BYTES_INIT, value = MYP_BYTES_INIT;
    myp_change change = MYP_CHANGE_INIT;
    CHECK(myp_next_change(&rest, &change) == MYP_END && myp_next_variable(&rest, &name, &value) == MYP_END);
    const myp_execution_options plain = MYP_EXECUTION_OPTIONS_INIT;
    CHECK(myp_write_execution(1, NULL, 0, NULL, 0, &plain, 0, out, sizeof out, &n, &as_long_data) == MYP_OK && n == 10);
    const myp_long_data data = { null, 1, 2 };
    CHECK(myp_write_long_data(&data, out, sizeof out, &n) == MYP_OK && n == 7);
    CHECK(myp_write_close(1, NULL, 0, &n) == MYP_ERROR_BUFFER_TOO_SMALL && n == 5);
    CHECK(myp_scramble_native(NULL, 0, (const uint8_t *)"aaaaaaaaaaaaaaaaaaaa", 20, out, sizeof out, &n) == MYP_OK && n == 0);
    CHECK(myp_write_bulk(1, 0, 64, NULL, 0, NULL, 0, out, sizeof out, &n, &rows) == MYP_ERROR_INVALID_INPUT && rows == 0);
    CHECK(myp_write_text_row(NULL, 0, out, sizeof out, &n) == MYP_OK && n == 0);
    myp_login login = MYP_LOGIN_INIT, other = MYP_LOGIN_INIT;
    other.user = other.auth_response = other.database = other.auth_plugin_name = other.attributes = null;
    other.has_database = login.has_database = other.has_attributes = login.has_attributes = 1;
    CHECK(myp_write_login(&login, NULL, 0, out, sizeof out, &n) == MYP_OK && myp_write_login(&other, NULL, 0, again, sizeof again, &m) == MYP_OK && n == m && !memcmp(out, again, n));
    myp_ok ok = MYP_OK_INIT, empty = MYP_OK_INIT;
    empty.info = empty.session_state = null;
    CHECK(myp_write_ok(&ok, MYP_OK_COMMON, 0, out, sizeof out, &n) == MYP_OK && myp_write_ok(&empty, MYP_OK_COMMON, 0, again, sizeof again, &m) == MYP_OK && n == m && !memcmp(out, again, n));
    myp_value text = myp_text(NULL, 0);
    CHECK(myp_write_text_row(&text, 1, out, sizeof out, &n) == MYP_OK && n == 1 && out[0] == 0);
}

int main(void)
{
    for (uint32_t code = MYP_OK; code <= MYP_ERROR_TOO_MANY_COMMANDS; code++) { /* the header and the library say the same of a code */
        myp_bytes words = MYP_BYTES_INIT;
        CHECK(myp_code_text(code, &words) == MYP_OK && words.len == strlen(myp_error_text(code)) && !memcmp(words.data, myp_error_text(code), words.len));
    }
    myp_bytes kept = { (const uint8_t *)"kept", 4 };
    CHECK(myp_code_text(MYP_ERROR_TOO_MANY_COMMANDS + 1, &kept) == MYP_ERROR_INVALID_INPUT && myp_code_text(UINT32_MAX, &kept) == MYP_ERROR_INVALID_INPUT && IS(kept, "kept"));
    CHECK(myp_supported_capabilities() == (0x7fffffffu & ~(MYP_CLIENT_COMPRESS | MYP_CLIENT_ZSTD_COMPRESSION_ALGORITHM)) && myp_supported_mariadb_capabilities() == (0x3fu & ~MYP_MARIADB_CLIENT_COM_MULTI));
    CHECK(myp_version() == MYP_VERSION && !strcmp(myp_error_text(MYP_OK), "success") && !strcmp(myp_error_text(MYP_END), "end of the list"));
    CHECK(sizeof(myp_bytes) == 16 && sizeof(myp_value) == 40 && sizeof(myp_column_type) == 2 && sizeof(myp_header) == 8);
    CHECK(sizeof(myp_column) == 120 && sizeof(myp_ok) == 64 && sizeof(myp_error) == 56 && sizeof(myp_handshake) == 88 && sizeof(myp_statement) == 24 && sizeof(myp_column_count) == 24);
    CHECK(sizeof(myp_change) == 56 && sizeof(myp_login) == 112 && sizeof(myp_change_user) == 96 && sizeof(myp_ssl_request) == 16 && sizeof(myp_connection_attribute) == 32 && sizeof(myp_bulk_rule) == 16);
    CHECK(sizeof(myp_register_replica) == 72 && sizeof(myp_interval) == 16 && sizeof(myp_sid) == 72 && sizeof(myp_ssl_request) == 16);
    CHECK(sizeof(myp_server_version) == 6 && sizeof(myp_field_list_column) == 144 && sizeof(myp_column_attribute) == 24 && sizeof(myp_stream_packet) == 24 && sizeof(myp_table_dump) == 40 && sizeof(myp_semi_sync_ack) == 24 && sizeof(myp_command) == 56 && sizeof(myp_bulk_head) == 24 && sizeof(myp_parameter) == 64 && sizeof(myp_execution_options) == 8);
    CHECK(sizeof(myp_long_data) == 24 && sizeof(myp_execution_head) == 24 && sizeof(myp_bound_param) == 3 && sizeof(myp_dump) == 32 && sizeof(myp_gtid_dump) == 64 && sizeof(myp_sid_places) == 56 && sizeof(myp_execution) == 24 && sizeof(myp_conversation) == 56 && sizeof(myp_packet) == 24 && sizeof(myp_frame) == 24);
    headers();
    replies();
    conversations();
    pipelined();
    sessions();
    connection();
    answers();
    results();
    text_numbers();
    commands();
    client_checks();
    replica_checks();
    server_checks();
    nulls();
    printf("%d passed, %d failed\n", passed, failed);
    return failed != 0;
}
