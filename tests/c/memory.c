/* Refuses all memory: each call of the header is done without it, and asks for none, whether it reads, writes or refuses. header.py
 * fails where a call has no row here. Link with -Wl,--wrap=malloc,--wrap=realloc,--wrap=calloc,--wrap=free. */
#include "abi.h"
#include <stdlib.h>

static unsigned long asked, given_up;
static int refuses;
void *__real_malloc(size_t), *__real_realloc(void *, size_t), *__real_calloc(size_t, size_t);
void __real_free(void *);
void *__wrap_malloc(size_t n) { asked++; return refuses ? NULL : __real_malloc(n); }
void *__wrap_calloc(size_t k, size_t n) { asked++; return refuses ? NULL : __real_calloc(k, n); }
void *__wrap_realloc(void *p, size_t n) { asked++; return refuses ? NULL : __real_realloc(p, n); }
void __wrap_free(void *p) { given_up++; __real_free(p); }

int passed, failed;
#define TEXT(text) { (const uint8_t *)(text), sizeof(text) - 1 }
static uint8_t out[4096];
static uint8_t packet[256]; /* what a row reads, and its length */
static size_t len;

/* counts a row that keeps the contract, and shows one that does not */
static void check(int line, const char *call, uint32_t code, int good)
{
    if (good) {
        passed++;
        return;
    }
    printf("  FAILED: memory.c, line %d: code %u, %lu requests for memory, %s\n", line, code, asked, call);
    failed++;
}

/* sets `code` to what the call returns while all memory is refused */
#define WITHOUT_MEMORY(call) do { asked = given_up = 0, refuses = 1; code = (call); refuses = 0; } while (0)
#define ASKED_FOR_NONE (asked == 0 && given_up == 0)

/* A row: the call answers this code and sets this field. */
#define ROW(call, expected, field) do { \
    uint32_t code; \
    WITHOUT_MEMORY(call); \
    check(__LINE__, #call, code, code == (expected) && (field) && ASKED_FOR_NONE); } while (0)

/* A row of a writer, which is passed `out, size, &n`: it writes a given number of bytes, and refuses a buffer of one byte fewer. */
#define WRITES(count, call) do { \
    size_t size = sizeof out, n = 77; \
    ROW(call, MYP_OK, n == (count)); \
    size = (count) - 1, n = 77; \
    ROW(call, MYP_ERROR_BUFFER_TOO_SMALL, n == (count)); } while (0)

/* A row of a reader, which is passed `packet, len` or begins at `REST`: it reads the packet and sets this field; and of each packet
 * that is cut, whether it is one or not, it takes no memory either. */
#define REST ((myp_bytes){ packet, len })
#define READ(call, field) do { \
    ROW(call, MYP_OK, field); \
    uint32_t code = MYP_OK; \
    int good = 1; \
    while (good && len > 0) { \
        len--; \
        WITHOUT_MEMORY(call); \
        good = code <= MYP_ERROR_TOO_MANY_COMMANDS && code != MYP_ERROR_TOO_LARGE && ASKED_FOR_NONE; \
    } \
    check(__LINE__, "a cut packet, " #call, code, good); } while (0)
#define READS(text, call, field) do { len = sizeof(text) - 1, memcpy(packet, text, len); READ(call, field); } while (0)
#define READS_HEX(digits, call, field) do { len = hex(packet, digits); READ(call, field); } while (0)

static void numbers(void)
{
    myp_bytes text = MYP_BYTES_INIT;
    ROW(myp_version(), MYP_VERSION, 1);
    ROW(myp_supported_capabilities() & MYP_CLIENT_PROTOCOL_41, MYP_CLIENT_PROTOCOL_41, 1);
    ROW(myp_supported_mariadb_capabilities() & MYP_MARIADB_CLIENT_EXTENDED_METADATA, MYP_MARIADB_CLIENT_EXTENDED_METADATA, 1);
    ROW(myp_code_text(MYP_END, &text), MYP_OK, text.len == strlen(myp_error_text(MYP_END)));
    ROW(myp_code_text(MYP_ERROR_TOO_MANY_COMMANDS + 1, &text), MYP_ERROR_INVALID_INPUT, text.len == strlen(myp_error_text(MYP_END)));
}

static void headers(void)
{
    myp_header header = MYP_HEADER_INIT;
    myp_frame frame = MYP_FRAME_INIT;
    myp_bytes rest;
    READS("\5\0\1\7", myp_read_header(packet, len, &header), header.payload_length == 0x10005);
    READS("\1\0\0\0\x0e", (rest = REST, myp_next_frame(&rest, &frame)), frame.content.len == 1);
    WRITES(4, myp_write_header(5, 1, out, size, &n));
}

static void conversations(void)
{
    myp_conversation begun = MYP_CONVERSATION_INIT, session = MYP_CONVERSATION_INIT, conversation;
    myp_packet next = MYP_PACKET_INIT;
    uint8_t rests = 7;
    ROW(myp_begin_conversation(0, 0, MYP_OPENING_AFTER_LOGIN, &begun), MYP_OK, begun.opening == MYP_OPENING_AFTER_LOGIN);
    ROW(myp_begin_conversation(0, 0, 3, &begun), MYP_ERROR_INVALID_INPUT, begun.opening == MYP_OPENING_AFTER_LOGIN);
    ROW(myp_is_idle(&begun, &rests), MYP_OK, rests == 0);
    ROW(myp_begin_session(&session), MYP_OK, session.opening == MYP_OPENING_SESSION);
    READS("\x0a" "5.5.5-10.11.19-MariaDB\0\x01\0\0\0abcdefgh\0\xfe\xf7\x2d\x02\0\xff\x81\x15\0\0\0\0\0\0\x1d\0\0\0ijklmnopqrst\0mysql_native_password",
          (conversation = session, myp_next_packet(&conversation, MYP_SIDE_SERVER, packet, len, &next)), next.kind == MYP_PACKET_HANDSHAKE);
    session.place = 1;
    READS("\0\x82\0\0\0\0\0\1\x2d\0\0\0\0\0\0\0\0\0\0\0\0\0\0\0\0\0\0\0\0\0\0\0u\0\0",
          (conversation = session, myp_next_packet(&conversation, MYP_SIDE_CLIENT, packet, len, &next)), next.kind == MYP_PACKET_LOGIN);
    ROW(myp_is_idle(&session, &rests), MYP_OK, rests == 0);
    READS("\0\0\0\2\0\0\0", (conversation = begun, myp_next_packet(&conversation, MYP_SIDE_SERVER, packet, len, &next)), next.kind == MYP_PACKET_OK);
    /* a query, and the commands that wait for its answer */
    ROW(myp_begin_conversation(0, 0, MYP_OPENING_BETWEEN_COMMANDS, &begun), MYP_OK, begun.opening == MYP_OPENING_BETWEEN_COMMANDS);
    for (uint64_t n = 1; n < 10; n++)
        ROW(myp_next_packet(&begun, MYP_SIDE_CLIENT, (const uint8_t *)"\3do 1", 5, &next), MYP_OK, next.exchange == n);
    ROW(myp_next_packet(&begun, MYP_SIDE_CLIENT, (const uint8_t *)"\3do 1", 5, &next), MYP_ERROR_TOO_MANY_COMMANDS, next.exchange == 9);
}

static void text_numbers(void)
{
    int64_t i = 7;
    uint64_t u = 7;
    double d = 7;
    READS("-9223372036854775808", myp_text_to_int(packet, len, &i), i == INT64_MIN);
    READS("18446744073709551615", myp_text_to_uint(packet, len, &u), u == UINT64_MAX);
    READS("-1.7976931348623157e308", myp_text_to_double(packet, len, &d), d == -1.7976931348623157e308);
}

/* what a client reads of a server */
static void read_connection(void)
{
    myp_handshake handshake = MYP_HANDSHAKE_INIT;
    myp_server_version version = MYP_SERVER_VERSION_INIT;
    myp_auth_switch request = MYP_AUTH_SWITCH_INIT;
    myp_bytes content = MYP_BYTES_INIT;
    size_t used = 7;
    uint32_t iterations = 7;
    READS("\x0a" "5.5.5-10.11.19-MariaDB\0\x01\0\0\0abcdefgh\0\xfe\xf7\x2d\x02\0\xff\x81\x15\0\0\0\0\0\0\x1d\0\0\0ijklmnopqrst\0mysql_native_password",
          myp_read_handshake(packet, len, &handshake), handshake.connection_id == 1);
    READS("8.0.1234", myp_read_server_version(packet, len, &version), version.major == 8);
    READS("10.11.6-MariaDB-1", myp_read_mariadb_version(packet, len, &version), version.minor == 11);
    READS("\xfe" "caching_sha2_password\0aaaaaaaaaaaaaaaaaaaa", myp_read_auth_switch(packet, len, &request), request.plugin_data.len == 20);
    READS("\x02" "mysql_native_password\0aaaaaaaaaaaaaaaaaaaa", myp_read_auth_next_factor(packet, len, &request), request.plugin_data.len == 20);
    READS("\xfe", myp_read_old_auth_switch(packet, len, &used), used == 1);
    READS("\1\4", myp_read_auth_more_data(packet, len, &content), content.len == 1);
    READS("\x01-----BEGIN", myp_read_public_key(packet, len, &content), content.len == 10);
    READS("P\x02" "abcdefghijklmnopqr", myp_read_parsec_salt(packet, len, &iterations, &content), iterations == 4096);
}

static void read_replies(void)
{
    myp_ok ok = MYP_OK_INIT;
    myp_change change = MYP_CHANGE_INIT;
    myp_error error = MYP_ERROR_INIT;
    myp_bytes rest, name = MYP_BYTES_INIT, value = MYP_BYTES_INIT;
    READS("\0\3\xfc\x10\x27\2\0\1\0", myp_read_ok(packet, len, MYP_OK_COMMON, MYP_CLIENT_SESSION_TRACK, &ok), ok.last_insert_id == 10000);
    READS("\xfe\0\0\2\0\0\0", myp_read_ok(packet, len, MYP_OK_TERMINATOR, MYP_CLIENT_DEPRECATE_EOF, &ok), ok.status_flags == 2);
    READS("\xfe\1\0\2\0", myp_read_ok(packet, len, MYP_OK_OLD_EOF, 0, &ok), ok.warnings == 1);
    READS("\xfe\2\0\2\0", myp_read_ok(packet, len, MYP_OK_STREAM_END, 0, &ok), ok.warnings == 2);
    READS("\1\5\4test", (rest = REST, myp_next_change(&rest, &change)), IS(change.text, "test"));
    READS("\x0a" "autocommit\3OFF", (rest = REST, myp_next_variable(&rest, &name, &value)), IS(value, "OFF"));
    READS("\xff\x48\x04#HY000No tables used", myp_read_error(packet, len, MYP_CLIENT_PROTOCOL_41, &error), error.code == 1096);
    READS("\xff\xff\xff\x01\x02\x03\x10\x27\x00\x04text", myp_read_error(packet, len, MYP_CLIENT_PROGRESS, &error), error.progress == 10000);
    READS("\xfb/tmp/x", myp_read_local_infile(packet, len, &name), name.len == 6);
}

static void read_results(void)
{
    static const myp_value none = MYP_VALUE_INIT;
    static const myp_column_type types[] = { { MYP_TYPE_LONG, 0 }, { MYP_TYPE_LONGLONG, 0 }, { MYP_TYPE_VAR_STRING, 0 }, { MYP_TYPE_DATETIME, 0 } };
    myp_column_count count = MYP_COLUMN_COUNT_INIT;
    myp_statement statement = MYP_STATEMENT_INIT;
    myp_column column = MYP_COLUMN_INIT;
    myp_field_list_column listed = MYP_FIELD_LIST_COLUMN_INIT;
    myp_column_attribute attribute = MYP_COLUMN_ATTRIBUTE_INIT;
    myp_value values[4] = { none, none, none, none };
    myp_bytes rest;
    size_t used = 7;
    READS("\x08\x01", myp_read_column_count(packet, len, MYP_CLIENT_OPTIONAL_RESULTSET_METADATA, 0, &count), count.count == 8);
    READS("\0\1\0\0\0\1\0\2\0\0\0\0", myp_read_statement(packet, len, 0, &statement), statement.num_params == 2);
    READS("\0\1\0\0\0\1\0\2\0\0\0\0\1", myp_read_statement(packet, len, MYP_CLIENT_OPTIONAL_RESULTSET_METADATA, &statement), statement.metadata_follows == 1);
    READS("\003def\004test\003tbl\003org\001a\001b\x0c\x3f\0\x0b\0\0\0\x08\x21\0\0\0\0", myp_read_column(packet, len, 0, &column), column.column_length == 11);
    READS_HEX("0364656602766501740174016a016a090004757569640101610c2d00fffffffffc9000000000",
              myp_read_column(packet, len, MYP_MARIADB_CLIENT_EXTENDED_METADATA, &column), column.metadata.len == 9);
    READS_HEX("03646566026839056b696e6473056b696e64730269640269640c3f000b0000000303420000000130",
              myp_read_field_list_column(packet, len, 0, &listed), listed.has_default_value == 1);
    READS("\0\4uuid", (rest = REST, myp_next_column_attribute(&rest, &attribute)), IS(attribute.text, "uuid"));
    READS("\1" "7\xfb\3abc", myp_read_text_row(packet, len, values, 3, &used), used == 7);
    READS_HEX("0008ffffffff026f6b07e807021d173b3a", myp_read_binary_row(packet, len, types, 4, values, 4, &used), values[3].days == 2024);
}

/* what a server reads of a client */
static void read_logins(void)
{
    static const uint32_t both = MYP_CLIENT_PLUGIN_AUTH | MYP_CLIENT_CONNECT_ATTRS;
    myp_ssl_request tls = MYP_SSL_REQUEST_INIT;
    myp_login login = MYP_LOGIN_INIT;
    myp_change_user change = MYP_CHANGE_USER_INIT;
    myp_bytes rest, name = MYP_BYTES_INIT, value = MYP_BYTES_INIT;
    size_t used = 7;
    READS_HEX("05aaae81000000012d" "00000000000000000000000000000000000000" "1d000000", myp_read_ssl_request(packet, len, &tls), tls.mariadb_capabilities == 29);
    READS_HEX("0da2be81000000012d" "0000000000000000000000000000000000000000000000" "726f6f7400" "00" "6d79646200"
              "6d7973716c5f6e61746976655f70617373776f726400" "08016101620263" "6400", myp_read_login(packet, len, &login), login.attributes.len == 8);
    READS("\1a\1b", (rest = REST, myp_next_connection_attribute(&rest, &name, &value)), IS(value, "b"));
    READS("\2", myp_read_public_key_request(packet, len, &used), used == 1);
    READS_HEX("11750002010264000201636c69656e745f656432353531390004016b0176", myp_read_change_user(packet, len, both, &change), change.character_set == 258);
}

static void read_commands(void)
{
    static const myp_value none = MYP_VALUE_INIT;
    static const myp_bound_param params[] = { { MYP_TYPE_LONGLONG, 0, 0 }, { MYP_TYPE_LONGLONG, 0, 0 } };
    static const myp_column_type columns[] = { { MYP_TYPE_LONG, 0 }, { MYP_TYPE_STRING, 0 }, { MYP_TYPE_LONGLONG, 1 } };
    myp_command command = MYP_COMMAND_INIT;
    myp_parameter attribute = MYP_PARAMETER_INIT;
    myp_long_data data = MYP_LONG_DATA_INIT;
    myp_execution_head head = MYP_EXECUTION_HEAD_INIT;
    myp_execution execution = MYP_EXECUTION_INIT;
    myp_bulk_head bulk = MYP_BULK_HEAD_INIT;
    myp_column_type types[3] = { { 0, 0 }, { 0, 0 }, { 0, 0 } };
    myp_value values[3] = { none, none, none };
    myp_bytes rest, names[2] = { MYP_BYTES_INIT, MYP_BYTES_INIT };
    uint8_t indicators[3] = { 7, 7, 7 };
    uint32_t id = 7;
    READS("\x1c\1\0\0\0\x0a\0\0\0", myp_read_command(packet, len, 0, &command), command.rows == 10);
    READS_HEX("03010100010880002a00000000000000", myp_read_query_attribute(packet, len, 0, &attribute), attribute.value.number == 42);
    READS("\x19\4\3\2\1", myp_read_close(packet, len, &id), id == 0x01020304);
    READS_HEX("18050000000200616263", myp_read_long_data(packet, len, &data), IS(data.content, "abc"));
    READS_HEX("17010000000001000000", myp_read_execution_head(packet, len, &head), head.used == 10);
    READS_HEX("170100000000010000000101060008000100000000000000", myp_read_execution(packet, len, 0, params, 2, values, 3, types, 3, &execution), values[1].number == 1);
    READS_HEX("17010000000801000000030001080000080000fe00016107000000000000000700000000000000017a",
              myp_read_execution_attribute(packet, len, MYP_CLIENT_QUERY_ATTRIBUTES, params, 2, 0, &attribute), IS(attribute.name, "a"));
    READS_HEX("17010000000801000000020001080001700800017107000000000000000700000000000000",
              myp_read_execution_names(packet, len, MYP_CLIENT_QUERY_ATTRIBUTES, params, 2, names, 2), IS(names[1], "q"));
    READS_HEX("fa0100000080000300", myp_read_bulk_head(packet, len, &bulk), bulk.rows.len == 2);
    READS_HEX("0300fe000880", (rest = REST, myp_read_bulk_types(&rest, types, 3)), types[2].is_unsigned == 1);
    READS_HEX("002a000000" "00026869" "00ffffffffffffffff", (rest = REST, myp_next_bulk_row(&rest, columns, 3, values, 3, indicators, 3)), values[2].number == UINT64_MAX);
}

/* what a source and a replica read of each other */
static void read_replication(void)
{
    static const char sids[] = "3e11fa4771ca11e19e33c80aa942956206617070" "0100000000000000" "0100000000000000" "6400000000000000";
    static const char by_gtid[] = "1e04002a0000000000000004000000000000005d00000000020000000000013e11fa4771ca11e19e33c80aa942956206617070010000000000000001000000000000006400000000000000a0b1c2d3e4f56789abcdef012345678900010000000000000001000000000000003200000000000000";
    static const myp_interval nothing = MYP_INTERVAL_INIT;
    myp_dump dump = MYP_DUMP_INIT;
    myp_table_dump of_table = MYP_TABLE_DUMP_INIT;
    myp_semi_sync_ack ack = MYP_SEMI_SYNC_ACK_INIT;
    myp_register_replica replica = MYP_REGISTER_REPLICA_INIT;
    myp_gtid_dump gtids = MYP_GTID_DUMP_INIT;
    myp_sid_places places = MYP_SID_PLACES_INIT;
    myp_stream_packet event = MYP_STREAM_PACKET_INIT;
    myp_interval interval = MYP_INTERVAL_INIT, intervals[2] = { nothing, nothing };
    myp_sid sid = MYP_SID_INIT;
    myp_bytes rest;
    size_t count = 7;
    READS_HEX("12040000000100070000006d62696e2e303030303031", myp_read_dump(packet, len, &dump), dump.position == 4);
    READS_HEX("130264620174", myp_read_table_dump(packet, len, &of_table), of_table.used == 6);
    READS_HEX("ef96650000000000006d62696e2e303030303031", myp_read_semi_sync_ack(packet, len, &ack), ack.position == 0x6596);
    READS_HEX("154d000000107665632d686f73742e6578616d706c6500009f0f0000000000000000", myp_read_register_replica(packet, len, &replica), replica.port == 3999);
    READS_HEX(by_gtid, myp_read_gtid_dump(packet, len, &gtids), gtids.n_sids == 2);
    READS_HEX(by_gtid, myp_gtid_dump_to_text(packet, len, out, sizeof out, &count), count == 36 + 9 + 2 + 36 + 5);
    READS_HEX(sids, (rest = REST, myp_next_sid(&rest, 1, &places)), places.n_intervals == 1);
    READS_HEX("01000000000000006400000000000000", (rest = REST, myp_next_interval(&rest, &interval)), interval.end == 100);
    READS_HEX("00ef01784f096b10010000001f0000005d0200000000a606000000000000cabeb63b", myp_read_stream_packet(packet, len, 1, &event), event.wants_ack == 1);
    READS("3e11fa47-71ca-11e1-9e33-c80aa9429562:1-5:7", myp_sid_from_text(packet, len, &sid, intervals, 2, &count), count == 2);
}

/* what a client and a replica say */
static void write_logins(void)
{
    static const myp_connection_attribute attributes[] = { { TEXT("program"), TEXT("memory") }, { TEXT("of"), TEXT("tests") } };
    static const myp_bytes text = TEXT("some bytes");
    myp_login login = MYP_LOGIN_INIT;
    myp_change_user change = MYP_CHANGE_USER_INIT;
    myp_ssl_request tls = MYP_SSL_REQUEST_INIT;
    login.user = text, login.auth_plugin_name = text, login.has_auth_plugin_name = 1, login.has_attributes = 1, login.capabilities = 2175705605u;
    change.user = text, change.auth_plugin_name = text;
    WRITES(32 + 11 + 1 + 11 + 25, myp_write_login(&login, attributes, 2, out, size, &n));
    WRITES(1 + 11 + 1 + 1 + 2 + 11 + 25, myp_write_change_user(&change, attributes, 2, MYP_CLIENT_PLUGIN_AUTH | MYP_CLIENT_CONNECT_ATTRS, out, size, &n));
    WRITES(32, myp_write_ssl_request(&tls, out, size, &n));
    WRITES(1, myp_write_public_key_request(out, size, &n));
    WRITES(20, myp_scramble_native((const uint8_t *)"password", 8, (const uint8_t *)"abcdefghijklmnopqrst", 20, out, size, &n));
    WRITES(32, myp_scramble_sha2((const uint8_t *)"password", 8, (const uint8_t *)"abcdefghijklmnopqrst", 20, out, size, &n));
}

static void write_commands(void)
{
    static const uint8_t four[] = { MYP_TYPE_TINY, MYP_TYPE_STRING, MYP_TYPE_LONG, MYP_TYPE_BLOB };
    static const myp_bytes text = TEXT("some bytes");
    static const myp_command command = { TEXT("t"), TEXT("%"), 0, 0, 0, MYP_COM_FIELD_LIST };
    static const myp_long_data data = { TEXT("abc"), 5, 2 };
    static const myp_execution_options options = { 0, MYP_CURSOR_READ_ONLY, 0 };
    const myp_value v[4] = { myp_int(1), myp_text("a", 1), myp_int(2), myp_text("bc", 2) };
    const myp_parameter named[2] = { { v[0], text, 0, 0, 0, 0 }, { v[1], text, 0, 0, 0, 0 } };
    myp_parameter plain[4], typed[4];
    uint8_t as_long_data = 0;
    for (size_t i = 0; i < 4; i++)
        plain[i] = typed[i] = myp_param(v[i]), typed[i].has_type = 1, typed[i].column_type = four[i];
    WRITES(4, myp_write_command(&command, out, size, &n));
    WRITES(11, myp_write_query((const uint8_t *)"select 1", 8, NULL, 0, MYP_CLIENT_QUERY_ATTRIBUTES, out, size, &n));
    WRITES(5 + 2 * 13 + 8 + 2 + 10, myp_write_query(text.data, text.len, named, 2, MYP_CLIENT_QUERY_ATTRIBUTES, out, size, &n));
    WRITES(5, myp_write_close(1, out, size, &n));
    WRITES(10, myp_write_long_data(&data, out, size, &n));
    WRITES(12 + 4 * 2 + 21, myp_write_execution(1, plain, 4, NULL, 0, &options, 0, out, size, &n, &as_long_data));
    WRITES(13 + 8 * 3 + 2 * 10, myp_write_execution(1, typed, 4, typed, 4, &options, MYP_CLIENT_QUERY_ATTRIBUTES, out, size, &n, &as_long_data));
    WRITES(13 + 4 * 3 + 2 * 13 + 21 + 10, myp_write_execution(1, plain, 4, named, 2, &options, MYP_CLIENT_QUERY_ATTRIBUTES, out, size, &n, &as_long_data));
}

static void write_bulks(void)
{
    static const myp_column_type types[] = { { MYP_TYPE_LONGLONG, 0 }, { MYP_TYPE_VAR_STRING, 0 } };
    static const myp_bulk_rule rule = MYP_BULK_RULE_INIT;
    static const uint64_t two[] = { 12, 13 };
    static const size_t ends[] = { 2 };
    const myp_value v[4] = { myp_int(1), myp_text("a", 1), myp_int(2), myp_text("bc", 2) };
    uint64_t sizes[2] = { 7, 7 };
    size_t rows = 7, used = 11;
    uint8_t yes = 7;
    WRITES(11 + 12 + 13, myp_write_bulk(1, 0, 1 << 20, types, 2, v, 4, out, size, &n, &rows));
    WRITES(11, myp_begin_bulk(1, 0, types, 2, out, size, &n));
    WRITES(11 + 12, (used = 11, myp_add_bulk_row(types, 2, v, 2, 1 << 20, out, size, &used, &n)));
    ROW(myp_bulk_row_sizes(types, 2, v, 4, sizes, 2, &rows), MYP_OK, rows == 2 && sizes[0] == two[0] && sizes[1] == two[1]);
    ROW(myp_bulk_row_sizes(types, 2, v, 4, sizes, 1, &rows), MYP_ERROR_BUFFER_TOO_SMALL, rows == 2);
    ROW(myp_bulk_cut_is_fewest(&rule, 11 + 12 + 13, 2, two, 2, ends, 1, &yes), MYP_OK, yes == 1);
}

static void write_replication(void)
{
    static const myp_interval intervals[] = { { 1, 100 }, { 200, 300 } };
    static const char set[] = "3e11fa47-71ca-11e1-9e33-c80aa9429562:1-8:app:1-3:5-6";
    static const myp_register_replica replica = MYP_REGISTER_REPLICA_INIT;
    static const myp_dump by_position = { TEXT("some bytes"), 1, 4, 0 };
    static const myp_table_dump of_table = { TEXT("some bytes"), TEXT("some bytes"), 0 };
    static const myp_semi_sync_ack ack = { TEXT("some bytes"), 4 };
    static const myp_bytes text = TEXT("some bytes");
    static const uint8_t event[] = "some bytes";
    const myp_stream_packet of_stream = { { event, 10 }, MYP_STREAM_EVENT, 1 };
    static uint8_t dump[256];
    myp_gtid_dump by_gtid = MYP_GTID_DUMP_INIT;
    myp_sid sid = MYP_SID_INIT;
    size_t used = 0;
    sid.intervals = intervals, sid.n_intervals = 2, sid.tag[0] = 'a', sid.tag_length = 1;
    by_gtid.file_name = text, by_gtid.server_id = 1, by_gtid.position = 4;
    WRITES(18, myp_write_register_replica(&replica, out, size, &n));
    WRITES(11 + 10, myp_write_dump(&by_position, out, size, &n));
    WRITES(1 + 11 + 11, myp_write_table_dump(&of_table, out, size, &n));
    WRITES(9 + 10, myp_write_semi_sync_ack(&ack, out, size, &n));
    WRITES(3 + 10, myp_write_stream_packet(&of_stream, 1, out, size, &n));
    WRITES(33 + 8 + 18 + 8 + 32, myp_write_gtid_dump(&by_gtid, &sid, 1, out, size, &n));
    WRITES(36 + 2 + 5 + 8, myp_sids_to_text(&sid, 1, out, size, &n));
    WRITES(33 + 8 + 41 + 60, myp_gtid_dump_from_text(&by_gtid, (const uint8_t *)set, sizeof set - 1, out, size, &n));
    ROW(myp_gtid_dump_from_text(&by_gtid, (const uint8_t *)set, sizeof set - 1, dump, sizeof dump, &used), MYP_OK, used == 33 + 8 + 41 + 60);
    WRITES(sizeof set - 1, myp_gtid_dump_to_text(dump, used, out, size, &n));
}

/* what a server says */
static void write_connection(void)
{
    static const myp_handshake handshake = { TEXT("5.5.5-10.11.19-MariaDB"), TEXT("abcdefgh"), TEXT("ijklmnopqrst\0"), TEXT("mysql_native_password"), 0, 1, 0x81fff7fe, 0x1d, 2, 10, 0x2d };
    static const myp_auth_switch request = { TEXT("mysql_native_password"), TEXT("zQg4i6oNy6=rHN/>-b)A\0") };
    WRITES(90, myp_write_handshake(&handshake, out, size, &n));
    WRITES(1 + 22 + 21, myp_write_auth_switch(&request, out, size, &n));
    WRITES(1 + 22 + 21, myp_write_auth_next_factor(&request, out, size, &n));
    WRITES(1, myp_write_old_auth_switch(out, size, &n));
    WRITES(2, myp_write_auth_more_data((const uint8_t *)"\4", 1, out, size, &n));
    WRITES(11, myp_write_public_key((const uint8_t *)"-----BEGIN", 10, out, size, &n));
}

static void write_replies(void)
{
    static const myp_ok ok = { 3, 10000, TEXT("info"), TEXT("\1\5\4name"), 0, 0x4002, 1 };
    static const myp_error error = { TEXT("HY000"), TEXT("No tables used"), 0, 23500, 1096, 0, 1, 10 };
    WRITES(9 + 5 + 8, myp_write_ok(&ok, MYP_OK_COMMON, MYP_CLIENT_SESSION_TRACK, out, size, &n));
    WRITES(7 + 5 + 8, myp_write_ok(&ok, MYP_OK_TERMINATOR, MYP_CLIENT_SESSION_TRACK, out, size, &n));
    WRITES(5, myp_write_ok(&ok, MYP_OK_OLD_EOF, 0, out, size, &n));
    WRITES(5, myp_write_ok(&ok, MYP_OK_STREAM_END, 0, out, size, &n));
    WRITES(2 + 5, myp_write_change(MYP_SESSION_TRACK_SCHEMA, (const uint8_t *)"\4name", 5, out, size, &n));
    WRITES(3 + 6 + 14, myp_write_error(&error, out, size, &n));
    WRITES(9 + 1 + 14, myp_write_progress(&error, out, size, &n));
    WRITES(1 + 6, myp_write_local_infile((const uint8_t *)"/tmp/x", 6, out, size, &n));
}

static void write_results(void)
{
    static const myp_statement statement = { 1, 1, 2, 0, 1, 0 };
    static const myp_column_count count = { 256, 1, 0 };
    static const myp_column column = { TEXT("test"), TEXT("tbl"), TEXT("org"), TEXT("a"), TEXT("b"), MYP_BYTES_INIT, 11, 63, 33, MYP_TYPE_LONGLONG, 0, 0, 0 };
    static const myp_column extended = { TEXT("test"), TEXT("tbl"), TEXT("org"), TEXT("a"), TEXT("b"), TEXT("\1\1a"), 11, 63, 33, MYP_TYPE_LONGLONG, 0, 1, 0 };
    static const myp_field_list_column listed = { { TEXT("test"), TEXT("tbl"), TEXT("org"), TEXT("a"), TEXT("b"), TEXT("\1\1a"), 11, 63, 33, MYP_TYPE_LONGLONG, 0, 1, 0 }, TEXT("0"), 1 };
    static const myp_column_attribute attribute = { TEXT("a"), MYP_COLUMN_ATTRIBUTE_FORMAT_NAME };
    static const myp_column_type types[] = { { MYP_TYPE_VAR_STRING, 0 }, { MYP_TYPE_LONGLONG, 0 } };
    const myp_value v[2] = { myp_text("some bytes", 10), myp_null() };
    WRITES(12, myp_write_statement(&statement, 0, out, size, &n));
    WRITES(13, myp_write_statement(&statement, MYP_CLIENT_OPTIONAL_RESULTSET_METADATA, out, size, &n));
    WRITES(4, myp_write_column_count(&count, MYP_CLIENT_OPTIONAL_RESULTSET_METADATA, 0, out, size, &n));
    WRITES(34, myp_write_column(&column, out, size, &n));
    WRITES(34 + 4, myp_write_column(&extended, out, size, &n));
    WRITES(34 + 4 + 2, myp_write_field_list_column(&listed, out, size, &n));
    WRITES(3, myp_write_column_attribute(&attribute, out, size, &n));
    WRITES(11 + 1, myp_write_text_row(v, 2, out, size, &n));
    WRITES(2 + 11, myp_write_binary_row(types, 2, v, 2, out, size, &n));
}

int main(void)
{
    numbers();
    headers();
    conversations();
    text_numbers();
    read_connection();
    read_replies();
    read_results();
    read_logins();
    read_commands();
    read_replication();
    write_logins();
    write_commands();
    write_bulks();
    write_replication();
    write_connection();
    write_replies();
    write_results();
    printf("%d passed, %d failed\n", passed, failed);
    return failed != 0;
}
