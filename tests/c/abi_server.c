/* What a server writes. */
#include "abi.h"

/* What a server writes: these bytes to a buffer that holds them and no more; into one byte fewer nothing, and their count is
 * answered. In a call `out, size, &n` are the buffer. */
static uint8_t sent[256];
static int untouched(size_t from)
{
    for (size_t i = from; i < sizeof sent; i++)
        if (sent[i] != 0xee)
            return 0;
    return 1;
}
#define WRITES(bytes, count, call) do { \
    uint8_t *out = sent; size_t size = (count), n = 77; \
    memset(sent, 0xee, sizeof sent); \
    CHECK((call) == MYP_OK && n == (count) && !memcmp(sent, bytes, count) && untouched(count)); \
    memset(sent, 0xee, sizeof sent), size = (count) - 1, n = 77; \
    CHECK((call) == MYP_ERROR_BUFFER_TOO_SMALL && n == (count) && untouched(0)); \
    memcpy(sent, bytes, count); } while (0)
#define REFUSES(call) do { \
    uint8_t *out = sent; size_t size = sizeof sent, n = 77; \
    memset(sent, 0xee, sizeof sent); \
    CHECK((call) == MYP_ERROR_INVALID_INPUT && n == 0 && untouched(0)); } while (0)
#define SAME(a, b) ((a).len == (b).len && !memcmp((a).data, (b).data, (a).len))
#define TEXT(text) { (const uint8_t *)(text), sizeof(text) - 1 }

static void written_answers(void)
{
    static const uint8_t rows[] = { 0, 3, 0xfc, 0x10, 0x27, 2, 0, 1, 0 }, end[] = { 0xfe, 0, 0, 2, 0, 1, 0 }, eof[] = { 0xfe, 1, 0, 2, 0 };
    myp_ok o = { 3, 10000, MYP_BYTES_INIT, MYP_BYTES_INIT, 9, 2, 1 }, again = MYP_OK_INIT;
    WRITES(rows, sizeof rows, myp_write_ok(&o, MYP_OK_COMMON, MYP_CLIENT_SESSION_TRACK, out, size, &n));
    CHECK(myp_read_ok(sent, sizeof rows, MYP_OK_COMMON, MYP_CLIENT_SESSION_TRACK, &again) == MYP_OK && again.affected_rows == 3 && again.last_insert_id == 10000 && again.status_flags == 2 && again.warnings == 1);
    WRITES(end, sizeof end, myp_write_ok(&o, MYP_OK_TERMINATOR, MYP_CLIENT_DEPRECATE_EOF, out, size, &n));
    WRITES(eof, sizeof eof, myp_write_ok(&o, MYP_OK_OLD_EOF, 0, out, size, &n));
    WRITES(eof, sizeof eof, myp_write_ok(&o, MYP_OK_STREAM_END, 0, out, size, &n));
    REFUSES(myp_write_ok(&o, 4, 0, out, size, &n));
    /* (a state that the status does not say, where it has a place) */
    myp_ok unsaid = { 0, 0, MYP_BYTES_INIT, TEXT("\1\5\4name"), 0, 2, 0 };
    REFUSES(myp_write_ok(&unsaid, MYP_OK_COMMON, MYP_CLIENT_SESSION_TRACK, out, size, &n));
    REFUSES(myp_write_ok(&unsaid, MYP_OK_TERMINATOR, MYP_CLIENT_SESSION_TRACK, out, size, &n));
    WRITES("\0\0\0\2\0\0\0", 7, myp_write_ok(&unsaid, MYP_OK_COMMON, 0, out, size, &n));
    static const uint8_t schema[] = { 0x00, 0x00, 0x00, 0x02, 0x40, 0x00, 0x00, 0x00, 0x0c, 0x01, 0x0a, 0x09, 'n', 'e', 'w', '_', 's', 'c', 'h', 'm', '1' };
    WRITES(schema + 9, sizeof schema - 9, myp_write_change(1, (const uint8_t *)"\x09new_schm1", 10, out, size, &n));
    REFUSES(myp_write_change(6, (const uint8_t *)"x", 1, out, size, &n));
    myp_ok changed = { 0, 0, MYP_BYTES_INIT, { schema + 9, sizeof schema - 9 }, 0, 0x4002, 0 };
    WRITES(schema, sizeof schema, myp_write_ok(&changed, MYP_OK_COMMON, MYP_CLIENT_SESSION_TRACK, out, size, &n));
    CHECK(myp_read_ok(sent, sizeof schema, MYP_OK_COMMON, MYP_CLIENT_SESSION_TRACK, &again) == MYP_OK && SAME(again.session_state, changed.session_state) && again.info.len == 0);
    static const uint8_t info[] = { 0, 0, 0, 2, 0, 0, 0, 2, 'h', 'i' };
    myp_ok with_info = { 0, 0, TEXT("hi"), MYP_BYTES_INIT, 0, 2, 0 };
    WRITES(info, sizeof info, myp_write_ok(&with_info, MYP_OK_COMMON, 0, out, size, &n));
    CHECK(myp_read_ok(sent, sizeof info, MYP_OK_COMMON, 0, &again) == MYP_OK && IS(again.info, "hi"));
}

static void written_errors(void)
{
    static const uint8_t err[] = "\xff\x48\x04#HY000No tables used", plain[] = "\xff\x10\x04Too many connections";
    myp_error e = { TEXT("HY000"), TEXT("No tables used"), 0, 0, 1096, 0, 0, 0 }, again = MYP_ERROR_INIT;
    WRITES(err, sizeof err - 1, myp_write_error(&e, out, size, &n));
    CHECK(myp_read_error(sent, sizeof err - 1, MYP_CLIENT_PROTOCOL_41, &again) == MYP_OK && again.code == 1096 && SAME(again.sql_state, e.sql_state) && SAME(again.message, e.message));
    myp_error early = { MYP_BYTES_INIT, TEXT("Too many connections"), 0, 0, 1040, 0, 0, 0 };
    WRITES(plain, sizeof plain - 1, myp_write_error(&early, out, size, &n));
    CHECK(myp_read_error(sent, sizeof plain - 1, 0, &again) == MYP_OK && again.code == 1040 && again.sql_state.len == 0 && SAME(again.message, early.message));
    e.sql_state.len = 4;
    REFUSES(myp_write_error(&e, out, size, &n));
    static const uint8_t progress[] = "\xff\xff\xff\x01\x01\x0a\xcc\x5b\x00\x0astage name";
    myp_error r = { MYP_BYTES_INIT, TEXT("stage name"), 0, 23500, 0xffff, 1, 1, 10 };
    WRITES(progress, sizeof progress - 1, myp_write_progress(&r, out, size, &n));
    CHECK(myp_read_error(sent, sizeof progress - 1, MYP_CLIENT_PROGRESS, &again) == MYP_OK && again.is_progress && again.stage == 1 && again.max_stage == 10 && again.progress == 23500 && SAME(again.message, r.message));
    r.progress = 0x1000000;
    REFUSES(myp_write_progress(&r, out, size, &n));
}

static void written_columns(void)
{
    static const uint8_t stmt[] = { 0, 1, 0, 0, 0, 1, 0, 2, 0, 0, 0, 0 };
    myp_statement s = { 1, 1, 2, 0, 1, 0 }, again = MYP_STATEMENT_INIT;
    WRITES(stmt, sizeof stmt, myp_write_statement(&s, 0, out, size, &n));
    CHECK(myp_read_statement(sent, sizeof stmt, 0, &again) == MYP_OK && again.statement_id == 1 && again.num_columns == 1 && again.num_params == 2);
    myp_column_count c = { 256, 1, 0 }, count = MYP_COLUMN_COUNT_INIT;
    WRITES("\xfc\x00\x01", 3, myp_write_column_count(&c, 0, 0, out, size, &n));
    CHECK(myp_read_column_count(sent, 3, 0, 0, &count) == MYP_OK && count.count == 256 && count.metadata_follows == 1);
    c.count = 2, c.metadata_follows = 7;
    WRITES("\x02\x01", 2, myp_write_column_count(&c, 0, MYP_MARIADB_CLIENT_CACHE_METADATA, out, size, &n));
    c.metadata_follows = 0;
    WRITES("\x02\x00", 2, myp_write_column_count(&c, 0, MYP_MARIADB_CLIENT_CACHE_METADATA, out, size, &n));
    CHECK(myp_read_column_count(sent, 2, 0, MYP_MARIADB_CLIENT_CACHE_METADATA, &count) == MYP_OK && count.count == 2 && count.metadata_follows == 0);
    REFUSES(myp_write_column_count(&c, 0, 0, out, size, &n));
    uint32_t optional = MYP_CLIENT_OPTIONAL_RESULTSET_METADATA;
    WRITES("\x02\x00", 2, myp_write_column_count(&c, optional, 0, out, size, &n));
    REFUSES(myp_write_column_count(&c, ~optional, 0, out, size, &n));
    c.metadata_follows = 1;
    WRITES("\x02\x01", 2, myp_write_column_count(&c, optional, 0, out, size, &n));
    WRITES("\x02\x01", 2, myp_write_column_count(&c, optional, MYP_MARIADB_CLIENT_CACHE_METADATA, out, size, &n));
    WRITES("\x02", 1, myp_write_column_count(&c, ~optional, 0, out, size, &n));
    static const uint8_t column[] = "\003def\004test\003tbl\003org\001a\001b\x0c\x3f\0\x0b\0\0\0\x08\x21\0\0\0\0";
    myp_column d = { TEXT("test"), TEXT("tbl"), TEXT("org"), TEXT("a"), TEXT("b"), MYP_BYTES_INIT, 11, 63, 33, MYP_TYPE_LONGLONG, 0, 0, 0 }, read = MYP_COLUMN_INIT;
    WRITES(column, sizeof column - 1, myp_write_column(&d, out, size, &n));
    CHECK(myp_read_column(sent, sizeof column - 1, 0, &read) == MYP_OK && SAME(read.schema, d.schema) && SAME(read.table, d.table) && SAME(read.org_table, d.org_table) && SAME(read.name, d.name) && SAME(read.org_name, d.org_name));
    CHECK(read.column_length == 11 && read.character_set == 63 && read.flags == 33 && read.column_type == MYP_TYPE_LONGLONG && read.decimals == 0);
    uint8_t extended[64]; /* replies.txt: a column with a type's name and a format's */
    size_t len = hex(extended, "0364656602766501740174016a016a090004757569640101610c2d00fffffffffc9000000000");
    myp_column x = { TEXT("ve"), TEXT("t"), TEXT("t"), TEXT("j"), TEXT("j"), { extended + 16, 9 }, 0xffffffff, 45, 144, MYP_TYPE_BLOB, 0, 7, 9 };
    WRITES(extended, len, myp_write_column(&x, out, size, &n));
    myp_column_attribute format = { TEXT("a"), MYP_COLUMN_ATTRIBUTE_FORMAT_NAME }, type = { TEXT("uuid"), MYP_COLUMN_ATTRIBUTE_TYPE_NAME };
    WRITES(extended + 16, 6, myp_write_column_attribute(&type, out, size, &n));
    WRITES(extended + 22, 3, myp_write_column_attribute(&format, out, size, &n));
    uint8_t field[64]; /* replies.txt: columns that answer COM_FIELD_LIST */
    size_t whole = hex(field, "03646566026839056b696e6473056b696e64730269640269640c3f000b0000000303420000000130");
    myp_field_list_column fl = { { TEXT("h9"), TEXT("kinds"), TEXT("kinds"), TEXT("id"), TEXT("id"), { NULL, 0 }, 11, 63, 0x4203, MYP_TYPE_LONG, 0, 0, 0 }, TEXT("0"), 1 };
    WRITES(field, whole, myp_write_field_list_column(&fl, out, size, &n));
    field[whole - 2] = 0xfb, fl.has_default_value = 0;
    WRITES(field, whole - 1, myp_write_field_list_column(&fl, out, size, &n));
    fl.column.column_type = 32;
    REFUSES(myp_write_field_list_column(&fl, out, size, &n));
    x = d, x.metadata.data = extended + 16, x.metadata.len = 9; /* not looked at */
    WRITES(column, sizeof column - 1, myp_write_column(&x, out, size, &n));
    d.column_type = 32;
    REFUSES(myp_write_column(&d, out, size, &n));
}

static void written_rows(void)
{
    static const myp_value none = MYP_VALUE_INIT;
    static const uint8_t text[] = { 1, '7', 0xfb, 3, 'a', 'b', 'c' };
    myp_value v[4] = { none, none, none, none }, again[4] = { none, none, none, none };
    myp_bytes seven = TEXT("7"), abc = TEXT("abc"), ok = TEXT("ok");
    size_t used = 0;
    v[0].kind = v[2].kind = MYP_VALUE_BYTES, v[0].bytes = seven, v[2].bytes = abc;
    WRITES(text, sizeof text, myp_write_text_row(v, 3, out, size, &n));
    CHECK(myp_read_text_row(sent, sizeof text, again, 3, &used) == MYP_OK && used == 7 && SAME(again[0].bytes, seven) && again[1].kind == MYP_VALUE_NULL && SAME(again[2].bytes, abc));
    v[1].kind = MYP_VALUE_INT;
    REFUSES(myp_write_text_row(v, 3, out, size, &n));
    static const uint8_t row[] = { 0, 1 << 3, 0xff, 0xff, 0xff, 0xff, 2, 'o', 'k', 7, 0xe8, 0x07, 2, 29, 23, 59, 58 };
    static const myp_column_type types[] = { { MYP_TYPE_LONG, 0 }, { MYP_TYPE_LONGLONG, 0 }, { MYP_TYPE_VAR_STRING, 0 }, { MYP_TYPE_DATETIME, 0 } };
    v[0] = v[1] = v[2] = v[3] = none;
    v[0].kind = MYP_VALUE_INT, v[0].number = (uint64_t)-1, v[2].kind = MYP_VALUE_BYTES, v[2].bytes = ok;
    v[3].kind = MYP_VALUE_DATE, v[3].days = 2024, v[3].month = 2, v[3].day = 29, v[3].hour = 23, v[3].minute = 59, v[3].second = 58;
    WRITES(row, sizeof row, myp_write_binary_row(types, 4, v, 4, out, size, &n));
    CHECK(myp_read_binary_row(sent, sizeof row, types, 4, again, 4, &used) == MYP_OK && used == sizeof row && again[0].number == v[0].number && again[1].kind == MYP_VALUE_NULL && SAME(again[2].bytes, ok) && again[3].days == 2024 && again[3].second == 58);
    REFUSES(myp_write_binary_row(types, 4, v, 3, out, size, &n));
    v[0].number = 0x80000000;
    REFUSES(myp_write_binary_row(types, 4, v, 4, out, size, &n));
    v[0].number = 1, v[3].days = 0x10000;
    REFUSES(myp_write_binary_row(types, 4, v, 4, out, size, &n));
    v[3].days = 1, v[1].kind = 8;
    REFUSES(myp_write_binary_row(types, 4, v, 4, out, size, &n));
}

static void written_connection(void)
{
    static const uint8_t handshake[] = "\x0a" "5.5.5-10.11.19-MariaDB\0\x01\0\0\0abcdefgh\0\xfe\xf7\x2d\x02\0\xff\x81\x15\0\0\0\0\0\0\x1d\0\0\0ijklmnopqrst\0mysql_native_password";
    myp_handshake h = { TEXT("5.5.5-10.11.19-MariaDB"), TEXT("abcdefgh"), TEXT("ijklmnopqrst\0"), TEXT("mysql_native_password"), 0, 1, 0x81fff7fe, 0x1d, 2, 10, 0x2d }, again = MYP_HANDSHAKE_INIT;
    WRITES(handshake, sizeof handshake, myp_write_handshake(&h, out, size, &n));
    CHECK(myp_read_handshake(sent, sizeof handshake, &again) == MYP_OK && SAME(again.server_version, h.server_version) && SAME(again.scramble_1, h.scramble_1) && SAME(again.scramble_2, h.scramble_2) && SAME(again.auth_plugin_name, h.auth_plugin_name));
    CHECK(again.connection_id == 1 && again.capabilities == h.capabilities && again.mariadb_capabilities == 0x1d && again.status_flags == 2 && again.protocol_version == 10 && again.default_collation == 0x2d);
    myp_handshake bad = h;
    bad.scramble_1.len = 7;
    REFUSES(myp_write_handshake(&bad, out, size, &n));
    bad = h, bad.scramble_2.len = 12;
    REFUSES(myp_write_handshake(&bad, out, size, &n));
    bad = h, bad.capabilities &= ~(uint32_t)MYP_CLIENT_PLUGIN_AUTH;
    REFUSES(myp_write_handshake(&bad, out, size, &n));
    bad = h, bad.capabilities &= ~(uint32_t)MYP_CLIENT_SECURE_CONNECTION;
    REFUSES(myp_write_handshake(&bad, out, size, &n));
    bad = h, bad.server_version = h.scramble_2;
    REFUSES(myp_write_handshake(&bad, out, size, &n));
    bad = h, bad.auth_plugin_name = h.scramble_2;
    REFUSES(myp_write_handshake(&bad, out, size, &n));
    static const uint8_t old[] = "\x0a" "5.5.5-10.0.17-MariaDB-log\0\x0b\0\0\0dvH@I-CJ\0\xff\xf7\x08\x02\0\0\0\0\0\0\0\0\0\0\0\0\0\0*4d|cZwk4^]:";
    myp_handshake o = { TEXT("5.5.5-10.0.17-MariaDB-log"), TEXT("dvH@I-CJ"), TEXT("*4d|cZwk4^]:\0"), MYP_BYTES_INIT, 0, 11, 63487, 0, 2, 10, 8 };
    WRITES(old, sizeof old, myp_write_handshake(&o, out, size, &n));
    static const uint8_t change[] = "\xfe" "mysql_native_password\0zQg4i6oNy6=rHN/>-b)A";
    myp_auth_switch s = { TEXT("mysql_native_password"), TEXT("zQg4i6oNy6=rHN/>-b)A\0") }, seen = MYP_AUTH_SWITCH_INIT;
    WRITES(change, sizeof change, myp_write_auth_switch(&s, out, size, &n));
    CHECK(myp_read_auth_switch(sent, sizeof change, &seen) == MYP_OK && SAME(seen.plugin_name, s.plugin_name) && SAME(seen.plugin_data, s.plugin_data));
    static const uint8_t factor[] = "\x02" "mysql_native_password\0zQg4i6oNy6=rHN/>-b)A";
    WRITES(factor, sizeof factor, myp_write_auth_next_factor(&s, out, size, &n));
    CHECK(myp_read_auth_next_factor(sent, sizeof factor, &seen) == MYP_OK && SAME(seen.plugin_name, s.plugin_name) && SAME(seen.plugin_data, s.plugin_data));
    CHECK(myp_read_auth_next_factor(change, sizeof change, &seen) == MYP_ERROR_INVALID_DATA && myp_read_auth_next_factor(NULL, 0, &seen) == MYP_ERROR_UNEXPECTED_EOF);
    s.plugin_name = s.plugin_data;
    REFUSES(myp_write_auth_switch(&s, out, size, &n));
    REFUSES(myp_write_auth_next_factor(&s, out, size, &n));
    myp_bytes more = MYP_BYTES_INIT, file = MYP_BYTES_INIT;
    WRITES("\x01\x04", 2, myp_write_auth_more_data((const uint8_t *)"\x04", 1, out, size, &n));
    CHECK(myp_read_auth_more_data(sent, 2, &more) == MYP_OK && IS(more, "\x04"));
    WRITES("\x01-----BEGIN PUBLIC KEY-----", 27, myp_write_public_key((const uint8_t *)"-----BEGIN PUBLIC KEY-----", 26, out, size, &n));
    WRITES("\xfe", 1, myp_write_old_auth_switch(out, size, &n));
    size_t used = 9;
    CHECK(myp_read_public_key_request((const uint8_t *)"\x02", 1, &used) == MYP_OK && used == 1);
    CHECK(myp_read_public_key_request((const uint8_t *)"\x01", 1, &used) == MYP_ERROR_INVALID_DATA && myp_read_public_key_request(NULL, 0, &used) == MYP_ERROR_UNEXPECTED_EOF && used == 1);
    WRITES("\xfb/tmp/x", 7, myp_write_local_infile((const uint8_t *)"/tmp/x", 6, out, size, &n));
    CHECK(myp_read_local_infile(sent, 7, &file) == MYP_OK && IS(file, "/tmp/x"));
}

void server_checks(void)
{
    written_answers();
    written_errors();
    written_columns();
    written_rows();
    written_connection();
}
