/* What a client says, and the rest of what it reads. */
#include "abi.h"

static uint8_t huge[16777198];

/* an execution of values under the types of their kinds */
static uint32_t execute(uint8_t cursor, const myp_value *values, size_t count, const myp_parameter *attributes, size_t n_attributes, uint32_t capabilities, uint8_t *out, size_t size, size_t *n, uint8_t *as_long_data)
{
    const myp_execution_options options = { 0, cursor, 0 };
    myp_parameter params[9];
    for (size_t i = 0; i < count; i++)
        params[i] = myp_param(values[i]);
    return myp_write_execution(1, params, count, attributes, n_attributes, &options, capabilities, out, size, n, as_long_data);
}

/* an execution with a head that was read */
static uint32_t execute_typed(const myp_execution_head *head, uint32_t capabilities, int sends_types, const myp_parameter *params, size_t count, const myp_parameter *attributes, size_t n_attributes, uint8_t *out, size_t size, size_t *n, uint8_t *as_long_data)
{
    const myp_execution_options options = { head->iteration_count, head->flags, !sends_types };
    return myp_write_execution(head->statement_id, params, count, attributes, n_attributes, &options, capabilities, out, size, n, as_long_data);
}

static void executions(void)
{
    uint8_t out[64], as_long_data = 7;
    size_t n = 9;
    myp_value v[6] = { MYP_VALUE_INIT, MYP_VALUE_INIT, MYP_VALUE_INIT, MYP_VALUE_INIT, MYP_VALUE_INIT, MYP_VALUE_INIT };
    v[1].kind = MYP_VALUE_INT, v[1].number = 1;
    CHECK(execute(0, v, 2, NULL, 0, 0, out, sizeof out, &n, &as_long_data) == MYP_OK && as_long_data == 0 && is_hex(out, n, "170100000000010000000101060008000100000000000000"));
    CHECK(execute(0, v, 0, NULL, 0, 0, out, sizeof out, &n, &as_long_data) == MYP_OK && is_hex(out, n, "17010000000001000000"));
    CHECK(execute(0, v, 2, NULL, 0, 0, out, 23, &n, &as_long_data) == MYP_ERROR_BUFFER_TOO_SMALL && n == 24 && as_long_data == 0);
    v[0].kind = MYP_VALUE_BYTES, v[1].kind = MYP_VALUE_UINT, v[2].kind = MYP_VALUE_FLOAT, v[2].number = 2, v[3].kind = MYP_VALUE_DOUBLE, v[3].number = 3, v[4].kind = MYP_VALUE_DATE, v[5].kind = MYP_VALUE_TIME;
    CHECK(execute(0, v, 6, NULL, 0, 0, out, sizeof out, &n, &as_long_data) == MYP_OK && is_hex(out, n, "170100000000010000000001fd000880040005000c000b000001000000000000000200000003000000000000000000"));
    out[0] = 7, as_long_data = 7;
    v[2].number = UINT64_C(1) << 32;
    CHECK(execute(0, v, 6, NULL, 0, 0, out, sizeof out, &n, &as_long_data) == MYP_ERROR_INVALID_INPUT && n == 0 && as_long_data == 7 && out[0] == 7);
    v[2].number = 2, v[4].days = 65536;
    CHECK(execute(0, v, 6, NULL, 0, 0, out, sizeof out, &n, &as_long_data) == MYP_ERROR_INVALID_INPUT);
    v[4].days = 0, v[5].kind = 9;
    CHECK(execute(0, v, 6, NULL, 0, 0, out, sizeof out, &n, &as_long_data) == MYP_ERROR_INVALID_INPUT && out[0] == 7);
    v[0].bytes.data = huge, v[0].bytes.len = sizeof huge;
    CHECK(execute(0, v, 1, NULL, 0, 0, out, sizeof out, &n, &as_long_data) == MYP_OK && as_long_data == 1 && is_hex(out, n, "170100000000010000000001fd00"));
}

static myp_parameter typed(myp_value value, uint8_t column_type)
{
    myp_parameter v = MYP_PARAMETER_INIT;
    v.value = value, v.has_type = 1, v.column_type = column_type;
    return v;
}

/* The example of the protocol's page on COM_STMT_EXECUTE is a VARCHAR that is "foo". */
static void typed_executions(void)
{
    uint8_t out[64], as_long_data = 7;
    size_t n = 9;
    myp_execution_head h = MYP_EXECUTION_HEAD_INIT;
    myp_parameter foo = typed(myp_text("foo", 3), MYP_TYPE_VARCHAR), v[4] = { typed(myp_int(-1), MYP_TYPE_TINY), typed(myp_int(65535), MYP_TYPE_SHORT), typed(myp_int(-2), MYP_TYPE_LONG), typed(myp_null(), MYP_TYPE_BLOB) };
    v[1].value.kind = MYP_VALUE_UINT, v[1].is_unsigned = 1;
    h.statement_id = 1;
    CHECK(execute_typed(&h, 0, 1, &foo, 1, NULL, 0, out, sizeof out, &n, &as_long_data) == MYP_OK && as_long_data == 0 && is_hex(out, n, "17010000000001000000" "00" "01" "0f00" "03666f6f"));
    CHECK(execute_typed(&h, 0, 0, &foo, 1, NULL, 0, out, sizeof out, &n, &as_long_data) == MYP_OK && is_hex(out, n, "17010000000001000000" "00" "00" "03666f6f"));
    CHECK(execute_typed(&h, 0, 1, &foo, 1, NULL, 0, out, 17, &n, &as_long_data) == MYP_ERROR_BUFFER_TOO_SMALL && n == 18 && as_long_data == 0);
    h.statement_id = 5, h.flags = MYP_CURSOR_READ_ONLY;
    CHECK(execute_typed(&h, 0, 9, v, 4, NULL, 0, out, sizeof out, &n, &as_long_data) == MYP_OK && is_hex(out, n, "17050000000101000000" "08" "01" "010002800300fc00" "ff" "ffff" "feffffff"));
    h.flags = MYP_CURSOR_FOR_UPDATE, h.iteration_count = 7;
    CHECK(execute_typed(&h, 0, 0, v, 4, NULL, 0, out, sizeof out, &n, &as_long_data) == MYP_OK && is_hex(out, n, "17050000000207000000" "08" "00" "ff" "ffff" "feffffff"));
    h.flags = MYP_CURSOR_SCROLLABLE, h.iteration_count = 1;
    CHECK(execute_typed(&h, 0, 1, NULL, 0, NULL, 0, out, sizeof out, &n, &as_long_data) == MYP_OK && is_hex(out, n, "17050000000401000000"));
    h.flags = 0, out[0] = 7, as_long_data = 7;
    v[0].value.number = UINT64_C(128);
    CHECK(execute_typed(&h, 0, 1, v, 4, NULL, 0, out, sizeof out, &n, &as_long_data) == MYP_ERROR_INVALID_INPUT && n == 0 && out[0] == 7 && as_long_data == 7);
    v[0].value = foo.value;
    CHECK(execute_typed(&h, 0, 0, v, 4, NULL, 0, out, sizeof out, &n, &as_long_data) == MYP_ERROR_INVALID_INPUT && out[0] == 7);
    v[0].value.kind = 9;
    CHECK(execute_typed(&h, 0, 1, v, 4, NULL, 0, out, sizeof out, &n, &as_long_data) == MYP_ERROR_INVALID_INPUT && out[0] == 7 && as_long_data == 7);
    v[0].value = myp_int(1), v[3].value.kind = MYP_VALUE_BYTES, v[3].value.bytes.data = huge, v[3].value.bytes.len = sizeof huge;
    CHECK(execute_typed(&h, 0, 1, v, 4, NULL, 0, out, sizeof out, &n, &as_long_data) == MYP_OK && as_long_data == 1 && is_hex(out, n, "17050000000001000000" "00" "01" "010002800300fc00" "01" "ffff" "feffffff"));
}

/* Executions of MySQL's own clients (executions.txt), written again. */
static void executions_again(void)
{
    uint8_t out[64], as_long_data = 7;
    size_t n = 9;
    myp_execution_head h = { 10, 1, 1, MYP_EXECUTION_PARAMETER_COUNT_AVAILABLE };
    myp_parameter v[2] = { typed(myp_int(7), MYP_TYPE_LONGLONG), typed(myp_int(7), MYP_TYPE_LONGLONG) }, a = typed(myp_text("z", 1), MYP_TYPE_STRING);
    a.name.data = (const uint8_t *)"a", a.name.len = 1;
    CHECK(execute_typed(&h, MYP_CLIENT_QUERY_ATTRIBUTES, 1, v, 2, &a, 1, out, sizeof out, &n, &as_long_data) == MYP_OK && is_hex(out, n, "17010000000801000000030001080000080000fe00016107000000000000000700000000000000017a"));
    CHECK(execute_typed(&h, MYP_CLIENT_QUERY_ATTRIBUTES, 0, v, 2, NULL, 0, out, sizeof out, &n, &as_long_data) == MYP_OK && is_hex(out, n, "1701000000080100000002000007000000000000000700000000000000"));
    CHECK(execute_typed(&h, MYP_CLIENT_QUERY_ATTRIBUTES, 1, NULL, 0, NULL, 0, out, sizeof out, &n, &as_long_data) == MYP_OK && is_hex(out, n, "1701000000080100000000"));
    CHECK(execute_typed(&h, MYP_CLIENT_QUERY_ATTRIBUTES, 1, NULL, 0, &a, 1, out, sizeof out, &n, &as_long_data) == MYP_OK && is_hex(out, n, "17010000000801000000010001fe000161017a"));
    a.value = myp_int(1), out[0] = 7;
    CHECK(execute_typed(&h, MYP_CLIENT_QUERY_ATTRIBUTES, 1, v, 2, &a, 1, out, sizeof out, &n, &as_long_data) == MYP_ERROR_INVALID_INPUT && n == 0 && out[0] == 7);
    h.statement_id = 4, v[0] = typed(myp_int(0), MYP_TYPE_TINY), v[1].column_type = MYP_TYPE_STRING, v[1].is_sent_ahead = 1;
    CHECK(execute_typed(&h, MYP_CLIENT_QUERY_ATTRIBUTES, 1, v, 2, NULL, 0, out, sizeof out, &n, &as_long_data) == MYP_OK && is_hex(out, n, "17040000000801000000020001010000fe000000"));
}

/* a type that is none is refused, also where no value is sent; types and attributes go together, each as it was read */
static void types_of_parameters(void)
{
    uint8_t out[128], as_long_data = 7;
    size_t n = 9;
    const myp_execution_head h = { 10, 1, 0, 0 };
    const uint32_t attributes = MYP_CLIENT_QUERY_ATTRIBUTES;
    myp_parameter v = typed(myp_null(), 100), a = typed(myp_text("v", 1), MYP_TYPE_STRING), again = MYP_PARAMETER_INIT;
    a.name.data = (const uint8_t *)"k", a.name.len = 1;
    out[0] = 7;
    CHECK(execute_typed(&h, 0, 1, &v, 1, NULL, 0, out, sizeof out, &n, &as_long_data) == MYP_ERROR_INVALID_INPUT && n == 0 && out[0] == 7 && as_long_data == 7);
    v.is_sent_ahead = 1;
    CHECK(execute_typed(&h, 0, 1, &v, 1, NULL, 0, out, sizeof out, &n, &as_long_data) == MYP_ERROR_INVALID_INPUT && n == 0 && out[0] == 7);
    CHECK(myp_write_query((const uint8_t *)"q", 1, &v, 1, attributes, out, sizeof out, &n) == MYP_ERROR_INVALID_INPUT && n == 0 && out[0] == 7);
    v.has_type = 0; /* then the type is not looked at: that of data sent ahead is VAR_STRING */
    CHECK(execute_typed(&h, 0, 1, &v, 1, NULL, 0, out, sizeof out, &n, &as_long_data) == MYP_OK && is_hex(out, n, "17010000000001000000" "00" "01" "fd00"));
    v = typed(myp_int(-1), MYP_TYPE_TINY);
    CHECK(execute_typed(&h, attributes, 1, &v, 1, &a, 1, out, sizeof out, &n, &as_long_data) == MYP_OK && is_hex(out, n, "17010000000801000000" "02" "00" "01" "010000" "fe00016b" "ff" "0176"));
    CHECK(myp_write_query((const uint8_t *)"q", 1, &a, 1, attributes, out, sizeof out, &n) == MYP_OK && is_hex(out, n, "03" "01" "01" "00" "01" "fe00016b" "0176" "71"));
    CHECK(myp_read_query_attribute(out, n, 0, &again) == MYP_OK && again.has_type == 1 && again.column_type == MYP_TYPE_STRING && again.is_sent_ahead == 0);
    uint8_t twice[32];
    size_t m = 9;
    CHECK(myp_write_query((const uint8_t *)"q", 1, &again, 1, attributes, twice, sizeof twice, &m) == MYP_OK && m == n && !memcmp(out, twice, n));
    a.value = myp_int(1);
    CHECK(myp_write_query((const uint8_t *)"q", 1, &a, 1, attributes, out, sizeof out, &n) == MYP_ERROR_INVALID_INPUT && n == 0);
    CHECK(myp_write_query((const uint8_t *)"q", 1, &a, 1, 0, out, sizeof out, &n) == MYP_OK && is_hex(out, n, "0371"));
}

static void cursors(void)
{
    uint8_t out[64], as_long_data = 7;
    size_t n = 9;
    myp_value v[9] = { myp_int(5) };
    CHECK(execute(MYP_CURSOR_READ_ONLY, v, 1, NULL, 0, 0, out, sizeof out, &n, &as_long_data) == MYP_OK && as_long_data == 0 && is_hex(out, n, "17010000000101000000" "00" "01" "0800" "0500000000000000"));
    CHECK(execute(MYP_CURSOR_NONE, v, 1, NULL, 0, 0, out, sizeof out, &n, &as_long_data) == MYP_OK && is_hex(out, n, "17010000000001000000" "00" "01" "0800" "0500000000000000"));
    CHECK(execute(MYP_CURSOR_SCROLLABLE, NULL, 0, NULL, 0, 0, out, sizeof out, &n, &as_long_data) == MYP_OK && is_hex(out, n, "17010000000401000000"));
    for (size_t i = 0; i < 9; i++)
        v[i] = (myp_value)MYP_VALUE_INIT;
    CHECK(execute(MYP_CURSOR_FOR_UPDATE, v, 9, NULL, 0, 0, out, sizeof out, &n, &as_long_data) == MYP_OK && is_hex(out, n, "17010000000201000000" "ff01" "01" "060006000600060006000600060006000600"));
    CHECK(execute(MYP_CURSOR_FOR_UPDATE, v, 9, NULL, 0, 0, out, 30, &n, &as_long_data) == MYP_ERROR_BUFFER_TOO_SMALL && n == 31 && as_long_data == 0);
    out[0] = 7, as_long_data = 7, v[8].kind = 9;
    CHECK(execute(0, v, 9, NULL, 0, 0, out, sizeof out, &n, &as_long_data) == MYP_ERROR_INVALID_INPUT && n == 0 && out[0] == 7 && as_long_data == 7);
}

static myp_parameter attribute(const char *name, myp_value value)
{
    return myp_query_attribute(name, strlen(name), value);
}

static void query_attributes(void)
{
    uint8_t out[128], as_long_data = 7;
    size_t n = 9;
    myp_value v[2] = { myp_int(5), myp_text("a", 1) }, none = MYP_VALUE_INIT;
    myp_parameter a[3] = { attribute("n1", myp_text("v1", 2)), attribute("n2", myp_int(7)), attribute("n3", none) }, t = MYP_PARAMETER_INIT;
    CHECK(execute(MYP_CURSOR_NONE, v, 2, NULL, 0, MYP_CLIENT_QUERY_ATTRIBUTES, out, sizeof out, &n, &as_long_data) == MYP_OK && as_long_data == 0
        && is_hex(out, n, "17010000000801000000" "02" "00" "01" "080000" "fd0000" "0500000000000000" "0161"));
    CHECK(execute(MYP_CURSOR_READ_ONLY, v, 1, a, 3, MYP_CLIENT_QUERY_ATTRIBUTES, out, sizeof out, &n, &as_long_data) == MYP_OK
        && is_hex(out, n, "17010000000901000000" "04" "08" "01" "080000" "fd00026e31" "0800026e32" "0600026e33" "0500000000000000" "027631" "0700000000000000"));
    CHECK(execute(0, NULL, 0, NULL, 0, MYP_CLIENT_QUERY_ATTRIBUTES, out, sizeof out, &n, &as_long_data) == MYP_OK && is_hex(out, n, "17010000000801000000" "00"));
    CHECK(execute(0, NULL, 0, a + 2, 1, MYP_CLIENT_QUERY_ATTRIBUTES, out, sizeof out, &n, &as_long_data) == MYP_OK && is_hex(out, n, "17010000000801000000" "01" "01" "01" "0600026e33"));
    CHECK(execute(0, NULL, 0, a + 2, 1, MYP_CLIENT_QUERY_ATTRIBUTES, out, 17, &n, &as_long_data) == MYP_ERROR_BUFFER_TOO_SMALL && n == 18);
    CHECK(myp_write_query((const uint8_t *)"select 1", 8, a, 3, MYP_CLIENT_QUERY_ATTRIBUTES, out, sizeof out, &n) == MYP_OK
        && is_hex(out, n, "03" "03" "01" "04" "01" "fd00026e31" "0800026e32" "0600026e33" "027631" "0700000000000000" "73656c6563742031"));
    for (size_t i = 0; i < 3; i++)
        CHECK(myp_read_query_attribute(out, n, i, &t) == MYP_OK && t.name.len == 2 && !memcmp(t.name.data, a[i].name.data, 2) && t.value.kind == a[i].value.kind && t.value.number == a[i].value.number
            && t.value.bytes.len == a[i].value.bytes.len && t.is_unsigned == 0);
    myp_command c = MYP_COMMAND_INIT;
    CHECK(myp_read_query_attribute(out, n, 3, &t) == MYP_END && myp_read_command(out, n, MYP_CLIENT_QUERY_ATTRIBUTES, &c) == MYP_OK && c.text.len == 8 && !memcmp(c.text.data, "select 1", 8));
    CHECK(myp_write_query(NULL, 0, NULL, 0, MYP_CLIENT_QUERY_ATTRIBUTES, out, sizeof out, &n) == MYP_OK && is_hex(out, n, "030001"));
    CHECK(myp_write_query((const uint8_t *)"select 1", 8, a, 1, MYP_CLIENT_QUERY_ATTRIBUTES, out, 20, &n) == MYP_ERROR_BUFFER_TOO_SMALL && n == 21);
    out[0] = 7, as_long_data = 7, a[1].value.kind = 9;
    CHECK(myp_write_query((const uint8_t *)"select 1", 8, a, 3, MYP_CLIENT_QUERY_ATTRIBUTES, out, sizeof out, &n) == MYP_ERROR_INVALID_INPUT && n == 0 && out[0] == 7);
    CHECK(execute(0, v, 2, a, 3, MYP_CLIENT_QUERY_ATTRIBUTES, out, sizeof out, &n, &as_long_data) == MYP_ERROR_INVALID_INPUT && n == 0 && out[0] == 7 && as_long_data == 7);
    CHECK(myp_write_query((const uint8_t *)"select 1", 8, a, 1, 0, out, sizeof out, &n) == MYP_OK && n == 9 && !memcmp(out, "\x03select 1", 9)); /* not agreed on */
    CHECK(execute(0, v, 1, a, 1, 0, out, sizeof out, &n, &as_long_data) == MYP_OK && is_hex(out, n, "17010000000001000000" "00" "01" "0800" "0500000000000000"));
    v[0].bytes.data = huge, v[0].bytes.len = sizeof huge, v[0].kind = MYP_VALUE_BYTES;
    CHECK(execute(0, v, 1, a, 1, MYP_CLIENT_QUERY_ATTRIBUTES, out, sizeof out, &n, &as_long_data) == MYP_OK && as_long_data == 1 && is_hex(out, n, "17010000000801000000" "02" "00" "01" "fd0000" "fd00026e31" "027631"));
}

/* A date with its offset from UTC in minutes. */
static myp_value zoned(myp_value date, int64_t minutes)
{
    date.kind = MYP_VALUE_DATE_WITH_OFFSET, date.number = (uint64_t)minutes;
    return date;
}

/* Dates with an offset, as libmysqlclient 9.3 sends them (executions.txt, commands.txt): in parameters and attributes, and in no row. */
static void offsets(void)
{
    uint8_t out[64], as_long_data = 7;
    size_t n = 9, rows = 9;
    myp_value v = zoned(myp_datetime(2011, 2, 3, 4, 5, 6, 123456), 754);
    CHECK(execute(0, &v, 1, NULL, 0, 0, out, sizeof out, &n, &as_long_data) == MYP_OK && as_long_data == 0 && is_hex(out, n, "17010000000001000000" "00" "01" "0c00" "0ddb07020304050640e20100f202"));
    CHECK(execute(0, &v, 1, NULL, 0, 0, out, 27, &n, &as_long_data) == MYP_ERROR_BUFFER_TOO_SMALL && n == 28);
    CHECK(execute(MYP_CURSOR_READ_ONLY, &v, 1, NULL, 0, 0, out, sizeof out, &n, &as_long_data) == MYP_OK && is_hex(out, n, "17010000000101000000" "00" "01" "0c00" "0ddb07020304050640e20100f202"));
    myp_execution_head h = { 10, 1, 1, MYP_EXECUTION_PARAMETER_COUNT_AVAILABLE };
    myp_parameter t[2] = { typed(v, MYP_TYPE_DATETIME), typed(myp_int(7), MYP_TYPE_LONGLONG) }, a;
    CHECK(execute_typed(&h, MYP_CLIENT_QUERY_ATTRIBUTES, 1, t, 2, NULL, 0, out, sizeof out, &n, &as_long_data) == MYP_OK && is_hex(out, n, "170100000008010000000200010c00000800000ddb07020304050640e20100f2020700000000000000"));
    t[0] = typed(zoned(myp_datetime(2024, 2, 3, 4, 5, 6, 0), -180), MYP_TYPE_TIMESTAMP);
    CHECK(execute_typed(&h, MYP_CLIENT_QUERY_ATTRIBUTES, 1, t, 2, NULL, 0, out, sizeof out, &n, &as_long_data) == MYP_OK && is_hex(out, n, "170100000008010000000200010700000800000de8070203040506000000004cff0700000000000000"));
    a = t[0], a.name.data = (const uint8_t *)"d", a.name.len = 1;
    CHECK(execute_typed(&h, MYP_CLIENT_QUERY_ATTRIBUTES, 1, t + 1, 1, &a, 1, out, sizeof out, &n, &as_long_data) == MYP_OK && is_hex(out, n, "17010000000801000000" "02" "00" "01" "080000" "07000164" "0700000000000000" "0de8070203040506000000004cff"));
    t[0].column_type = MYP_TYPE_DATE, out[0] = 7, as_long_data = 7;
    CHECK(execute_typed(&h, MYP_CLIENT_QUERY_ATTRIBUTES, 1, t, 2, NULL, 0, out, sizeof out, &n, &as_long_data) == MYP_ERROR_INVALID_INPUT && n == 0 && out[0] == 7 && as_long_data == 7);
    myp_parameter d = attribute("d", zoned(myp_datetime(2024, 2, 3, 4, 5, 6, 0), 60)), again = MYP_PARAMETER_INIT;
    CHECK(myp_write_query((const uint8_t *)"SELECT 1", 8, &d, 1, MYP_CLIENT_QUERY_ATTRIBUTES, out, sizeof out, &n) == MYP_OK && is_hex(out, n, "03010100010c0001640de8070203040506000000003c0053454c4543542031"));
    CHECK(myp_read_query_attribute(out, n, 0, &again) == MYP_OK && again.column_type == MYP_TYPE_DATETIME && again.value.kind == MYP_VALUE_DATE_WITH_OFFSET && again.value.days == 2024 && again.value.number == 60);
    v = myp_int(5);
    CHECK(execute(0, &v, 1, &d, 1, MYP_CLIENT_QUERY_ATTRIBUTES, out, sizeof out, &n, &as_long_data) == MYP_OK && is_hex(out, n, "17010000000801000000" "02" "00" "01" "080000" "0c000164" "0500000000000000" "0de8070203040506000000003c00"));
    v = zoned(myp_datetime(65535, 1, 2, 0, 0, 0, 0), -32768);
    CHECK(execute(0, &v, 1, NULL, 0, 0, out, sizeof out, &n, &as_long_data) == MYP_OK && is_hex(out, n, "17010000000001000000" "00" "01" "0c00" "0dffff010200000000000000" "0080"));
    v.number = 32767;
    CHECK(execute(0, &v, 1, NULL, 0, 0, out, sizeof out, &n, &as_long_data) == MYP_OK && is_hex(out, n, "17010000000001000000" "00" "01" "0c00" "0dffff010200000000000000" "ff7f"));
    out[0] = 7, as_long_data = 7, v.number = 32768;
    CHECK(execute(0, &v, 1, NULL, 0, 0, out, sizeof out, &n, &as_long_data) == MYP_ERROR_INVALID_INPUT && n == 0 && out[0] == 7 && as_long_data == 7);
    v.number = (uint64_t)-32769, d.value = v;
    CHECK(execute(0, &v, 1, NULL, 0, 0, out, sizeof out, &n, &as_long_data) == MYP_ERROR_INVALID_INPUT && n == 0 && out[0] == 7);
    CHECK(myp_write_query(NULL, 0, &d, 1, MYP_CLIENT_QUERY_ATTRIBUTES, out, sizeof out, &n) == MYP_ERROR_INVALID_INPUT && n == 0 && out[0] == 7);
    v.number = 0, v.days = 65536, t[0] = typed(v, MYP_TYPE_DATETIME);
    CHECK(execute(0, &v, 1, NULL, 0, 0, out, sizeof out, &n, &as_long_data) == MYP_ERROR_INVALID_INPUT && n == 0 && out[0] == 7);
    CHECK(execute_typed(&h, 0, 0, t, 2, NULL, 0, out, sizeof out, &n, &as_long_data) == MYP_ERROR_INVALID_INPUT && n == 0 && out[0] == 7 && as_long_data == 7);
    v.days = 2024;
    static const myp_column_type date = { MYP_TYPE_DATETIME, 0 };
    CHECK(myp_write_text_row(&v, 1, out, sizeof out, &n) == MYP_ERROR_INVALID_INPUT && n == 0 && out[0] == 7);
    CHECK(myp_write_binary_row(&date, 1, &v, 1, out, sizeof out, &n) == MYP_ERROR_INVALID_INPUT && n == 0 && out[0] == 7);
    CHECK(myp_write_bulk(1, 0, 64, &date, 1, &v, 1, out, sizeof out, &n, &rows) == MYP_ERROR_INVALID_INPUT && n == 0 && rows == 0 && out[0] == 7);
}

static void bulk(void)
{
    uint8_t out[64];
    size_t n = 9, rows = 9;
    myp_value v[5] = { MYP_VALUE_INIT, MYP_VALUE_INIT, MYP_VALUE_INIT, MYP_VALUE_INIT, MYP_VALUE_INIT };
    for (size_t i = 0; i < 5; i++)
        v[i].kind = MYP_VALUE_INT, v[i].number = i + 1;
    static const myp_column_type number[] = { { MYP_TYPE_LONGLONG, 0 }, { MYP_TYPE_LONGLONG, 1 } }, none = { 100, 0 };
    CHECK(myp_write_bulk(1, 0, 31, number, 1, v, 5, out, sizeof out, &n, &rows) == MYP_OK && rows == 2 && is_hex(out, n, "fa0100000080000800000100000000000000000200000000000000"));
    CHECK(myp_write_bulk(1, 64, 30, number, 1, v + 2, 3, out, 27, &n, &rows) == MYP_OK && rows == 1 && is_hex(out, n, "fa01000000c0000800000300000000000000"));
    CHECK(myp_write_bulk(1, 0, 1000, number, 2, v, 4, out, sizeof out, &n, &rows) == MYP_OK && rows == 2 && n == 11 + 36);
    CHECK(myp_write_bulk(1, 0, 31, number, 1, v, 5, out, 26, &n, &rows) == MYP_ERROR_BUFFER_TOO_SMALL && rows == 0 && n == 27);
    out[0] = 7, rows = 9;
    CHECK(myp_write_bulk(1, 0, 21, number, 1, v, 5, out, sizeof out, &n, &rows) == MYP_ERROR_ROW_TOO_LARGE && rows == 0 && n == 0 && out[0] == 7);
    CHECK(myp_write_bulk(1, 0, 31, number, 1, v, 0, out, sizeof out, &n, &rows) == MYP_OK && rows == 0 && n == 0 && out[0] == 7);
    CHECK(myp_write_bulk(1, 1, 31, number, 1, v, 5, out, sizeof out, &n, &rows) == MYP_ERROR_INVALID_INPUT);
    CHECK(myp_write_bulk(1, 0, 3, number, 1, v, 5, out, sizeof out, &n, &rows) == MYP_ERROR_INVALID_INPUT);
    CHECK(myp_write_bulk(1, 0, 31, number, 0, v, 5, out, sizeof out, &n, &rows) == MYP_ERROR_INVALID_INPUT);
    CHECK(myp_write_bulk(1, 0, 31, number, 2, v, 5, out, sizeof out, &n, &rows) == MYP_ERROR_INVALID_INPUT);
    CHECK(myp_write_bulk(1, 0, 31, &none, 1, v, 5, out, sizeof out, &n, &rows) == MYP_ERROR_INVALID_INPUT);
    v[1].kind = MYP_VALUE_DOUBLE, rows = 9;
    CHECK(myp_write_bulk(1, 0, 31, number, 1, v, 5, out, sizeof out, &n, &rows) == MYP_ERROR_INVALID_INPUT && rows == 0 && n == 0 && out[0] == 7);
    v[1].kind = 8;
    CHECK(myp_write_bulk(1, 0, 31, number, 1, v, 5, out, sizeof out, &n, &rows) == MYP_ERROR_INVALID_INPUT && out[0] == 7);
    static const uint64_t sizes[] = { 9, 9, 9, 9, 9 };
    static const size_t few[] = { 2, 4, 5 }, many[] = { 1, 2, 4, 5 };
    static const myp_bulk_rule plain = MYP_BULK_RULE_INIT, one = { 1, 1, 0 };
    uint8_t yes = 7;
    CHECK(myp_bulk_cut_is_fewest(&plain, 27, 1, sizes, 5, few, 3, &yes) == MYP_OK && yes == 1);
    CHECK(myp_bulk_cut_is_fewest(&plain, 27, 1, sizes, 5, many, 4, &yes) == MYP_OK && yes == 0);
    CHECK(myp_bulk_cut_is_fewest(&one, 27, 1, sizes, 5, few, 3, &yes) == MYP_OK && yes == 0);
}

/* values under narrow types, DEFAULT and IGNORE: MariaDB's page of COM_STMT_BULK_EXECUTE has the indicators 0 to 3 */
static void bulk_of_cells(void)
{
    static const myp_column_type types[] = { { MYP_TYPE_TINY, 0 }, { MYP_TYPE_SHORT, 1 }, { MYP_TYPE_LONG, 0 }, { MYP_TYPE_FLOAT, 0 }, { MYP_TYPE_DATE, 0 }, { MYP_TYPE_VAR_STRING, 0 } };
    static const uint8_t widths[] = { MYP_TYPE_TINY, MYP_TYPE_SHORT, MYP_TYPE_YEAR, MYP_TYPE_INT24, MYP_TYPE_LONG };
    static const int64_t ends[] = { 127, 32767, 32767, 2147483647, 2147483647 };
    myp_value v[12] = { myp_int(-2), myp_uint(65535), myp_int(-3), myp_float(1.5f), myp_date(2026, 11, 30), myp_text("hi", 2),
                        myp_default(), myp_null(), myp_ignore(), myp_default(), myp_ignore(), myp_null() };
    uint8_t out[100], given[6];
    size_t n = 9, used = 0, rows = 9;
    char whole[200];
    snprintf(whole, sizeof whole, "%s%s%s", "fa010000008000" "010002800300" "04000a00fd00", "00fe" "00ffff" "00fdffffff" "000000c03f" "0004ea070b1e" "00026869", "020103020301");
    CHECK(myp_write_bulk(1, 0, 1000, types, 6, v, 12, out, sizeof out, &n, &rows) == MYP_OK && rows == 2 && is_hex(out, n, whole));
    uint64_t sizes[2] = { 7, 7 };
    CHECK(myp_bulk_row_sizes(types, 6, v, 12, sizes, 2, &rows) == MYP_OK && rows == 2 && sizes[0] == 2 + 3 + 5 + 5 + 6 + 4 && sizes[1] == 6 && n == 19 + sizes[0] + sizes[1]);
    /* row by row the same bytes */
    memset(out, 7, sizeof out);
    CHECK(myp_begin_bulk(1, 0, types, 6, out, sizeof out, &used) == MYP_OK && used == 19);
    CHECK(myp_add_bulk_row(types, 6, v, 6, 1000, out, sizeof out, &used, &n) == MYP_OK && myp_add_bulk_row(types, 6, v + 6, 6, 1000, out, sizeof out, &used, &n) == MYP_OK && is_hex(out, used, whole));
    /* and a server reads them */
    myp_bulk_head b = MYP_BULK_HEAD_INIT;
    myp_column_type t[6];
    myp_value w[6] = { MYP_VALUE_INIT, MYP_VALUE_INIT, MYP_VALUE_INIT, MYP_VALUE_INIT, MYP_VALUE_INIT, MYP_VALUE_INIT };
    CHECK(myp_read_bulk_head(out, used, &b) == MYP_OK && myp_read_bulk_types(&b.rows, t, 6) == MYP_OK && !memcmp(t, types, sizeof t));
    CHECK(myp_next_bulk_row(&b.rows, t, 6, w, 6, given, 6) == MYP_OK && w[0].number == (uint64_t)-2 && w[1].number == 65535 && w[2].number == (uint64_t)-3 && myp_as_double(w + 3) == 1.5 && w[4].days == 2026 && w[4].day == 30);
    CHECK(myp_next_bulk_row(&b.rows, t, 6, w, 6, given, 6) == MYP_OK && !memcmp(given, "\2\1\3\2\3\1", 6) && myp_next_bulk_row(&b.rows, t, 6, w, 6, given, 6) == MYP_END);
    /* the ends of each width, and what is past them */
    for (size_t i = 0; i < 5; i++) {
        myp_column_type signed_type = { widths[i], 0 }, unsigned_type = { widths[i], 1 };
        myp_value low = myp_int(-ends[i] - 1), high = myp_int(ends[i]), below = myp_int(-ends[i] - 2), above = myp_int(ends[i] + 1), most = myp_uint(2 * (uint64_t)ends[i] + 1), past = myp_uint(2 * (uint64_t)ends[i] + 2);
        CHECK(myp_write_bulk(1, 0, 100, &signed_type, 1, &low, 1, out, sizeof out, &n, &rows) == MYP_OK && myp_write_bulk(1, 0, 100, &signed_type, 1, &high, 1, out, sizeof out, &n, &rows) == MYP_OK);
        CHECK(myp_write_bulk(1, 0, 100, &signed_type, 1, &below, 1, out, sizeof out, &n, &rows) == MYP_ERROR_INVALID_INPUT && myp_write_bulk(1, 0, 100, &signed_type, 1, &above, 1, out, sizeof out, &n, &rows) == MYP_ERROR_INVALID_INPUT);
        CHECK(myp_write_bulk(1, 0, 100, &unsigned_type, 1, &most, 1, out, sizeof out, &n, &rows) == MYP_OK && myp_write_bulk(1, 0, 100, &unsigned_type, 1, &past, 1, out, sizeof out, &n, &rows) == MYP_ERROR_INVALID_INPUT);
        CHECK(myp_write_bulk(1, 0, 100, &unsigned_type, 1, &low, 1, out, sizeof out, &n, &rows) == MYP_ERROR_INVALID_INPUT && rows == 0 && n == 0);
    }
    /* they are of bulk requests alone */
    uint8_t as_long_data = 7;
    CHECK(myp_write_text_row(v + 6, 1, out, sizeof out, &n) == MYP_ERROR_INVALID_INPUT && myp_write_binary_row(types, 1, v + 6, 1, out, sizeof out, &n) == MYP_ERROR_INVALID_INPUT);
    CHECK(execute(0, v + 6, 1, NULL, 0, 0, out, sizeof out, &n, &as_long_data) == MYP_ERROR_INVALID_INPUT && execute(0, v + 8, 1, NULL, 0, 0, out, sizeof out, &n, &as_long_data) == MYP_ERROR_INVALID_INPUT && as_long_data == 7);
    myp_value other = myp_null();
    other.kind = MYP_VALUE_IGNORE + 1;
    CHECK(myp_write_bulk(1, 0, 100, types, 1, &other, 1, out, sizeof out, &n, &rows) == MYP_ERROR_INVALID_INPUT && rows == 0);
}

static void sizes_of_rows(void)
{
    static const myp_column_type types[] = { { MYP_TYPE_LONGLONG, 0 }, { MYP_TYPE_VAR_STRING, 0 } }, none = { 100, 0 };
    myp_value v[4] = { myp_int(1), myp_text("abc", 3), MYP_VALUE_INIT, MYP_VALUE_INIT }; /* of each value one byte, and its own: 1 + 8 + 1 + 4, 1 + 1 */
    uint64_t sizes[3] = { 7, 7, 7 };
    size_t rows = 9;
    CHECK(myp_bulk_row_sizes(types, 2, v, 4, sizes, 3, &rows) == MYP_OK && rows == 2 && sizes[0] == 14 && sizes[1] == 2 && sizes[2] == 7);
    CHECK(myp_bulk_row_sizes(types, 2, v, 0, sizes, 3, &rows) == MYP_OK && rows == 0 && sizes[0] == 14);
    sizes[0] = 7;
    CHECK(myp_bulk_row_sizes(types, 2, v, 4, sizes, 1, &rows) == MYP_ERROR_BUFFER_TOO_SMALL && rows == 2 && sizes[0] == 7);
    CHECK(myp_bulk_row_sizes(types, 2, v, 3, sizes, 3, &rows) == MYP_ERROR_INVALID_INPUT && rows == 0 && sizes[0] == 7);
    CHECK(myp_bulk_row_sizes(types, 0, v, 4, sizes, 3, &rows) == MYP_ERROR_INVALID_INPUT && myp_bulk_row_sizes(&none, 1, v + 2, 2, sizes, 3, &rows) == MYP_ERROR_INVALID_INPUT);
    v[2].kind = MYP_VALUE_BYTES;
    CHECK(myp_bulk_row_sizes(types, 2, v, 4, sizes, 3, &rows) == MYP_ERROR_INVALID_INPUT && rows == 0 && sizes[0] == 7);
    v[2].kind = 8;
    CHECK(myp_bulk_row_sizes(types, 2, v, 4, sizes, 3, &rows) == MYP_ERROR_INVALID_INPUT && sizes[0] == 7);
}

static void bulk_by_row(void)
{
    static const myp_column_type number[] = { { MYP_TYPE_LONGLONG, 0 }, { MYP_TYPE_LONGLONG, 1 } }, none = { 100, 0 };
    uint8_t out[64];
    size_t n = 9, needed = 9, few = 8, many = sizeof out + 1;
    myp_value one = myp_int(1), two = myp_int(2);
    CHECK(myp_begin_bulk(1, 64, number, 2, out, sizeof out, &n) == MYP_OK && is_hex(out, n, "fa01000000c00008000880"));
    CHECK(myp_begin_bulk(1, 0, number, 1, out, 8, &n) == MYP_ERROR_BUFFER_TOO_SMALL && n == 9);
    CHECK(myp_begin_bulk(1, 1, number, 1, out, sizeof out, &n) == MYP_ERROR_INVALID_INPUT && n == 0);
    CHECK(myp_begin_bulk(1, 0, number, 0, out, sizeof out, &n) == MYP_ERROR_INVALID_INPUT && myp_begin_bulk(1, 0, &none, 1, out, sizeof out, &n) == MYP_ERROR_INVALID_INPUT);
    memset(out, 7, sizeof out);
    CHECK(myp_begin_bulk(1, 0, number, 1, out, sizeof out, &n) == MYP_OK && is_hex(out, n, "fa0100000080000800"));
    CHECK(myp_add_bulk_row(number, 1, &one, 1, 31, out, sizeof out, &n, &needed) == MYP_OK && is_hex(out, n, "fa0100000080000800000100000000000000") && out[18] == 7);
    CHECK(myp_add_bulk_row(number, 1, &two, 1, 31, out, 26, &n, &needed) == MYP_ERROR_BUFFER_TOO_SMALL && n == 18 && needed == 27 && out[18] == 7);
    CHECK(myp_add_bulk_row(number, 1, &two, 1, 30, out, sizeof out, &n, &needed) == MYP_ERROR_ROW_TOO_LARGE && n == 18 && out[18] == 7);
    CHECK(myp_add_bulk_row(number, 1, &two, 0, 31, out, sizeof out, &n, &needed) == MYP_ERROR_INVALID_INPUT && myp_add_bulk_row(number, 0, &two, 1, 31, out, sizeof out, &n, &needed) == MYP_ERROR_INVALID_INPUT && n == 18);
    CHECK(myp_add_bulk_row(number, 1, &two, 1, 3, out, sizeof out, &n, &needed) == MYP_ERROR_INVALID_INPUT && myp_add_bulk_row(number, 1, &two, 1, 31, out, sizeof out, &few, &needed) == MYP_ERROR_INVALID_INPUT && few == 8);
    CHECK(myp_add_bulk_row(number, 1, &two, 1, SIZE_MAX, out, sizeof out, &many, &needed) == MYP_ERROR_INVALID_INPUT && many == sizeof out + 1 && needed == 27 && out[18] == 7);
    two.kind = MYP_VALUE_DOUBLE;
    CHECK(myp_add_bulk_row(number, 1, &two, 1, 31, out, sizeof out, &n, &needed) == MYP_ERROR_INVALID_INPUT && n == 18 && out[18] == 7);
    two.kind = MYP_VALUE_INT;
    CHECK(myp_add_bulk_row(number, 1, &two, 1, 31, out, 27, &n, &needed) == MYP_OK && is_hex(out, n, "fa0100000080000800000100000000000000000200000000000000"));
    two.kind = MYP_VALUE_NULL;
    CHECK(myp_add_bulk_row(number, 1, &two, 1, 32, out, sizeof out, &n, &needed) == MYP_OK && n == 28 && out[27] == 1 && out[28] == 7);
}

/* the requests of the loop that the header shows are those of myp_write_bulk, and they are the fewest */
static void fewest(void)
{
    static const myp_column_type types[] = { { MYP_TYPE_LONGLONG, 1 }, { MYP_TYPE_BLOB, 0 } };
    static const uint8_t some[40] = "bytes";
    enum { ROWS = 50, MAX = 120 };
    myp_value v[2 * ROWS];
    for (unsigned i = 0; i < ROWS; i++) {
        v[2 * i] = (myp_value)MYP_VALUE_INIT, v[2 * i + 1] = (myp_value)MYP_VALUE_INIT;
        v[2 * i].kind = MYP_VALUE_UINT, v[2 * i].number = i;
        if (i % 3)
            v[2 * i + 1].kind = MYP_VALUE_BYTES, v[2 * i + 1].bytes.data = some, v[2 * i + 1].bytes.len = i * 7 % 41;
    }
    uint64_t sizes[ROWS];
    size_t rows = 0, ends[ROWS], requests = 0, done = 0;
    CHECK(myp_bulk_row_sizes(types, 2, v, 2 * ROWS, sizes, ROWS, &rows) == MYP_OK && rows == ROWS);
    while (done < ROWS) {
        uint8_t out[MAX - 4], same[MAX - 4];
        size_t n = 0, other = 0, needed = 0, end = done;
        CHECK(myp_write_bulk(5, 0, MAX, types, 2, v + 2 * done, 2 * (ROWS - done), out, sizeof out, &n, &rows) == MYP_OK && rows > 0);
        CHECK(myp_begin_bulk(5, 0, types, 2, same, sizeof same, &other) == MYP_OK);
        while (end < ROWS && myp_add_bulk_row(types, 2, v + 2 * end, 2, MAX, same, sizeof same, &other, &needed) == MYP_OK)
            end++;
        CHECK(end == done + rows && other == n && !memcmp(out, same, n));
        if (end == done)
            break;
        ends[requests++] = done = end;
    }
    static const myp_bulk_rule always = { 0, 0, 1 };
    uint8_t yes = 7;
    CHECK(requests > 5 && myp_bulk_cut_is_fewest(&always, MAX - 4, 2, sizes, ROWS, ends, requests, &yes) == MYP_OK && yes == 1);
}

static void changes(void)
{
    static const uint8_t state[] = "\x00\x0f\x0a" "autocommit\x03OFF\x01\x05\x04test\x02\x01" "1\x03\x04\x00\x02g1";
    myp_bytes rest = { state, sizeof state - 1 }, name = MYP_BYTES_INIT, value = MYP_BYTES_INIT;
    myp_change c = MYP_CHANGE_INIT;
    CHECK(myp_next_change(&rest, &c) == MYP_OK && c.change_type == MYP_SESSION_TRACK_SYSTEM_VARIABLES && c.variables.len == 15 && c.content.data == state + 2 && c.text.len == 0);
    myp_bytes left = c.variables;
    CHECK(myp_next_variable(&left, &name, &value) == MYP_OK && IS(name, "autocommit") && IS(value, "OFF") && left.len == 0);
    CHECK(myp_next_variable(&left, &name, &value) == MYP_END && IS(name, "autocommit"));
    CHECK(myp_next_change(&rest, &c) == MYP_OK && c.change_type == MYP_SESSION_TRACK_SCHEMA && IS(c.text, "test") && c.variables.len == 0 && c.is_tracked == 0);
    CHECK(myp_next_change(&rest, &c) == MYP_OK && c.change_type == MYP_SESSION_TRACK_STATE_CHANGE && c.is_tracked == 1 && c.text.len == 0);
    CHECK(myp_next_change(&rest, &c) == MYP_OK && c.change_type == MYP_SESSION_TRACK_GTIDS && IS(c.text, "g1") && c.content.len == 4 && rest.len == 0);
    CHECK(myp_next_change(&rest, &c) == MYP_END && c.change_type == MYP_SESSION_TRACK_GTIDS);
    rest.data = state, rest.len = 5;
    CHECK(myp_next_change(&rest, &c) == MYP_ERROR_UNEXPECTED_EOF && rest.len == 5 && rest.data == state && c.change_type == MYP_SESSION_TRACK_GTIDS);
    rest.data = (const uint8_t *)"\x09\x00", rest.len = 2;
    CHECK(myp_next_change(&rest, &c) == MYP_ERROR_INVALID_DATA && rest.len == 2);
    left.data = (const uint8_t *)"\x01", left.len = 1;
    CHECK(myp_next_variable(&left, &name, &value) == MYP_ERROR_UNEXPECTED_EOF && left.len == 1 && IS(value, "OFF"));
}

static void logins(void)
{
    static const char root[] = "05a2ae81000000012d0000000000000000000000000000000000000000000000726f6f7400006d7973716c5f6e61746976655f70617373776f726400";
    static const char mydb[] = "0da2ae81000000012d0000000000000000000000000000000000000000000000726f6f7400006d796462006d7973716c5f6e61746976655f70617373776f726400";
    uint8_t out[128];
    size_t n = 9;
    myp_login l = MYP_LOGIN_INIT;
    l.user.data = (const uint8_t *)"root", l.user.len = 4;
    l.auth_plugin_name.data = (const uint8_t *)"mysql_native_password", l.auth_plugin_name.len = 21, l.has_auth_plugin_name = 1;
    l.capabilities = 2175705605u, l.max_packet_size = 16777216, l.collation = 45;
    CHECK(myp_write_login(&l, NULL, 0, out, sizeof out, &n) == MYP_OK && is_hex(out, n, root));
    CHECK(myp_write_login(&l, NULL, 0, out, 59, &n) == MYP_ERROR_BUFFER_TOO_SMALL && n == 60);
    l.database.data = (const uint8_t *)"mydb", l.database.len = 4;
    CHECK(myp_write_login(&l, NULL, 0, out, sizeof out, &n) == MYP_OK && is_hex(out, n, root));
    l.has_database = 1;
    CHECK(myp_write_login(&l, NULL, 0, out, sizeof out, &n) == MYP_OK && is_hex(out, n, mydb));
    l.collation = 33;
    CHECK(myp_write_login(&l, NULL, 0, out, sizeof out, &n) == MYP_OK && n == 65 && out[8] == 33);
    myp_connection_attribute a[2] = { MYP_CONNECTION_ATTRIBUTE_INIT, MYP_CONNECTION_ATTRIBUTE_INIT };
    a[0].name.data = a[1].name.data = (const uint8_t *)"k", a[0].name.len = a[1].name.len = 1;
    a[0].value.data = (const uint8_t *)"w", a[1].value.data = (const uint8_t *)"v", a[0].value.len = a[1].value.len = 1;
    l.has_attributes = 1;
    CHECK(myp_write_login(&l, a, 2, out, sizeof out, &n) == MYP_OK && n == 70 && !memcmp(out + 65, "\x04\x01k\x01v", 5) && (out[2] & 0x10));
    CHECK(myp_write_login(&l, a, 2, NULL, 0, &n) == MYP_ERROR_BUFFER_TOO_SMALL && n == 70);
    const myp_connection_attribute three[] = { { a[0].name, a[0].value }, { a[1].value, a[0].value }, { a[0].name, a[1].value } }; /* k w, v w, k v */
    CHECK(myp_write_login(&l, three, 3, out, sizeof out, &n) == MYP_OK && n == 74 && !memcmp(out + 65, "\x08\x01k\x01v\x01v\x01w", 9));
    a[1].value.data = (const uint8_t *)"\xff", out[0] = 7;
    CHECK(myp_write_login(&l, a, 2, out, sizeof out, &n) == MYP_ERROR_INVALID_INPUT && n == 0 && out[0] == 7);
    l.has_attributes = 0;
    CHECK(myp_write_login(&l, a, 2, out, sizeof out, &n) == MYP_OK && n == 65);
    myp_ssl_request r = MYP_SSL_REQUEST_INIT;
    r.capabilities = 0x81aea205, r.max_packet_size = 16777216, r.character_set = 45, r.mariadb_capabilities = 29;
    CHECK(myp_write_ssl_request(&r, out, sizeof out, &n) == MYP_OK && is_hex(out, n, "05a2ae81000000012d000000000000000000000000000000000000001d000000"));
    CHECK(myp_write_ssl_request(&r, out, 31, &n) == MYP_ERROR_BUFFER_TOO_SMALL && n == 32);
    myp_change_user c = MYP_CHANGE_USER_INIT;
    c.user.data = (const uint8_t *)"u", c.user.len = 1, c.auth_response.data = (const uint8_t *)"AB", c.auth_response.len = 2;
    c.database.data = (const uint8_t *)"d", c.database.len = 1, c.character_set = 258;
    c.auth_plugin_name.data = (const uint8_t *)"client_ed25519", c.auth_plugin_name.len = 14;
    const uint32_t named = MYP_CLIENT_PLUGIN_AUTH | MYP_CLIENT_CONNECT_ATTRS;
    a[1].value.data = (const uint8_t *)"v";
    CHECK(myp_write_change_user(&c, a, 2, named, out, sizeof out, &n) == MYP_OK && is_hex(out, n, "11750002414264000201636c69656e745f656432353531390004016b0176"));
    CHECK(myp_write_change_user(&c, a, 2, named, out, 29, &n) == MYP_ERROR_BUFFER_TOO_SMALL && n == 30);
    a[0].name.data = (const uint8_t *)"\x80";
    CHECK(myp_write_change_user(&c, a, 2, named, out, sizeof out, &n) == MYP_ERROR_INVALID_INPUT && n == 0);
    CHECK(myp_write_change_user(&c, a, 2, MYP_CLIENT_PLUGIN_AUTH, out, sizeof out, &n) == MYP_OK && is_hex(out, n, "11750002414264000201636c69656e745f6564323535313900"));
    c.character_set = 45, c.auth_response.len = c.database.len = 0, c.user.data = (const uint8_t *)"root", c.user.len = 4;
    CHECK(myp_write_change_user(&c, NULL, 0, MYP_CLIENT_CONNECT_ATTRS, out, sizeof out, &n) == MYP_OK && is_hex(out, n, "11726f6f740000002d0000"));
    CHECK(myp_write_change_user(&c, NULL, 0, 0, out, sizeof out, &n) == MYP_OK && is_hex(out, n, "11726f6f740000002d00"));
    c.has_character_set = 0; /* then nothing follows the schema, whatever the flags are */
    CHECK(myp_write_change_user(&c, a, 2, named, out, sizeof out, &n) == MYP_OK && is_hex(out, n, "11726f6f74000000"));
}

static void keys(void)
{
    uint8_t out[32];
    size_t n = 9;
    CHECK(myp_write_public_key_request(out, sizeof out, &n) == MYP_OK && n == 1 && out[0] == 2);
    CHECK(myp_write_public_key_request(out, 0, &n) == MYP_ERROR_BUFFER_TOO_SMALL && n == 1);
    myp_bytes pem = MYP_BYTES_INIT, salt = MYP_BYTES_INIT;
    CHECK(myp_read_public_key((const uint8_t *)"\x01-----BEGIN", 11, &pem) == MYP_OK && IS(pem, "-----BEGIN"));
    CHECK(myp_read_public_key((const uint8_t *)"\x02-", 2, &pem) == MYP_ERROR_INVALID_DATA && myp_read_public_key((const uint8_t *)"", 0, &pem) == MYP_ERROR_UNEXPECTED_EOF && pem.len == 10);
    size_t used = 9;
    CHECK(myp_read_old_auth_switch((const uint8_t *)"\xfe", 1, &used) == MYP_OK && used == 1);
    CHECK(myp_read_old_auth_switch((const uint8_t *)"\x00", 1, &used) == MYP_ERROR_INVALID_DATA && myp_read_old_auth_switch(NULL, 0, &used) == MYP_ERROR_UNEXPECTED_EOF && used == 1);
    uint32_t iterations = 7;
    static const uint8_t parsec[] = "P\x02" "abcdefghijklmnopqr";
    CHECK(myp_read_parsec_salt(parsec, 20, &iterations, &salt) == MYP_OK && iterations == 4096 && IS(salt, "abcdefghijklmnopqr"));
    CHECK(myp_read_parsec_salt(parsec, 19, &iterations, &salt) == MYP_ERROR_INVALID_DATA && iterations == 4096 && salt.len == 18);
    /* by Python's hashlib */
    CHECK(myp_scramble_native((const uint8_t *)"password", 8, (const uint8_t *)"abcdefghijklmnopqrst", 20, out, sizeof out, &n) == MYP_OK && is_hex(out, n, "bfdd49584b917d42c758edd2a7a541f721843041"));
    CHECK(myp_scramble_native((const uint8_t *)"password", 8, (const uint8_t *)"abcdefghijklmnopqrst", 20, out, 19, &n) == MYP_ERROR_BUFFER_TOO_SMALL && n == 20);
    CHECK(myp_scramble_native((const uint8_t *)"", 0, (const uint8_t *)"abcdefghijklmnopqrst", 20, out, sizeof out, &n) == MYP_OK && n == 0);
    CHECK(myp_scramble_sha2((const uint8_t *)"password", 8, (const uint8_t *)"abcdefghijklmnopqrst", 20, out, sizeof out, &n) == MYP_OK && is_hex(out, n, "6584c404bc44a3d014cacc4fc823edc02991a53d5ae825ea0f91c7a0f1f26653"));
    CHECK(myp_scramble_sha2((const uint8_t *)"password", 8, (const uint8_t *)"abcdefghijklmnopqrst", 20, out, 31, &n) == MYP_ERROR_BUFFER_TOO_SMALL && n == 32);
    CHECK(myp_scramble_sha2(NULL, 0, (const uint8_t *)"abcdefghijklmnopqrst", 20, out, sizeof out, &n) == MYP_OK && n == 0);
}

void client_checks(void)
{
    executions();
    typed_executions();
    executions_again();
    types_of_parameters();
    cursors();
    offsets();
    query_attributes();
    bulk();
    bulk_of_cells();
    sizes_of_rows();
    bulk_by_row();
    fewest();
    changes();
    logins();
    keys();
}
