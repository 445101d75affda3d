/* One call of the library over many packets, each other than the one before it, for valgrind to count what runs in
 * `measured`, or in a call itself.
 *
 * packets NAME COUNT    prints a sum over what was read; built with -DALLOCATIONS, how many blocks of memory a packet took */
#include "mysql_packets.h"
#include <stdio.h>
#include <stdlib.h>
#include <string.h>

#ifdef ALLOCATIONS
static uint64_t blocks;
extern void *__libc_malloc(size_t), *__libc_realloc(void *, size_t);
void *malloc(size_t n) { blocks++; return __libc_malloc(n); }
void *realloc(void *p, size_t n) { blocks++; return __libc_realloc(p, n); }
#endif

enum { COLUMNS = 10, CAPABILITIES = MYP_CLIENT_PROTOCOL_41 | MYP_CLIENT_SESSION_TRACK };

/* ---- packets */

struct batch {
    uint8_t *bytes;
    size_t len, size;
};

static uint64_t state = 88172645463325252u;

static uint64_t varied(void)
{
    state ^= state << 13, state ^= state >> 7, state ^= state << 17;
    return state;
}

static void put(struct batch *b, const void *bytes, size_t len)
{
    if (b->size - b->len < len && !(b->bytes = realloc(b->bytes, b->size = 2 * b->size + len)))
        exit(1);
    memcpy(b->bytes + b->len, bytes, len), b->len += len;
}

static void put_number(struct batch *b, uint64_t n, size_t width)
{
    for (size_t i = 0; i < width; i++)
        put(b, &(uint8_t){ (uint8_t)(n >> 8 * i) }, 1);
}

/* a length-encoded string of 1 to 20 bytes */
static void put_string(struct batch *b)
{
    size_t len = 1 + varied() % 20;
    put_number(b, len, 1);
    while (len--)
        put_number(b, 'a' + varied() % 26, 1);
}

static void put_statement(struct batch *b)
{
    put_number(b, 0, 1), put_number(b, varied(), 4), put_number(b, varied(), 2), put_number(b, varied(), 2), put_number(b, 0, 1);
    put_number(b, varied() % 4, 2);
}

static void put_column(struct batch *b)
{
    put(b, "\003def", 4);
    for (int i = 0; i < 5; i++)
        put_string(b);
    put_number(b, 12, 1), put_number(b, varied(), 2), put_number(b, varied(), 4), put_number(b, varied() % 2 ? MYP_TYPE_LONGLONG : MYP_TYPE_VAR_STRING, 1);
    put_number(b, varied() % 0x1000, 2), put_number(b, varied() % 32, 1), put_number(b, 0, 2);
}

static void put_ok(struct batch *b)
{
    put_number(b, 0, 1), put_number(b, varied() % 251, 1), put_number(b, varied() % 251, 1), put_number(b, MYP_SERVER_STATUS_AUTOCOMMIT, 2);
    put_number(b, 0, 2);
}

static void put_ok_changes(struct batch *b)
{
    struct batch changes = { 0 };
    put_number(b, 0, 1), put_number(b, varied() % 251, 1), put_number(b, 0xfc, 1), put_number(b, varied(), 2);
    put_number(b, MYP_SERVER_STATUS_AUTOCOMMIT | MYP_SERVER_SESSION_STATE_CHANGED, 2), put_number(b, varied() % 4, 2);
    put_string(b);
    for (int type = MYP_SESSION_TRACK_SYSTEM_VARIABLES; type <= MYP_SESSION_TRACK_SCHEMA; type++) {
        struct batch data = { 0 };
        put_string(&data);
        if (type == MYP_SESSION_TRACK_SYSTEM_VARIABLES)
            put_string(&data);
        put_number(&changes, (uint64_t)type, 1), put_number(&changes, data.len, 1), put(&changes, data.bytes, data.len);
        free(data.bytes);
    }
    put_number(b, changes.len, 1), put(b, changes.bytes, changes.len);
    free(changes.bytes);
}

static void put_error(struct batch *b)
{
    put_number(b, 0xff, 1), put_number(b, 1000 + varied() % 1000, 2), put(b, "#HY000", 6);
    put_string(b);
}

static void put_handshake(struct batch *b)
{
    static const char version[] = "5.5.5-10.11.19-MariaDB-0+deb12u1-log", plugin[] = "mysql_native_password";
    put_number(b, 10, 1), put(b, version, sizeof version), put_number(b, varied(), 4), put_number(b, varied(), 8), put_number(b, 0, 1);
    put_number(b, 0xf7fe, 2), put_number(b, 45, 1), put_number(b, 2, 2), put_number(b, 0x81ff, 2), put_number(b, 21, 1), put_number(b, 0, 6);
    put_number(b, 0x1d, 4), put_number(b, varied(), 8), put_number(b, varied(), 4), put_number(b, 0, 1), put(b, plugin, sizeof plugin);
}

/* five numbers and five strings */
static void put_binary_row(struct batch *b)
{
    put_number(b, 0, 3);
    for (int i = 0; i < 5; i++)
        put_number(b, varied(), 8);
    for (int i = 0; i < 5; i++)
        put_string(b);
}

static void put_text_row(struct batch *b)
{
    for (int i = 0; i < 5; i++) {
        char text[32];
        int len = snprintf(text, sizeof text, "%lld", (long long)varied());
        put_number(b, (uint64_t)len, 1), put(b, text, (size_t)len);
    }
    for (int i = 0; i < 5; i++)
        put_string(b);
}

static void put_execution(struct batch *b)
{
    put_number(b, MYP_COM_STMT_EXECUTE, 1), put_number(b, 1, 4), put_number(b, 0, 1), put_number(b, 1, 4);
    put_number(b, 0, 2), put_number(b, 1, 1);
    for (int i = 0; i < COLUMNS; i++)
        put_number(b, MYP_TYPE_LONGLONG, 2);
    for (int i = 0; i < COLUMNS; i++)
        put_number(b, varied(), 8);
}

/* a frame of its header and 20 bytes */
static void put_frame(struct batch *b)
{
    put_number(b, 20, 3), put_number(b, varied(), 1);
    for (int i = 0; i < 20; i++)
        put_number(b, varied(), 1);
}

static void put_ten_numbers(struct batch *b)
{
    for (int i = 0; i < COLUMNS; i++)
        put_number(b, varied(), 8);
}

/* ---- operations */

static const myp_column_type types[COLUMNS] = { { 8, 0 }, { 8, 0 }, { 8, 0 }, { 8, 0 }, { 8, 0 }, { 253, 0 }, { 253, 0 }, { 253, 0 }, { 253, 0 }, { 253, 0 } };
static myp_value row[COLUMNS];

static uint64_t statement(const uint8_t *p, size_t n)
{
    static myp_statement s = MYP_STATEMENT_INIT;
    return myp_read_statement(p, n, 0, &s) ? 0 : 1 + s.statement_id;
}

static uint64_t column(const uint8_t *p, size_t n)
{
    static myp_column c = MYP_COLUMN_INIT;
    return myp_read_column(p, n, 0, &c) ? 0 : c.column_length + c.name.len;
}

static uint64_t ok(const uint8_t *p, size_t n)
{
    static myp_ok o = MYP_OK_INIT;
    return myp_read_ok(p, n, MYP_OK_COMMON, CAPABILITIES, &o) ? 0 : 1 + o.affected_rows + o.info.len;
}

static uint64_t ok_changes(const uint8_t *p, size_t n)
{
    static myp_ok o = MYP_OK_INIT;
    static myp_change change = MYP_CHANGE_INIT;
    static myp_bytes name = MYP_BYTES_INIT, value = MYP_BYTES_INIT;
    uint64_t sum = 1;
    if (myp_read_ok(p, n, MYP_OK_COMMON, CAPABILITIES, &o))
        return 0;
    while (!myp_next_change(&o.session_state, &change)) {
        sum += change.text.len;
        while (!myp_next_variable(&change.variables, &name, &value))
            sum += value.len;
    }
    return sum;
}

static uint64_t error(const uint8_t *p, size_t n)
{
    static myp_error e = MYP_ERROR_INIT;
    return myp_read_error(p, n, CAPABILITIES, &e) ? 0 : e.code + e.message.len;
}

static uint64_t handshake(const uint8_t *p, size_t n)
{
    static myp_handshake h = MYP_HANDSHAKE_INIT;
    return myp_read_handshake(p, n, &h) ? 0 : 1 + h.connection_id;
}

static uint64_t binary_row(const uint8_t *p, size_t n)
{
    size_t used = 0;
    return myp_read_binary_row(p, n, types, COLUMNS, row, COLUMNS, &used) ? 0 : used;
}

/* the numbers and the strings copied out of the packet, as libmariadb does it */
static uint64_t binary_row_copied(const uint8_t *p, size_t n)
{
    static int64_t numbers[5];
    static char texts[5][24];
    static size_t lengths[5];
    size_t used = 0;
    if (myp_read_binary_row(p, n, types, COLUMNS, row, COLUMNS, &used))
        return 0;
    for (int i = 0; i < 5; i++) {
        memcpy(&numbers[i], &row[i].number, sizeof numbers[i]);
        lengths[i] = row[5 + i].bytes.len;
        if (lengths[i] <= sizeof texts[i])
            memcpy(texts[i], row[5 + i].bytes.data, lengths[i]);
    }
    return 1 + (uint64_t)numbers[0] % 2 + lengths[4] + (uint64_t)texts[4][0] % 2;
}

static uint64_t text_row(const uint8_t *p, size_t n)
{
    size_t used = 0;
    return myp_read_text_row(p, n, row, COLUMNS, &used) ? 0 : used;
}

/* a text row among the rows of a query whose definitions are left out */
static uint64_t next_row(const uint8_t *p, size_t n)
{
    static myp_conversation c = MYP_CONVERSATION_INIT;
    static myp_packet k = MYP_PACKET_INIT;
    if (!c.opening && (myp_begin_conversation(MYP_CLIENT_DEPRECATE_EOF | MYP_CLIENT_OPTIONAL_RESULTSET_METADATA, 0, MYP_OPENING_BETWEEN_COMMANDS, &c)
                       || myp_next_packet(&c, MYP_SIDE_CLIENT, (const uint8_t *)"\3select", 7, &k)
                       || myp_next_packet(&c, MYP_SIDE_SERVER, (const uint8_t *)"\12\0", 2, &k)))
        return 0;
    return myp_next_packet(&c, MYP_SIDE_SERVER, p, n, &k) ? 0 : k.kind;
}

/* a frame with as many bytes of content as the packet has, which begins at its length */
static uint64_t next_frame(const uint8_t *p, size_t n)
{
    myp_bytes rest = { p, n };
    static myp_frame frame = MYP_FRAME_INIT;
    return myp_next_frame(&rest, &frame) ? 0 : 1 + frame.content.len;
}

static uint64_t execution_read(const uint8_t *p, size_t n)
{
    static const myp_bound_param params[COLUMNS];
    static myp_column_type sent[COLUMNS];
    static myp_execution e = MYP_EXECUTION_INIT;
    return myp_read_execution(p, n, 0, params, COLUMNS, row, COLUMNS, sent, COLUMNS, &e) ? 0 : e.used;
}

static myp_parameter params[COLUMNS];
static const myp_execution_options options = MYP_EXECUTION_OPTIONS_INIT;

static uint64_t execution(const uint8_t *p, size_t n)
{
    static uint8_t out[256];
    uint8_t as_long_data = 0;
    size_t written = 0;
    (void)n;
    for (int i = 0; i < COLUMNS; i++)
        params[i].value.kind = MYP_VALUE_INT, memcpy(&params[i].value.number, p + 8 * i, 8);
    return myp_write_execution(1, params, COLUMNS, NULL, 0, &options, 0, out, sizeof out, &written, &as_long_data) ? 0 : written;
}

/* five numbers and five strings, as they were read of a row */
static uint64_t execution_mixed(const uint8_t *p, size_t n)
{
    static uint8_t out[512];
    uint8_t as_long_data = 0;
    size_t written = 0;
    if (!binary_row(p, n))
        return 0;
    for (int i = 0; i < COLUMNS; i++)
        params[i].value = row[i];
    return myp_write_execution(1, params, COLUMNS, NULL, 0, &options, 0, out, sizeof out, &written, &as_long_data) ? 0 : written;
}

/* ---- what is written */

/* a row of a number, 20 bytes and NULL, in a request that goes on until it is full */
static uint64_t row_added(const uint8_t *p, size_t n)
{
    static const myp_column_type of[3] = { { MYP_TYPE_LONGLONG, 0 }, { MYP_TYPE_VAR_STRING, 0 }, { MYP_TYPE_LONGLONG, 0 } };
    static uint8_t out[1 << 16];
    static size_t used, needed;
    myp_value values[3] = { myp_int((int64_t)n + *p), myp_text(p, 20), myp_null() };
    if (used + 64 > sizeof out)
        used = 0;
    if (!used && myp_begin_bulk(1, 0, of, 3, out, sizeof out, &used))
        return 0;
    return myp_add_bulk_row(of, 3, values, 3, 1 << 24, out, sizeof out, &used, &needed) ? 0 : used;
}

static uint64_t header_written(const uint8_t *p, size_t n)
{
    static uint8_t out[4];
    size_t written = 0;
    return myp_write_header((uint32_t)n, *p, out, sizeof out, &written) ? 0 : written;
}

static uint64_t close_written(const uint8_t *p, size_t n)
{
    static uint8_t out[5];
    size_t written = 0;
    return myp_write_close((uint32_t)n + *p, out, sizeof out, &written) ? 0 : written;
}

static uint64_t error_written(const uint8_t *p, size_t n)
{
    static const uint8_t state[] = "HY000";
    static uint8_t out[256];
    static myp_error e = MYP_ERROR_INIT;
    size_t written = 0;
    e.code = (uint16_t)n, e.sql_state.data = state, e.sql_state.len = 5, e.message.data = p, e.message.len = n;
    return myp_write_error(&e, out, sizeof out, &written) ? 0 : written;
}

/* five numbers and five strings, as they were read */
static uint64_t binary_row_written(const uint8_t *p, size_t n)
{
    static uint8_t out[512];
    size_t written = 0;
    return binary_row(p, n) && !myp_write_binary_row(types, COLUMNS, row, COLUMNS, out, sizeof out, &written) ? written : 0;
}

static uint64_t text_row_written(const uint8_t *p, size_t n)
{
    static uint8_t out[512];
    size_t written = 0;
    return text_row(p, n) && !myp_write_text_row(row, COLUMNS, out, sizeof out, &written) ? written : 0;
}

/* an OK packet with session changes, as it was read */
static uint64_t ok_written(const uint8_t *p, size_t n)
{
    static uint8_t out[512];
    static myp_ok o = MYP_OK_INIT;
    size_t written = 0;
    if (myp_read_ok(p, n, MYP_OK_COMMON, CAPABILITIES, &o))
        return 0;
    return myp_write_ok(&o, MYP_OK_COMMON, CAPABILITIES, out, sizeof out, &written) ? 0 : written;
}

/* ---- how many bytes they take */

static uint64_t header_length(const uint8_t *p, size_t n)
{
    size_t written = 0;
    return myp_write_header((uint32_t)n, *p, NULL, 0, &written) == MYP_ERROR_BUFFER_TOO_SMALL ? written : 0;
}

static uint64_t close_length(const uint8_t *p, size_t n)
{
    size_t written = 0;
    return myp_write_close((uint32_t)n + *p, NULL, 0, &written) == MYP_ERROR_BUFFER_TOO_SMALL ? written : 0;
}

static uint64_t error_length(const uint8_t *p, size_t n)
{
    static const uint8_t state[] = "HY000";
    static myp_error e = MYP_ERROR_INIT;
    size_t written = 0;
    e.code = (uint16_t)n, e.sql_state.data = state, e.sql_state.len = 5, e.message.data = p, e.message.len = n;
    return myp_write_error(&e, NULL, 0, &written) == MYP_ERROR_BUFFER_TOO_SMALL ? written : 0;
}

static uint64_t ok_length(const uint8_t *p, size_t n)
{
    static myp_ok o = MYP_OK_INIT;
    size_t written = 0;
    if (myp_read_ok(p, n, MYP_OK_COMMON, CAPABILITIES, &o))
        return 0;
    return myp_write_ok(&o, MYP_OK_COMMON, CAPABILITIES, NULL, 0, &written) == MYP_ERROR_BUFFER_TOO_SMALL ? written : 0;
}

static uint64_t binary_row_length(const uint8_t *p, size_t n)
{
    size_t written = 0;
    return binary_row(p, n) && myp_write_binary_row(types, COLUMNS, row, COLUMNS, NULL, 0, &written) == MYP_ERROR_BUFFER_TOO_SMALL ? written : 0;
}

static uint64_t text_row_length(const uint8_t *p, size_t n)
{
    size_t written = 0;
    return text_row(p, n) && myp_write_text_row(row, COLUMNS, NULL, 0, &written) == MYP_ERROR_BUFFER_TOO_SMALL ? written : 0;
}

static uint64_t execution_length(const uint8_t *p, size_t n)
{
    uint8_t as_long_data = 0;
    size_t written = 0;
    (void)n;
    for (int i = 0; i < COLUMNS; i++)
        params[i].value.kind = MYP_VALUE_INT, memcpy(&params[i].value.number, p + 8 * i, 8);
    return myp_write_execution(1, params, COLUMNS, NULL, 0, &options, 0, NULL, 0, &written, &as_long_data) == MYP_ERROR_BUFFER_TOO_SMALL ? written : 0;
}

static const struct operation {
    const char *name;
    void (*put)(struct batch *);
    uint64_t (*run)(const uint8_t *, size_t);
} operations[] = {
    { "statement", put_statement, statement }, { "column", put_column, column }, { "ok", put_ok, ok },
    { "ok_changes", put_ok_changes, ok_changes }, { "error", put_error, error }, { "handshake", put_handshake, handshake },
    { "binary_row", put_binary_row, binary_row }, { "binary_row_copied", put_binary_row, binary_row_copied },
    { "execution_read", put_execution, execution_read }, { "text_row", put_text_row, text_row }, { "execution", put_ten_numbers, execution },
    { "execution_mixed", put_binary_row, execution_mixed }, { "next_row", put_text_row, next_row }, { "next_frame", put_frame, next_frame }, { "row_added", put_binary_row, row_added },
    { "header_written", put_statement, header_written }, { "close_written", put_statement, close_written }, { "error_written", put_error, error_written },
    { "binary_row_written", put_binary_row, binary_row_written }, { "text_row_written", put_text_row, text_row_written },
    { "ok_written", put_ok_changes, ok_written }, { "header_length", put_statement, header_length },
    { "close_length", put_statement, close_length }, { "error_length", put_error, error_length }, { "ok_length", put_ok_changes, ok_length },
    { "binary_row_length", put_binary_row, binary_row_length }, { "text_row_length", put_text_row, text_row_length },
    { "execution_length", put_ten_numbers, execution_length },
};

__attribute__((noinline)) uint64_t measured(uint64_t (*run)(const uint8_t *, size_t), const struct batch *b)
{
    uint64_t sum = 0;
    for (size_t at = 0; at < b->len;) {
        size_t n = b->bytes[at] | (size_t)b->bytes[at + 1] << 8;
        uint64_t one = run(b->bytes + at + 2, n);
        if (!one)
            return 0;
        sum += one, at += 2 + n;
    }
    return sum;
}

/* what a caller has of a row: a number and 20 bytes */
struct bulk_row {
    int64_t number;
    char text[20];
};

/* the array of values that a bulk request wants: a number, 20 bytes and NULL in each row */
static void fill_values(const struct bulk_row *rows, size_t count, myp_value *values)
{
    static const myp_value none = MYP_VALUE_INIT;
    for (size_t i = 0; i < count; i++, values += 3) {
        values[0] = myp_int(rows[i].number), values[1] = myp_text(rows[i].text, sizeof rows[i].text), values[2] = none;
    }
}

/* these in one request; with no buffer, how many bytes it takes */
__attribute__((noinline)) uint64_t measured_bulk(const myp_value *values, size_t rows, uint8_t *out, size_t size)
{
    static const myp_column_type of[3] = { { MYP_TYPE_LONGLONG, 0 }, { MYP_TYPE_VAR_STRING, 0 }, { MYP_TYPE_LONGLONG, 0 } };
    size_t written = 0, taken = 0;
    uint32_t code = myp_write_bulk(1, 0, 1 << 24, of, 3, values, 3 * rows, out, size, &written, &taken);
    return code == (size ? MYP_OK : MYP_ERROR_BUFFER_TOO_SMALL) && taken == (size ? rows : 0) ? written : 0;
}

/* the same, with the array of values */
__attribute__((noinline)) uint64_t measured_rows(const struct bulk_row *rows, size_t count, myp_value *values, uint8_t *out, size_t size)
{
    fill_values(rows, count, values);
    return measured_bulk(values, count, out, size);
}

int main(int argc, char **argv)
{
    if (argc != 3)
        return 2;
    uint64_t sum = 0, before = 0;
    size_t count = strtoul(argv[2], NULL, 10);
    for (int i = 0; i < COLUMNS; i++)
        row[i] = (myp_value)MYP_VALUE_INIT;
    if (!strncmp(argv[1], "bulk", 4)) {
        static const char text[] = "abcdefghijklmnopqrstuvwxyzabcdefghijklmnop";
        size_t size = 64 * count + 64;
        struct bulk_row *rows = malloc(count * sizeof *rows);
        myp_value *values = malloc(3 * count * sizeof *values);
        uint8_t *out = malloc(size);
        if (!rows || !values || !out)
            return 1;
        for (size_t i = 0; i < count; i++)
            rows[i].number = (int64_t)varied(), memcpy(rows[i].text, text + varied() % 20, sizeof rows[i].text);
        fill_values(rows, count, values);
#ifdef ALLOCATIONS
        before = blocks;
#endif
        if (!strcmp(argv[1], "bulk_from_rows"))
            sum = measured_rows(rows, count, values, out, size);
        else
            sum = strcmp(argv[1], "bulk") ? measured_bulk(values, count, NULL, 0) : measured_bulk(values, count, out, size);
    }
    for (size_t i = 0; i < sizeof operations / sizeof *operations; i++)
        if (!strcmp(argv[1], operations[i].name)) {
            struct batch b = { 0 };
            for (size_t n = 0; n < count; n++) {
                size_t start = b.len;
                put_number(&b, 0, 2);
                operations[i].put(&b);
                b.bytes[start] = (uint8_t)(b.len - start - 2), b.bytes[start + 1] = (uint8_t)((b.len - start - 2) >> 8);
            }
#ifdef ALLOCATIONS
            before = blocks;
#endif
            sum = measured(operations[i].run, &b);
        }
#ifdef ALLOCATIONS
    printf("%.3f\n", (double)(blocks - before) / (double)count);
#else
    (void)before;
    printf("%llu\n", (unsigned long long)sum);
#endif
    return sum == 0;
}
