/* The operations of driver.c as a careful C programmer writes them by hand, each for one kind of packet. They are what the library's
 * instruction counts are compared with: linked with driver.c in place of the library, built and counted by bench/run.
 *
 * The care it takes: every read is checked against the end of the packet. A length may have any of its forms, and a column any type that
 * a server sends, NULL included. Writers compute the size before they write; values of 4 GiB or more are refused, so that it can't
 * overflow. Failed allocations are handled. Left out is what the library has beyond that: the kind of a fault, other layouts of the
 * same packet, payloads of several frames (they are refused), and a conversation that knows which packet comes next.
 *
 * A sum is the one that the library returns for the same packets, so bench/run can compare both. An operation that isn't written by hand
 * returns 0. A function for one packet is not inlined where it would be a call of a library, and columns and values are hidden
 * from the compiler, so that it can't specialize the code for them. Little-endian hosts only. */
#include <stddef.h>
#include <stdint.h>
#include <stdlib.h>
#include <string.h>

#define CALL __attribute__((noinline))
/* makes the compiler assume that anything may be stored at `p` */
#define HIDE(p) __asm__ volatile("" ::"r"(p) : "memory")

/* the bytes that are left of a packet, a batch or a stream */
struct input {
    const uint8_t *at, *end;
};

static inline size_t left(const struct input *in)
{
    return (size_t)(in->end - in->at);
}

static inline uint16_t number2(const uint8_t *p)
{
    uint16_t n;
    memcpy(&n, p, 2);
    return n;
}

static inline uint32_t number3(const uint8_t *p)
{
    return number2(p) | (uint32_t)p[2] << 16;
}

static inline uint32_t number4(const uint8_t *p)
{
    uint32_t n;
    memcpy(&n, p, 4);
    return n;
}

static inline uint64_t number8(const uint8_t *p)
{
    uint64_t n;
    memcpy(&n, p, 8);
    return n;
}

/* Takes the next packet of a batch, which follows its length in two bytes. */
static inline int next_packet(struct input *batch, struct input *packet)
{
    size_t len;
    if (left(batch) < 2)
        return 0;
    len = number2(batch->at);
    if (left(batch) - 2 < len)
        return 0;
    packet->at = batch->at + 2;
    packet->end = packet->at + len;
    batch->at = packet->end;
    return 1;
}

static CALL int read_long_length(struct input *in, uint64_t *n)
{
    switch (*in->at) {
    case 0xfc:
        if (left(in) < 3)
            return 0;
        *n = number2(in->at + 1);
        in->at += 3;
        return 1;
    case 0xfd:
        if (left(in) < 4)
            return 0;
        *n = number3(in->at + 1);
        in->at += 4;
        return 1;
    case 0xfe:
        if (left(in) < 9)
            return 0;
        *n = number8(in->at + 1);
        in->at += 9;
        return 1;
    default:
        return 0;
    }
}

/* Takes a length-encoded integer. */
static inline int read_length(struct input *in, uint64_t *n)
{
    if (in->at == in->end)
        return 0;
    if (__builtin_expect(*in->at < 0xfb, 1)) {
        *n = *in->at++;
        return 1;
    }
    return read_long_length(in, n);
}

/* Takes a length-encoded string. */
static inline int read_string(struct input *in, const uint8_t **bytes, size_t *len)
{
    uint64_t n;
    if (!read_length(in, &n) || left(in) < n)
        return 0;
    *bytes = in->at;
    *len = n;
    in->at += n;
    return 1;
}

struct buffer {
    uint8_t *bytes;
    size_t len, capacity;
};

static CALL int grow(struct buffer *out, size_t more)
{
    size_t capacity;
    uint8_t *bytes;
    if (more > SIZE_MAX / 2 - out->len)
        return 0;
    capacity = 2 * out->capacity > out->len + more ? 2 * out->capacity : out->len + more;
    bytes = realloc(out->bytes, capacity);
    if (!bytes)
        return 0;
    out->bytes = bytes;
    out->capacity = capacity;
    return 1;
}

/* Makes the buffer large enough for a given number of bytes more. */
static inline int reserve(struct buffer *out, size_t more)
{
    return more <= out->capacity - out->len || grow(out, more);
}

/* ---- values */

enum {
    TYPE_DECIMAL = 0, TYPE_TINY = 1, TYPE_SHORT = 2, TYPE_LONG = 3, TYPE_FLOAT = 4, TYPE_DOUBLE = 5, TYPE_NULL = 6,
    TYPE_TIMESTAMP = 7, TYPE_LONGLONG = 8, TYPE_INT24 = 9, TYPE_DATE = 10, TYPE_TIME = 11, TYPE_DATETIME = 12, TYPE_YEAR = 13,
    TYPE_VARCHAR = 15, TYPE_BIT = 16, TYPE_VECTOR = 0xf2, TYPE_VAR_STRING = 0xfd
};

enum kind { NULL_VALUE, BYTES, INT, UINT, FLOAT, DOUBLE, DATE, TIME };

struct value {
    uint8_t kind;
    union {
        struct {
            const uint8_t *at;
            size_t len;
        } bytes;
        int64_t number;
        uint64_t unsigned_number;
        float float4;
        double float8;
        struct {
            uint32_t microseconds;
            uint16_t year;
            uint8_t month, day, hours, minutes, seconds;
        } date;
        struct {
            uint32_t days, microseconds;
            uint8_t is_negative, hours, minutes, seconds;
        } time;
    };
};

struct column_type {
    uint8_t type, is_unsigned;
};

static inline int is_string(uint8_t type)
{
    return type >= 0xf5 || type == TYPE_DECIMAL || type == TYPE_VARCHAR || type == TYPE_BIT || type == TYPE_VECTOR;
}

/* what a value adds to a sum: a number itself, a string its length */
static inline uint64_t part(const struct value *value)
{
    return value->kind == INT ? (uint64_t)value->number : value->kind == BYTES ? value->bytes.len : 0;
}

static inline uint64_t sum_of(const struct value *values, size_t count)
{
    uint64_t sum = 0;
    for (size_t i = 0; i < count; i++)
        sum += part(&values[i]);
    return sum;
}

static int read_date(struct input *in, struct value *value)
{
    const uint8_t *p;
    size_t len;
    if (!read_string(in, &p, &len) || (len != 0 && len != 4 && len != 7 && len != 11))
        return 0;
    value->kind = DATE;
    memset(&value->date, 0, sizeof value->date);
    if (len >= 4) {
        value->date.year = number2(p);
        value->date.month = p[2];
        value->date.day = p[3];
    }
    if (len >= 7) {
        value->date.hours = p[4];
        value->date.minutes = p[5];
        value->date.seconds = p[6];
    }
    if (len == 11)
        value->date.microseconds = number4(p + 7);
    return 1;
}

static int read_time(struct input *in, struct value *value)
{
    const uint8_t *p;
    size_t len;
    if (!read_string(in, &p, &len) || (len != 0 && len != 8 && len != 12))
        return 0;
    value->kind = TIME;
    memset(&value->time, 0, sizeof value->time);
    if (len >= 8) {
        value->time.is_negative = p[0];
        value->time.days = number4(p + 1);
        value->time.hours = p[5];
        value->time.minutes = p[6];
        value->time.seconds = p[7];
    }
    if (len == 12)
        value->time.microseconds = number4(p + 8);
    return 1;
}

static CALL int read_other_value(struct input *in, struct column_type column, struct value *value)
{
    size_t size = 0;
    switch (column.type) {
    case TYPE_NULL:
        value->kind = NULL_VALUE;
        return 1;
    case TYPE_TIMESTAMP:
    case TYPE_DATE:
    case TYPE_DATETIME:
        return read_date(in, value);
    case TYPE_TIME:
        return read_time(in, value);
    case TYPE_TINY:
        size = 1;
        break;
    case TYPE_SHORT:
    case TYPE_YEAR:
        size = 2;
        break;
    case TYPE_LONG:
    case TYPE_INT24:
    case TYPE_FLOAT:
        size = 4;
        break;
    case TYPE_DOUBLE:
        size = 8;
        break;
    default:
        return 0;
    }
    if (left(in) < size)
        return 0;
    value->kind = INT;
    if (column.type == TYPE_FLOAT) {
        value->kind = FLOAT;
        memcpy(&value->float4, in->at, 4);
    } else if (column.type == TYPE_DOUBLE) {
        value->kind = DOUBLE;
        memcpy(&value->float8, in->at, 8);
    } else if (size == 1) {
        value->number = column.is_unsigned ? *in->at : (int8_t)*in->at;
    } else if (size == 2) {
        value->number = column.is_unsigned ? number2(in->at) : (int16_t)number2(in->at);
    } else {
        value->number = column.is_unsigned ? (int64_t)number4(in->at) : (int32_t)number4(in->at);
    }
    in->at += size;
    return 1;
}

/* Takes a binary value that is not NULL. */
static inline int read_value(struct input *in, struct column_type column, struct value *value)
{
    if (column.type == TYPE_LONGLONG) {
        if (left(in) < 8)
            return 0;
        value->kind = INT;
        value->number = (int64_t)number8(in->at);
        if (column.is_unsigned && value->number < 0)
            value->kind = UINT;
        in->at += 8;
        return 1;
    }
    if (is_string(column.type)) {
        value->kind = BYTES;
        return read_string(in, &value->bytes.at, &value->bytes.len);
    }
    return read_other_value(in, column, value);
}

/* ---- statements, columns, errors, OK packets, handshakes */

struct statement {
    uint32_t id;
    uint16_t columns, params, warnings;
};

static inline int read_statement(const uint8_t *p, size_t len, struct statement *statement)
{
    if (len < 12 || p[0] != 0)
        return 0;
    statement->id = number4(p + 1);
    statement->columns = number2(p + 5);
    statement->params = number2(p + 7);
    statement->warnings = number2(p + 10);
    return 1;
}

uint64_t bench_statements_read(const uint8_t *bytes, size_t len)
{
    uint64_t sum = 0;
    for (; len >= 12; bytes += 12, len -= 12) {
        struct statement it;
        if (read_statement(bytes, 12, &it))
            sum += (uint64_t)it.id + it.columns + it.params + it.warnings;
    }
    return sum;
}

static inline int write_statement(const struct statement *statement, struct buffer *out)
{
    uint8_t *p;
    if (!reserve(out, 12))
        return 0;
    p = out->bytes + out->len;
    p[0] = 0;
    memcpy(p + 1, &statement->id, 4);
    memcpy(p + 5, &statement->columns, 2);
    memcpy(p + 7, &statement->params, 2);
    p[9] = 0;
    memcpy(p + 10, &statement->warnings, 2);
    out->len += 12;
    return 1;
}

/* Frees the buffer, and returns how many bytes were written to it. */
static inline uint64_t written(struct buffer *out)
{
    HIDE(out->bytes);
    free(out->bytes);
    return out->len;
}

uint64_t bench_statements_written(const uint8_t *bytes, size_t len)
{
    struct buffer out = { 0 };
    if (!reserve(&out, len))
        return 0;
    for (; len >= 12; bytes += 12, len -= 12) {
        struct statement it;
        if (read_statement(bytes, 12, &it) && !write_statement(&it, &out))
            break;
    }
    return written(&out);
}

struct column {
    /* schema, table, original table, name, original name */
    struct {
        const uint8_t *at;
        size_t len;
    } names[5];
    uint32_t length;
    uint16_t character_set, flags;
    uint8_t type, decimals;
};

static CALL int read_column(struct input packet, struct column *column)
{
    const uint8_t *catalog;
    size_t len;
    uint64_t rest;
    if (!read_string(&packet, &catalog, &len) || len != 3 || memcmp(catalog, "def", 3))
        return 0;
    for (int i = 0; i < 5; i++)
        if (!read_string(&packet, &column->names[i].at, &column->names[i].len))
            return 0;
    if (!read_length(&packet, &rest) || rest != 12 || left(&packet) < 12)
        return 0;
    column->character_set = number2(packet.at);
    column->length = number4(packet.at + 2);
    column->type = packet.at[6];
    column->flags = number2(packet.at + 7);
    column->decimals = packet.at[9];
    return column->type <= 19 || column->type >= TYPE_VECTOR;
}

uint64_t bench_columns_borrowed(const uint8_t *bytes, size_t len)
{
    struct input batch = { bytes, bytes + len }, packet;
    struct column column;
    uint64_t sum = 0;
    while (next_packet(&batch, &packet))
        if (read_column(packet, &column))
            sum += column.length + column.names[4].len;
    return sum;
}

struct error {
    const uint8_t *state, *message;
    size_t len;
    uint16_t code;
};

/* An error with an SQL state. */
static inline int read_error(struct input packet, struct error *error)
{
    if (left(&packet) < 9 || packet.at[0] != 0xff || packet.at[3] != '#')
        return 0;
    error->code = number2(packet.at + 1);
    error->state = packet.at + 4;
    error->message = packet.at + 9;
    error->len = left(&packet) - 9;
    return 1;
}

uint64_t bench_errors_read(const uint8_t *bytes, size_t len)
{
    struct input batch = { bytes, bytes + len }, packet;
    struct error error;
    uint64_t sum = 0;
    while (next_packet(&batch, &packet))
        if (read_error(packet, &error))
            sum += (uint64_t)error.code + error.len;
    return sum;
}

static inline int write_error(const struct error *error, struct buffer *out)
{
    uint8_t *p;
    if (error->len > UINT32_MAX || !reserve(out, 9 + error->len))
        return 0;
    p = out->bytes + out->len;
    p[0] = 0xff;
    memcpy(p + 1, &error->code, 2);
    p[3] = '#';
    memcpy(p + 4, error->state, 5);
    memcpy(p + 9, error->message, error->len);
    out->len += 9 + error->len;
    return 1;
}

uint64_t bench_errors_written(const uint8_t *bytes, size_t len)
{
    struct input batch = { bytes, bytes + len }, packet;
    struct buffer out = { 0 };
    struct error error;
    if (!reserve(&out, len))
        return 0;
    while (next_packet(&batch, &packet))
        if (read_error(packet, &error) && !write_error(&error, &out))
            break;
    return written(&out);
}

/* What a change of the session adds to the sum: 1 for variables, the length of a schema's name. */
static inline int read_change(struct input *changes, uint64_t *sum)
{
    const uint8_t *bytes;
    size_t len;
    struct input data;
    uint8_t type = *changes->at++;
    if (!read_string(changes, &bytes, &len))
        return 0;
    data.at = bytes;
    data.end = bytes + len;
    switch (type) {
    case 0:
        while (data.at < data.end)
            if (!read_string(&data, &bytes, &len) || !read_string(&data, &bytes, &len))
                return 0;
        *sum += 1;
        return 1;
    case 1:
        if (!read_string(&data, &bytes, &len))
            return 0;
        *sum += len;
        return 1;
    case 3:
        /* (GTIDs, which follow their encoding) */
        if (data.at == data.end)
            return 0;
        data.at++;
        return read_string(&data, &bytes, &len);
    case 2:
    case 4:
    case 5:
        return read_string(&data, &bytes, &len);
    default:
        return 1;
    }
}

/* An OK packet under CLIENT_SESSION_TRACK, down to each variable of its changes. */
static CALL int read_ok(struct input packet, uint64_t *sum)
{
    uint64_t affected, id, found;
    const uint8_t *bytes;
    size_t len;
    uint16_t status;
    if (packet.at == packet.end || *packet.at != 0)
        return 0;
    packet.at++;
    if (!read_length(&packet, &affected) || !read_length(&packet, &id) || left(&packet) < 4)
        return 0;
    status = number2(packet.at);
    packet.at += 4;
    found = affected;
    if (packet.at < packet.end) {
        if (!read_string(&packet, &bytes, &len))
            return 0;
        if (status & 0x4000) {
            struct input changes;
            if (!read_string(&packet, &bytes, &len))
                return 0;
            changes.at = bytes;
            changes.end = bytes + len;
            while (changes.at < changes.end)
                if (!read_change(&changes, &found))
                    return 0;
        }
    }
    *sum += found;
    return 1;
}

uint64_t bench_ok_packets_viewed(const uint8_t *bytes, size_t len)
{
    struct input batch = { bytes, bytes + len }, packet;
    uint64_t sum = 0;
    while (next_packet(&batch, &packet))
        read_ok(packet, &sum);
    return sum;
}

struct handshake {
    const uint8_t *version, *scramble1, *scramble2, *plugin;
    size_t version_len, scramble2_len, plugin_len;
    uint32_t connection_id, capabilities, mariadb_capabilities;
    uint16_t status;
    uint8_t character_set;
};

static CALL int read_handshake(struct input packet, struct handshake *handshake)
{
    const uint8_t *zero, *p;
    if (packet.at == packet.end || *packet.at != 10)
        return 0;
    packet.at++;
    zero = memchr(packet.at, 0, left(&packet));
    if (!zero)
        return 0;
    handshake->version = packet.at;
    handshake->version_len = (size_t)(zero - packet.at);
    packet.at = zero + 1;
    if (left(&packet) < 31)
        return 0;
    p = packet.at;
    handshake->connection_id = number4(p);
    handshake->scramble1 = p + 4;
    handshake->capabilities = number2(p + 13) | (uint32_t)number2(p + 18) << 16;
    handshake->character_set = p[15];
    handshake->status = number2(p + 16);
    handshake->mariadb_capabilities = number4(p + 27);
    packet.at += 31;
    handshake->scramble2 = handshake->plugin = NULL;
    handshake->scramble2_len = handshake->plugin_len = 0;
    /* CLIENT_RESERVED2 */
    if (handshake->capabilities & 1 << 15) {
        size_t len = p[20] > 21 ? p[20] - 8u : 13;
        if (left(&packet) < len)
            return 0;
        handshake->scramble2 = packet.at;
        handshake->scramble2_len = len;
        packet.at += len;
    }
    /* CLIENT_PLUGIN_AUTH; the zero after the name may be missing */
    if (handshake->capabilities & 1 << 19) {
        zero = memchr(packet.at, 0, left(&packet));
        handshake->plugin = packet.at;
        handshake->plugin_len = (size_t)((zero ? zero : packet.end) - packet.at);
    }
    return 1;
}

uint64_t bench_handshakes_read(const uint8_t *bytes, size_t len)
{
    struct input batch = { bytes, bytes + len }, packet;
    struct handshake handshake;
    uint64_t sum = 0;
    while (next_packet(&batch, &packet))
        if (read_handshake(packet, &handshake))
            sum += handshake.connection_id + handshake.version_len + handshake.plugin_len;
    return sum;
}

/* ---- rows */

enum { COLUMNS = 10 };

static CALL int view_text_row(struct input packet, size_t count, uint64_t *sum)
{
    uint64_t found = 0;
    for (size_t i = 0; i < count; i++) {
        const uint8_t *bytes;
        size_t len;
        if (packet.at == packet.end)
            return 0;
        if (*packet.at == 0xfb) {
            packet.at++;
            continue;
        }
        if (!read_string(&packet, &bytes, &len))
            return 0;
        found += len;
    }
    *sum += found;
    return 1;
}

uint64_t bench_text_rows_viewed(const uint8_t *bytes, size_t len)
{
    struct input batch = { bytes, bytes + len }, packet;
    uint64_t sum = 0;
    while (next_packet(&batch, &packet))
        view_text_row(packet, COLUMNS, &sum);
    return sum;
}

static CALL int place_text_row(struct input packet, size_t count, struct value *values)
{
    for (size_t i = 0; i < count; i++) {
        if (packet.at == packet.end)
            return 0;
        if (*packet.at == 0xfb) {
            packet.at++;
            values[i].kind = NULL_VALUE;
            continue;
        }
        values[i].kind = BYTES;
        if (!read_string(&packet, &values[i].bytes.at, &values[i].bytes.len))
            return 0;
    }
    return 1;
}

uint64_t bench_text_rows_placed(const uint8_t *bytes, size_t len)
{
    struct input batch = { bytes, bytes + len }, packet;
    struct value values[COLUMNS];
    uint64_t sum = 0;
    while (next_packet(&batch, &packet))
        if (place_text_row(packet, COLUMNS, values))
            sum += sum_of(values, COLUMNS);
    return sum;
}

static void ten_columns(struct column_type columns[COLUMNS])
{
    for (int i = 0; i < COLUMNS; i++)
        columns[i] = (struct column_type){ i < 5 ? TYPE_LONGLONG : TYPE_VAR_STRING, 0 };
    HIDE(columns);
}

static inline int is_null(const uint8_t *bitmap, size_t place)
{
    return bitmap[place / 8] >> place % 8 & 1;
}

/* Takes the header and the bitmap of a binary row. */
static inline const uint8_t *read_bitmap(struct input *packet, size_t count)
{
    const uint8_t *bitmap = packet->at + 1;
    size_t size = (count + 9) / 8;
    if (left(packet) < 1 + size || *packet->at != 0)
        return NULL;
    packet->at += 1 + size;
    return bitmap;
}

static CALL int view_binary_row(struct input packet, const struct column_type *columns, size_t count, uint64_t *sum)
{
    const uint8_t *bitmap = read_bitmap(&packet, count);
    uint64_t found = 0;
    if (!bitmap)
        return 0;
    for (size_t i = 0; i < count; i++) {
        struct value value;
        if (is_null(bitmap, i + 2))
            continue;
        if (!read_value(&packet, columns[i], &value))
            return 0;
        found += part(&value);
    }
    *sum += found;
    return 1;
}

uint64_t bench_rows_viewed(const uint8_t *bytes, size_t len)
{
    struct input batch = { bytes, bytes + len }, packet;
    struct column_type columns[COLUMNS];
    uint64_t sum = 0;
    ten_columns(columns);
    while (next_packet(&batch, &packet))
        view_binary_row(packet, columns, COLUMNS, &sum);
    return sum;
}

static CALL int place_binary_row(struct input packet, const struct column_type *columns, size_t count, struct value *values)
{
    const uint8_t *bitmap = read_bitmap(&packet, count);
    if (!bitmap)
        return 0;
    for (size_t i = 0; i < count; i++) {
        if (is_null(bitmap, i + 2))
            values[i].kind = NULL_VALUE;
        else if (!read_value(&packet, columns[i], &values[i]))
            return 0;
    }
    return 1;
}

uint64_t bench_rows_placed(const uint8_t *bytes, size_t len)
{
    struct input batch = { bytes, bytes + len }, packet;
    struct column_type columns[COLUMNS];
    struct value values[COLUMNS];
    uint64_t sum = 0;
    ten_columns(columns);
    while (next_packet(&batch, &packet))
        if (place_binary_row(packet, columns, COLUMNS, values))
            sum += sum_of(values, COLUMNS);
    return sum;
}

static void drop_strings(struct value *values, size_t count)
{
    for (size_t i = 0; i < count; i++)
        if (values[i].kind == BYTES && values[i].bytes.len > 0)
            free((void *)values[i].bytes.at);
}

/* Replaces each string with a copy in a block of its own; if memory is out, the blocks before it are freed. */
static int keep_strings(struct value *values, size_t count)
{
    for (size_t i = 0; i < count; i++) {
        uint8_t *block;
        if (values[i].kind != BYTES || values[i].bytes.len == 0)
            continue;
        block = malloc(values[i].bytes.len);
        if (!block) {
            drop_strings(values, i);
            return 0;
        }
        memcpy(block, values[i].bytes.at, values[i].bytes.len);
        values[i].bytes.at = block;
    }
    return 1;
}

/* A row that outlives its packet: a block for its values, and one for each string. */
uint64_t bench_rows_read(const uint8_t *bytes, size_t len)
{
    struct input batch = { bytes, bytes + len }, packet;
    struct column_type columns[COLUMNS];
    uint64_t sum = 0;
    ten_columns(columns);
    while (next_packet(&batch, &packet)) {
        struct value *row = malloc(COLUMNS * sizeof *row);
        if (!row)
            return 0;
        if (place_binary_row(packet, columns, COLUMNS, row) && keep_strings(row, COLUMNS)) {
            sum += sum_of(row, COLUMNS);
            drop_strings(row, COLUMNS);
        }
        free(row);
    }
    return sum;
}

/* A row that outlives its packet, in one block: its values, and a copy of the packet, where their strings are. */
uint64_t bench_rows_counted(const uint8_t *bytes, size_t len)
{
    struct input batch = { bytes, bytes + len }, packet;
    struct column_type columns[COLUMNS];
    uint64_t sum = 0;
    ten_columns(columns);
    while (next_packet(&batch, &packet)) {
        size_t size = left(&packet);
        struct value *row = malloc(COLUMNS * sizeof *row + size);
        struct input copy;
        if (!row)
            return 0;
        copy.at = memcpy(row + COLUMNS, packet.at, size);
        copy.end = copy.at + size;
        if (place_binary_row(copy, columns, COLUMNS, row))
            sum += sum_of(row, COLUMNS) + 1;
        free(row);
    }
    return sum;
}

uint64_t bench_rows_stored(const uint8_t *bytes, size_t len)
{
    return bench_rows_counted(bytes, len);
}

/* ---- streams */

static inline uint64_t seen(const uint8_t *bytes, size_t len)
{
    return len ? len + *bytes : 0;
}

uint64_t bench_packets_passed(const uint8_t *bytes, size_t len)
{
    struct input batch = { bytes, bytes + len }, packet;
    uint64_t sum = 0;
    while (next_packet(&batch, &packet))
        sum += seen(packet.at, left(&packet));
    return sum;
}

/* Takes a payload of one frame: 1, or 0 where its end has not come yet, or -1 for another number or a payload of several frames. */
static inline int next_payload(struct input *stream, uint8_t *number, struct input *payload)
{
    size_t len;
    if (left(stream) < 4)
        return 0;
    len = number3(stream->at);
    if (stream->at[3] != *number || len == 0xffffff)
        return -1;
    if (left(stream) - 4 < len)
        return 0;
    ++*number;
    payload->at = stream->at + 4;
    payload->end = payload->at + len;
    stream->at = payload->end;
    return 1;
}

uint64_t bench_payloads_found(const uint8_t *bytes, size_t len)
{
    struct input stream = { bytes, bytes + len }, payload;
    uint64_t sum = 0;
    uint8_t number = 0;
    int found;
    while ((found = next_payload(&stream, &number, &payload)) > 0)
        sum += seen(payload.at, left(&payload));
    return found < 0 ? 0 : sum;
}

/* The payloads that a piece of a stream ends; what is left of the last frame is kept. 0 where there is no such frame, or memory is out. */
static int join_payloads(struct buffer *kept, uint8_t *number, struct input piece, uint64_t *sum)
{
    struct input payload;
    int found;
    while (kept->len > 0) {
        size_t wanted = kept->len < 4 ? 4 : 4 + (size_t)number3(kept->bytes);
        size_t more = wanted - kept->len;
        if (more > left(&piece))
            more = left(&piece);
        if (!reserve(kept, more))
            return 0;
        memcpy(kept->bytes + kept->len, piece.at, more);
        kept->len += more;
        piece.at += more;
        if (kept->len >= 4) {
            struct input frame = { kept->bytes, kept->bytes + kept->len };
            found = next_payload(&frame, number, &payload);
            if (found < 0)
                return 0;
            if (found > 0) {
                *sum += seen(payload.at, left(&payload));
                kept->len = 0;
            }
        }
        if (piece.at == piece.end)
            return 1;
    }
    while ((found = next_payload(&piece, number, &payload)) > 0)
        *sum += seen(payload.at, left(&payload));
    if (found < 0 || !reserve(kept, left(&piece)))
        return 0;
    if (left(&piece) > 0)
        memcpy(kept->bytes, piece.at, left(&piece));
    kept->len = left(&piece);
    return 1;
}

uint64_t bench_payloads_joined(const uint8_t *bytes, size_t len)
{
    enum { SEGMENT = 1460 };
    struct buffer kept = { 0 };
    uint64_t sum = 0;
    uint8_t number = 0;
    while (len > 0) {
        size_t size = len < SEGMENT ? len : SEGMENT;
        if (!join_payloads(&kept, &number, (struct input){ bytes, bytes + size }, &sum)) {
            sum = 0;
            break;
        }
        bytes += size;
        len -= size;
    }
    free(kept.bytes);
    return sum;
}

/* Writes a payload as one frame, and returns how many bytes that takes: 0 where there are not this many. */
static inline size_t write_frame(uint8_t *out, size_t size, uint8_t *number, struct input payload)
{
    size_t len = left(&payload);
    uint32_t header = (uint32_t)len | (uint32_t)*number << 24;
    if (len >= 0xffffff || size < 4 || size - 4 < len)
        return 0;
    ++*number;
    memcpy(out, &header, 4);
    memcpy(out + 4, payload.at, len);
    return 4 + len;
}

uint64_t bench_payloads_framed(const uint8_t *bytes, size_t len)
{
    struct input batch = { bytes, bytes + len }, packet;
    uint8_t out[1024], number = 0;
    uint64_t sum = 0;
    while (next_packet(&batch, &packet)) {
        size_t size = write_frame(out, sizeof out, &number, packet);
        if (!size)
            return 0;
        HIDE(out);
        sum += seen(out, size);
    }
    return sum;
}

/* Whether a packet of a text result is a row, and neither an error nor the EOF packet at its end. */
static inline int is_row(struct input packet)
{
    return packet.at < packet.end && *packet.at != 0xff && (*packet.at != 0xfe || left(&packet) >= 9);
}

uint64_t bench_rows_distinguished(const uint8_t *bytes, size_t len)
{
    struct input batch = { bytes, bytes + len }, packet;
    uint64_t sum = 0;
    while (next_packet(&batch, &packet)) {
        if (!is_row(packet))
            return 0;
        sum++;
    }
    return sum;
}

uint64_t bench_text_rows_streamed(const uint8_t *bytes, size_t len)
{
    struct input stream = { bytes, bytes + len }, payload;
    uint64_t sum = 0;
    uint8_t number = 0;
    int found;
    while ((found = next_payload(&stream, &number, &payload)) > 0)
        if (!is_row(payload) || !view_text_row(payload, COLUMNS, &sum))
            return 0;
    return found < 0 ? 0 : sum;
}

/* ---- executions and bulk rows */

static inline size_t length_size(uint64_t n)
{
    return n < 0xfb ? 1 : n < 1 << 16 ? 3 : n < 1 << 24 ? 4 : 9;
}

static CALL uint8_t *put_long_length(uint8_t *out, uint64_t n)
{
    size_t width = length_size(n) - 1;
    *out = width == 2 ? 0xfc : width == 3 ? 0xfd : 0xfe;
    memcpy(out + 1, &n, width);
    return out + 1 + width;
}

static inline uint8_t *put_length(uint8_t *out, uint64_t n)
{
    if (__builtin_expect(n >= 0xfb, 0))
        return put_long_length(out, n);
    *out = (uint8_t)n;
    return out + 1;
}

static inline uint8_t *put_string(uint8_t *out, const struct value *value)
{
    out = put_length(out, value->bytes.len);
    memcpy(out, value->bytes.at, value->bytes.len);
    return out + value->bytes.len;
}

/* The size of a value that is neither a number nor bytes. */
static CALL size_t other_size(const struct value *value)
{
    switch (value->kind) {
    case FLOAT:
        return 4;
    case DOUBLE:
        return 8;
    case DATE:
        return 12;
    case TIME:
        return 13;
    default:
        return 0;
    }
}

static CALL uint8_t *put_other(uint8_t *out, const struct value *value)
{
    switch (value->kind) {
    case FLOAT:
        memcpy(out, &value->float4, 4);
        return out + 4;
    case DOUBLE:
        memcpy(out, &value->float8, 8);
        return out + 8;
    case DATE:
        out[0] = 11;
        memcpy(out + 1, &value->date.year, 2);
        out[3] = value->date.month;
        out[4] = value->date.day;
        out[5] = value->date.hours;
        out[6] = value->date.minutes;
        out[7] = value->date.seconds;
        memcpy(out + 8, &value->date.microseconds, 4);
        return out + 12;
    case TIME:
        out[0] = 12;
        out[1] = value->time.is_negative;
        memcpy(out + 2, &value->time.days, 4);
        out[6] = value->time.hours;
        out[7] = value->time.minutes;
        out[8] = value->time.seconds;
        memcpy(out + 9, &value->time.microseconds, 4);
        return out + 13;
    default:
        return out;
    }
}

/* Adds the size of a value; 0 where bytes are 4 GiB or more, so that sizes can't overflow. */
static inline int add_size(size_t *size, const struct value *value)
{
    if (value->kind == INT || value->kind == UINT) {
        *size += 8;
    } else if (value->kind == BYTES) {
        if (value->bytes.len > UINT32_MAX)
            return 0;
        *size += length_size(value->bytes.len) + value->bytes.len;
    } else {
        *size += other_size(value);
    }
    return 1;
}

/* the type of a parameter, with its flag for numbers without a sign */
static inline void put_type(uint8_t *out, uint8_t type, uint8_t flags)
{
    out[0] = type;
    out[1] = flags;
}

/* Writes an execution with the types of its parameters. */
static CALL int write_execution(uint32_t id, const struct value *values, size_t count, struct buffer *out)
{
    size_t bitmap_size = (count + 7) / 8, size = 11 + bitmap_size + 2 * count;
    const uint32_t iterations = 1;
    uint8_t *bitmap, *types, *data;
    if (count > 0xffff)
        return 0;
    for (size_t i = 0; i < count; i++)
        if (!add_size(&size, &values[i]))
            return 0;
    out->len = 0;
    if (!reserve(out, size))
        return 0;
    out->bytes[0] = 0x17;
    memcpy(out->bytes + 1, &id, 4);
    out->bytes[5] = 0;
    memcpy(out->bytes + 6, &iterations, 4);
    bitmap = out->bytes + 10;
    memset(bitmap, 0, bitmap_size);
    bitmap[bitmap_size] = 1;
    types = bitmap + bitmap_size + 1;
    data = types + 2 * count;
    for (size_t i = 0; i < count; i++, types += 2) {
        switch (values[i].kind) {
        case INT:
        case UINT:
            put_type(types, TYPE_LONGLONG, values[i].kind == UINT ? 0x80 : 0);
            memcpy(data, &values[i].number, 8);
            data += 8;
            break;
        case BYTES:
            put_type(types, TYPE_VAR_STRING, 0);
            data = put_string(data, &values[i]);
            break;
        case NULL_VALUE:
            put_type(types, TYPE_NULL, 0);
            bitmap[i / 8] |= (uint8_t)(1 << i % 8);
            break;
        default:
            put_type(types, values[i].kind == FLOAT ? TYPE_FLOAT : values[i].kind == DOUBLE ? TYPE_DOUBLE :
                values[i].kind == DATE ? TYPE_DATETIME : TYPE_TIME, 0);
            data = put_other(data, &values[i]);
        }
    }
    out->len = (size_t)(data - out->bytes);
    return 1;
}

uint64_t bench_executions_borrowed(const uint8_t *bytes, size_t len)
{
    static const uint8_t text[20] = "aaaaaaaaaaaaaaaaaaaa";
    struct value values[COLUMNS];
    struct buffer out = { 0 };
    uint64_t sum = 0;
    for (int i = 5; i < COLUMNS; i++) {
        values[i].kind = BYTES;
        values[i].bytes.at = text;
        values[i].bytes.len = sizeof text;
    }
    for (; len >= 40; bytes += 40, len -= 40) {
        for (int i = 0; i < 5; i++) {
            values[i].kind = INT;
            values[i].number = (int64_t)number8(bytes + 8 * i);
        }
        if (!write_execution(1, values, COLUMNS, &out))
            break;
        sum += out.len;
    }
    free(out.bytes);
    return sum;
}

/* Reads an execution; `types` are those of the execution before it, and stay where it has none. */
static CALL int read_execution(struct input packet, size_t count, struct column_type *types, uint32_t *id, struct value *values)
{
    size_t bitmap_size = (count + 7) / 8;
    const uint8_t *bitmap;
    if (left(&packet) < 11 + bitmap_size || *packet.at != 0x17)
        return 0;
    *id = number4(packet.at + 1);
    bitmap = packet.at + 10;
    packet.at += 10 + bitmap_size;
    if (*packet.at++ == 1) {
        if (left(&packet) < 2 * count)
            return 0;
        for (size_t i = 0; i < count; i++)
            types[i] = (struct column_type){ packet.at[2 * i], packet.at[2 * i + 1] >> 7 };
        packet.at += 2 * count;
    }
    for (size_t i = 0; i < count; i++) {
        if (is_null(bitmap, i))
            values[i].kind = NULL_VALUE;
        else if (!read_value(&packet, types[i], &values[i]))
            return 0;
    }
    return 1;
}

uint64_t bench_executions_received(const uint8_t *bytes, size_t len)
{
    struct input batch = { bytes, bytes + len }, packet;
    struct column_type types[COLUMNS];
    struct value values[COLUMNS];
    uint64_t sum = 0;
    uint32_t id;
    for (int i = 0; i < COLUMNS; i++)
        types[i] = (struct column_type){ TYPE_VAR_STRING, 0 };
    while (next_packet(&batch, &packet))
        if (read_execution(packet, COLUMNS, types, &id, values))
            sum += id + sum_of(values, COLUMNS);
    return sum;
}

/* Starts a bulk request. The first one has the types of its columns, which the server keeps for those after it. */
static int start_bulk(struct buffer *out, uint32_t id, int is_first, const struct column_type *columns, size_t count)
{
    size_t size = is_first ? 7 + 2 * count : 7;
    out->len = 0;
    if (!reserve(out, size))
        return 0;
    out->bytes[0] = 0xfa;
    memcpy(out->bytes + 1, &id, 4);
    out->bytes[5] = is_first ? 0x80 : 0;
    out->bytes[6] = 0;
    for (size_t i = 0; is_first && i < count; i++)
        put_type(out->bytes + 7 + 2 * i, columns[i].type, columns[i].is_unsigned ? 0x80 : 0);
    out->len = size;
    return 1;
}

/* Whether a value that is neither a signed number nor bytes is written as its column says. Integers are written in eight bytes alone. */
static CALL int is_other_of_column(const struct value *value, struct column_type column)
{
    switch (value->kind) {
    case UINT:
        return column.type == TYPE_LONGLONG && (column.is_unsigned || value->number >= 0);
    case FLOAT:
        return column.type == TYPE_FLOAT;
    case DOUBLE:
        return column.type == TYPE_DOUBLE;
    case DATE:
        return column.type == TYPE_DATETIME || column.type == TYPE_TIMESTAMP;
    case TIME:
        return column.type == TYPE_TIME;
    default:
        return 1;
    }
}

static inline int is_of_column(const struct value *value, struct column_type column)
{
    if (value->kind == INT)
        return column.type == TYPE_LONGLONG && (!column.is_unsigned || value->number >= 0);
    if (value->kind == BYTES)
        return is_string(column.type);
    return is_other_of_column(value, column);
}

/* Adds a row: 1, or 0 where it doesn't fit below `most` bytes, or -1 where it can't be written or memory is out. */
static CALL int add_bulk_row(struct buffer *out, size_t most, const struct column_type *columns, const struct value *values, size_t count)
{
    size_t size = count;
    uint8_t *data;
    for (size_t i = 0; i < count; i++)
        if (values[i].kind != NULL_VALUE && (!is_of_column(&values[i], columns[i]) || !add_size(&size, &values[i])))
            return -1;
    if (out->len > most || size > most - out->len)
        return 0;
    if (!reserve(out, size))
        return -1;
    data = out->bytes + out->len;
    for (size_t i = 0; i < count; i++) {
        *data++ = values[i].kind == NULL_VALUE;
        switch (values[i].kind) {
        case NULL_VALUE:
            break;
        case INT:
        case UINT:
            memcpy(data, &values[i].number, 8);
            data += 8;
            break;
        case BYTES:
            data = put_string(data, &values[i]);
            break;
        default:
            data = put_other(data, &values[i]);
        }
    }
    out->len = (size_t)(data - out->bytes);
    return 1;
}

uint64_t bench_bulk_rows_streamed(const uint8_t *bytes, size_t len)
{
    struct column_type columns[3] = { { TYPE_LONGLONG, 0 }, { TYPE_VAR_STRING, 0 }, { TYPE_VAR_STRING, 0 } };
    /* 16 MiB with the header of a frame */
    const size_t most = (1 << 24) - 4;
    struct buffer out = { 0 };
    uint64_t sum = 0;
    int added = 1;
    HIDE(columns);
    if (!start_bulk(&out, 1, 1, columns, 3))
        return 0;
    for (; len >= 28; bytes += 28, len -= 28) {
        struct value row[3];
        row[0].kind = INT;
        row[0].number = (int64_t)number8(bytes);
        row[1].kind = BYTES;
        row[1].bytes.at = bytes + 8;
        row[1].bytes.len = 20;
        row[2].kind = NULL_VALUE;
        added = add_bulk_row(&out, most, columns, row, 3);
        if (added == 0) {
            sum += out.len;
            if (!start_bulk(&out, 1, 0, columns, 3))
                break;
            added = add_bulk_row(&out, most, columns, row, 3);
        }
        if (added != 1)
            break;
    }
    sum += out.len;
    free(out.bytes);
    return added == 1 ? sum : 0;
}

/* ---- rows that are sent */

static CALL int write_text_row(const struct value *values, size_t count, struct buffer *out)
{
    size_t size = 0;
    uint8_t *data;
    for (size_t i = 0; i < count; i++) {
        if (values[i].kind == NULL_VALUE)
            size++;
        else if (values[i].kind != BYTES || !add_size(&size, &values[i]))
            return 0;
    }
    out->len = 0;
    if (!reserve(out, size))
        return 0;
    data = out->bytes;
    for (size_t i = 0; i < count; i++) {
        if (values[i].kind == NULL_VALUE)
            *data++ = 0xfb;
        else
            data = put_string(data, &values[i]);
    }
    out->len = size;
    return 1;
}

uint64_t bench_text_rows_sent(const uint8_t *bytes, size_t len)
{
    struct input batch = { bytes, bytes + len }, packet;
    struct value values[COLUMNS];
    struct buffer out = { 0 };
    uint64_t sum = 0;
    while (next_packet(&batch, &packet))
        if (place_text_row(packet, COLUMNS, values) && write_text_row(values, COLUMNS, &out))
            sum += out.len;
    free(out.bytes);
    return sum;
}

static CALL int write_binary_row(const struct column_type *columns, const struct value *values, size_t count, struct buffer *out)
{
    size_t bitmap_size = (count + 9) / 8, size = 1 + bitmap_size;
    uint8_t *bitmap, *data;
    for (size_t i = 0; i < count; i++)
        if (values[i].kind != NULL_VALUE && (!is_of_column(&values[i], columns[i]) || !add_size(&size, &values[i])))
            return 0;
    out->len = 0;
    if (!reserve(out, size))
        return 0;
    out->bytes[0] = 0;
    bitmap = out->bytes + 1;
    memset(bitmap, 0, bitmap_size);
    data = bitmap + bitmap_size;
    for (size_t i = 0; i < count; i++) {
        switch (values[i].kind) {
        case NULL_VALUE:
            bitmap[(i + 2) / 8] |= (uint8_t)(1 << (i + 2) % 8);
            break;
        case INT:
        case UINT:
            memcpy(data, &values[i].number, 8);
            data += 8;
            break;
        case BYTES:
            data = put_string(data, &values[i]);
            break;
        default:
            data = put_other(data, &values[i]);
        }
    }
    out->len = size;
    return 1;
}

uint64_t bench_rows_sent(const uint8_t *bytes, size_t len)
{
    struct input batch = { bytes, bytes + len }, packet;
    struct column_type columns[COLUMNS];
    struct value values[COLUMNS];
    struct buffer out = { 0 };
    uint64_t sum = 0;
    ten_columns(columns);
    while (next_packet(&batch, &packet))
        if (place_binary_row(packet, columns, COLUMNS, values) && write_binary_row(columns, values, COLUMNS, &out))
            sum += out.len;
    free(out.bytes);
    return sum;
}

/* ---- not written by hand */

#define MISSING(name) \
    uint64_t name(const uint8_t *bytes, size_t len) \
    { \
        (void)bytes; \
        (void)len; \
        return 0; \
    }

MISSING(bench_columns_read)
MISSING(bench_columns_written)
MISSING(bench_ok_packets_read)
MISSING(bench_ok_packets_sent)
MISSING(bench_executions_written)
MISSING(bench_bulk_rows_made)
MISSING(bench_bulk_rows_written)
MISSING(bench_bulk_rows_iterated)
MISSING(bench_bulk_rows_offered)
MISSING(bench_bulk_rows_offered_refs)
MISSING(bench_handshakes_written)
MISSING(bench_responses_written)
MISSING(bench_registrations_written)
MISSING(bench_gtid_dumps_read)
MISSING(bench_gtid_dumps_written)
MISSING(bench_exchanges_followed)
MISSING(bench_text_rows_in_session)
MISSING(bench_text_rows_observed)
MISSING(bench_exchanges_observed)
