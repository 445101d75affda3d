/* Reads each packet twice into one struct, from two buffers with equal bytes. Each byte string that a call hands out lies in the packet
 * that was passed, and the rest of a list ends where the packet ends. After the second read no pointer lies in the first buffer, which is
 * then changed: what the struct shows stays. header.py fails where a call that hands out a place is not called here. */
#include "hostile.h"
#include <stddef.h>

enum { MOST_PLACES = 7, LARGEST = 1024 };

/* what both reads of a packet are done under */
static struct {
    uint32_t capabilities, mariadb;
    size_t columns, place; /* how many columns or parameters there are; which of the things in a list is read, the first being 0 */
    uint8_t flag;          /* whether sids are tagged, and a stream is semi-synchronous */
    myp_column_type types[6];
    myp_bound_param params[6];
} under;

/* A read: `out` is a struct of this type, and the packet is `p, len`. */
#define READ(name, type, call) static uint32_t name(const uint8_t *p, size_t len, void *to) { type *out = to; return call; }

/* A read of a list: takes the things off its front up to the one at under.place. */
#define NEXT(name, type, call) typedef struct name { myp_bytes rest; type it; } name; \
    static uint32_t read_##name(const uint8_t *p, size_t len, void *to) \
    { \
        name *out = to; \
        out->rest = (myp_bytes){ p, len }; \
        uint32_t code = MYP_OK; \
        for (size_t i = 0; i <= under.place && code == MYP_OK; i++) \
            code = (call); \
        return code; \
    }

READ(read_handshake, myp_handshake, myp_read_handshake(p, len, out))
READ(read_auth_switch, myp_auth_switch, myp_read_auth_switch(p, len, out))
READ(read_next_factor, myp_auth_switch, myp_read_auth_next_factor(p, len, out))
READ(read_more_data, myp_bytes, myp_read_auth_more_data(p, len, out))
READ(read_public_key, myp_bytes, myp_read_public_key(p, len, out))
READ(read_local_infile, myp_bytes, myp_read_local_infile(p, len, out))
READ(read_common_ok, myp_ok, myp_read_ok(p, len, MYP_OK_COMMON, under.capabilities, out))
READ(read_terminator, myp_ok, myp_read_ok(p, len, MYP_OK_TERMINATOR, under.capabilities, out))
READ(read_error, myp_error, myp_read_error(p, len, under.capabilities, out))
READ(read_column, myp_column, myp_read_column(p, len, under.mariadb, out))
READ(read_field_list_column, myp_field_list_column, myp_read_field_list_column(p, len, under.mariadb, out))
READ(read_command, myp_command, myp_read_command(p, len, under.capabilities, out))
READ(read_query_attribute, myp_parameter, myp_read_query_attribute(p, len, under.place, out))
READ(read_execution_attribute, myp_parameter, myp_read_execution_attribute(p, len, MYP_CLIENT_QUERY_ATTRIBUTES, under.params, under.columns, under.place, out))
READ(read_long_data, myp_long_data, myp_read_long_data(p, len, out))
READ(read_login, myp_login, myp_read_login(p, len, out))
READ(read_change_user, myp_change_user, myp_read_change_user(p, len, under.capabilities, out))
READ(read_bulk_head, myp_bulk_head, myp_read_bulk_head(p, len, out))
READ(read_stream_packet, myp_stream_packet, myp_read_stream_packet(p, len, under.flag, out))
READ(read_dump, myp_dump, myp_read_dump(p, len, out))
READ(read_table_dump, myp_table_dump, myp_read_table_dump(p, len, out))
READ(read_semi_sync_ack, myp_semi_sync_ack, myp_read_semi_sync_ack(p, len, out))
READ(read_register_replica, myp_register_replica, myp_read_register_replica(p, len, out))
READ(read_gtid_dump, myp_gtid_dump, myp_read_gtid_dump(p, len, out))

typedef struct parsec { uint32_t iterations; myp_bytes salt; } parsec;
READ(read_parsec_salt, parsec, myp_read_parsec_salt(p, len, &out->iterations, &out->salt))
typedef struct row { size_t used; myp_value values[6]; } row;
READ(read_text_row, row, myp_read_text_row(p, len, out->values, under.columns, &out->used))
READ(read_binary_row, row, myp_read_binary_row(p, len, under.types, under.columns, out->values, 6, &out->used))
typedef struct execution { myp_execution head; myp_value values[6]; myp_column_type types[6]; } execution;
READ(read_execution, execution, myp_read_execution(p, len, under.capabilities, under.params, under.columns, out->values, 6, out->types, 6, &out->head))

typedef struct parameter_names { myp_bytes names[6]; } parameter_names;
READ(read_execution_names, parameter_names, myp_read_execution_names(p, len, under.capabilities, under.params, under.columns, out->names, 6))

typedef struct name_and_value { myp_bytes name, value; } name_and_value;
typedef struct bulk_values { myp_value values[6]; uint8_t indicators[6]; } bulk_values;
typedef struct types_of_bulk { myp_column_type types[6]; } types_of_bulk;
NEXT(frames, myp_frame, myp_next_frame(&out->rest, &out->it))
NEXT(changes, myp_change, myp_next_change(&out->rest, &out->it))
NEXT(variables, name_and_value, myp_next_variable(&out->rest, &out->it.name, &out->it.value))
NEXT(column_attributes, myp_column_attribute, myp_next_column_attribute(&out->rest, &out->it))
NEXT(attributes, name_and_value, myp_next_connection_attribute(&out->rest, &out->it.name, &out->it.value))
NEXT(bulk_types, types_of_bulk, myp_read_bulk_types(&out->rest, out->it.types, under.columns))
NEXT(bulk_rows, bulk_values, myp_next_bulk_row(&out->rest, under.types, under.columns, out->it.values, 6, out->it.indicators, 6))
NEXT(sids, myp_sid_places, myp_next_sid(&out->rest, under.flag, &out->it))
NEXT(intervals, myp_interval, myp_next_interval(&out->rest, &out->it))

/* A place in a struct: where it is, and how many values stand there, which each have one; or 0 of a byte string. */
typedef struct in_struct {
    size_t at, values;
} in_struct;
#define AT(type, field) { offsetof(type, field), 0 }
#define VALUES(type, field) { offsetof(type, field), 6 }
#define COLUMN(type, before) AT(type, before schema), AT(type, before table), AT(type, before org_table), AT(type, before name), AT(type, before org_name)

/* Each call: its read, its struct, whether that begins with the rest of a list, and its places. */
static const struct call {
    const char *name;
    uint32_t (*read)(const uint8_t *p, size_t len, void *to);
    size_t size;
    int is_list;
    size_t count;
    in_struct places[MOST_PLACES];
} calls[] = {
#define ROW(read, type, count, ...) { #read, read, sizeof(type), 0, count, { __VA_ARGS__ } }
#define LIST(type, count, ...) { "read_" #type, read_##type, sizeof(type), 1, count, { __VA_ARGS__ } }
    ROW(read_handshake, myp_handshake, 4, AT(myp_handshake, server_version), AT(myp_handshake, scramble_1), AT(myp_handshake, scramble_2), AT(myp_handshake, auth_plugin_name)),
    ROW(read_auth_switch, myp_auth_switch, 2, AT(myp_auth_switch, plugin_name), AT(myp_auth_switch, plugin_data)),
    ROW(read_next_factor, myp_auth_switch, 2, AT(myp_auth_switch, plugin_name), AT(myp_auth_switch, plugin_data)),
    ROW(read_more_data, myp_bytes, 1, { 0, 0 }),
    ROW(read_public_key, myp_bytes, 1, { 0, 0 }),
    ROW(read_local_infile, myp_bytes, 1, { 0, 0 }),
    ROW(read_parsec_salt, parsec, 1, AT(parsec, salt)),
    ROW(read_common_ok, myp_ok, 2, AT(myp_ok, info), AT(myp_ok, session_state)),
    ROW(read_terminator, myp_ok, 2, AT(myp_ok, info), AT(myp_ok, session_state)),
    ROW(read_error, myp_error, 2, AT(myp_error, sql_state), AT(myp_error, message)),
    ROW(read_column, myp_column, 6, COLUMN(myp_column, ), AT(myp_column, metadata)),
    ROW(read_field_list_column, myp_field_list_column, 7, COLUMN(myp_field_list_column, column.), AT(myp_field_list_column, column.metadata), AT(myp_field_list_column, default_value)),
    ROW(read_text_row, row, 1, VALUES(row, values)),
    ROW(read_binary_row, row, 1, VALUES(row, values)),
    ROW(read_command, myp_command, 2, AT(myp_command, text), AT(myp_command, wildcard)),
    ROW(read_query_attribute, myp_parameter, 2, AT(myp_parameter, name), AT(myp_parameter, value.bytes)),
    ROW(read_execution_attribute, myp_parameter, 2, AT(myp_parameter, name), AT(myp_parameter, value.bytes)),
    ROW(read_execution, execution, 1, VALUES(execution, values)),
    ROW(read_execution_names, parameter_names, 2, AT(parameter_names, names[0]), AT(parameter_names, names[1])),
    ROW(read_long_data, myp_long_data, 1, AT(myp_long_data, content)),
    ROW(read_login, myp_login, 5, AT(myp_login, user), AT(myp_login, auth_response), AT(myp_login, database), AT(myp_login, auth_plugin_name), AT(myp_login, attributes)),
    ROW(read_change_user, myp_change_user, 5, AT(myp_change_user, user), AT(myp_change_user, auth_response), AT(myp_change_user, database), AT(myp_change_user, auth_plugin_name), AT(myp_change_user, attributes)),
    ROW(read_bulk_head, myp_bulk_head, 1, AT(myp_bulk_head, rows)),
    ROW(read_stream_packet, myp_stream_packet, 1, AT(myp_stream_packet, content)),
    ROW(read_dump, myp_dump, 1, AT(myp_dump, file_name)),
    ROW(read_table_dump, myp_table_dump, 2, AT(myp_table_dump, database), AT(myp_table_dump, table)),
    ROW(read_semi_sync_ack, myp_semi_sync_ack, 1, AT(myp_semi_sync_ack, file_name)),
    ROW(read_register_replica, myp_register_replica, 3, AT(myp_register_replica, hostname), AT(myp_register_replica, user), AT(myp_register_replica, password)),
    ROW(read_gtid_dump, myp_gtid_dump, 2, AT(myp_gtid_dump, file_name), AT(myp_gtid_dump, sids)),
    LIST(frames, 2, AT(frames, rest), AT(frames, it.content)),
    LIST(changes, 4, AT(changes, rest), AT(changes, it.content), AT(changes, it.text), AT(changes, it.variables)),
    LIST(variables, 3, AT(variables, rest), AT(variables, it.name), AT(variables, it.value)),
    LIST(column_attributes, 2, AT(column_attributes, rest), AT(column_attributes, it.text)),
    LIST(attributes, 3, AT(attributes, rest), AT(attributes, it.name), AT(attributes, it.value)),
    LIST(bulk_types, 1, AT(bulk_types, rest)),
    LIST(bulk_rows, 2, AT(bulk_rows, rest), VALUES(bulk_rows, it.values)),
    LIST(sids, 3, AT(sids, rest), AT(sids, it.tag), AT(sids, it.intervals)),
    LIST(intervals, 1, AT(intervals, rest)),
};
enum { CALLS = sizeof calls / sizeof *calls };

static unsigned long shown[CALLS][MOST_PLACES]; /* how often the place held bytes */
static unsigned long twice;

/* the byte strings of a place: what is read there is seen whole here, whatever its type */
static size_t strings(const uint8_t *out, in_struct place, myp_bytes found[6])
{
    size_t n = place.values ? place.values : 1;
    for (size_t i = 0; i < n; i++) {
        if (place.values) {
            myp_value value;
            memcpy(&value, out + place.at + i * sizeof value, sizeof value);
            found[i] = value.bytes;
        } else
            memcpy(&found[i], out + place.at, sizeof found[i]);
    }
    return n;
}

static void wrong(const struct call *call, const char *what)
{
    char text[80];
    snprintf(text, sizeof text, "%s: %s", call->name, what);
    lost(text, 0);
}

/* Checks that what the struct shows lies in the packet, and copies it: into `to`, and its length is returned. */
static size_t show(const struct call *call, const uint8_t *out, uint8_t *to_text, size_t size)
{
    size_t n = 0;
    for (size_t k = 0; k < call->count; k++) {
        myp_bytes found[6];
        size_t count = strings(out, call->places[k], found);
        for (size_t i = 0; i < count; i++) {
            if (found[i].len && (found[i].data < from || found[i].data > to || found[i].len > (size_t)(to - found[i].data))) {
                wrong(call, "a place outside the packet");
                return 0;
            }
            if (k == 0 && call->is_list && found[i].data + found[i].len != to)
                wrong(call, "the rest does not end where the packet ends");
            if (n + sizeof found[i].len + found[i].len > size)
                exit(3);
            memcpy(to_text + n, &found[i].len, sizeof found[i].len);
            n += sizeof found[i].len;
            if (found[i].len)
                memcpy(to_text + n, found[i].data, found[i].len), n += found[i].len, shown[call - calls][k]++;
        }
    }
    return n;
}

/* whether a pointer of the struct lies in a buffer, also one to an empty string */
static int points_into(const uint8_t *out, size_t size, const uint8_t *buffer, size_t len)
{
    for (size_t i = 0; i + sizeof(uintptr_t) <= size; i += sizeof(uintptr_t)) {
        uintptr_t word;
        memcpy(&word, out + i, sizeof word);
        if (word >= (uintptr_t)buffer && word <= (uintptr_t)(buffer + len))
            return 1;
    }
    return 0;
}

/* Reads a packet twice into a struct, and checks what it shows after the first buffer is changed. */
static void read_call(const struct call *call, uint8_t *first, const uint8_t *second, size_t len)
{
    static uint8_t before[65536], after[65536];
    static uint8_t *out;
    if (!out && !(out = malloc(LARGEST)))
        exit(3);
    memset(out, 0, call->size);
    from = first, to = first + len, done++;
    if (call->read(first, len, out)) {
        refused++;
        return;
    }
    size_t n = show(call, out, before, sizeof before);
    from = second, to = second + len, done++, twice++;
    if (call->read(second, len, out)) {
        wrong(call, "refused when read again");
        return;
    }
    if (points_into(out, call->size, first, len))
        wrong(call, "a place in an earlier packet");
    for (size_t i = 0; i < len; i++)
        first[i] = (uint8_t)~first[i];
    if (n != show(call, out, after, sizeof after) || memcmp(before, after, n))
        wrong(call, "shows something else when the earlier packet is changed");
    memcpy(first, second, len);
}

/* Calls without a packet: the text of a code, and the intervals of a sid, which lie in the array that is passed. */
static void read_apart(void)
{
    for (uint32_t code = MYP_OK; code <= MYP_END; code++) {
        char copy[64];
        size_t len = strlen(myp_error_text(code));
        memcpy(copy, myp_error_text(code), len + 1);
        myp_bytes text = { (const uint8_t *)copy, len };
        if (myp_code_text(code, &text) || text.len != len || (text.data >= (const uint8_t *)copy && text.data <= (const uint8_t *)copy + len))
            printf("myp_code_text: a place in an earlier text\n"), bad++;
        memset(copy, 0, sizeof copy);
        if (text.len != len || memcmp(text.data, myp_error_text(code), len))
            printf("myp_code_text: another text\n"), bad++;
    }
    static const char text[] = "3e11fa47-71ca-11e1-9e33-c80aa9429562:1-5:7";
    static const myp_interval none = MYP_INTERVAL_INIT;
    myp_interval first[3] = { none, none, none }, second[3] = { none, none, none };
    myp_sid sid = MYP_SID_INIT;
    size_t count = 0;
    if (myp_sid_from_text((const uint8_t *)text, sizeof text - 1, &sid, first, 3, &count) || sid.intervals != first
        || myp_sid_from_text((const uint8_t *)text, sizeof text - 1, &sid, second, 3, &count) || sid.intervals != second || sid.n_intervals != 2)
        printf("myp_sid_from_text: intervals in another place\n"), bad++;
    memset(first, 0xee, sizeof first);
    if (second[0].start != 1 || second[0].end != 6 || second[1].start != 7 || second[1].end != 8 || second[2].start || second[2].end)
        printf("myp_sid_from_text: the first places do not hold the intervals\n"), bad++;
}

/* What the calls are passed with a packet: at random, except for what a place or a count of columns says, so that each seed is read both ways. */
static void vary(size_t columns, size_t place)
{
    under.columns = columns, under.place = place, under.flag = columns % 2;
    under.capabilities = varied() % 4 ? UINT32_MAX : (uint32_t)varied(), under.mariadb = varied() % 4 ? UINT32_MAX : (uint32_t)varied();
    if (place == 1)
        under.capabilities &= ~(uint32_t)MYP_CLIENT_QUERY_ATTRIBUTES, under.mariadb &= ~(uint32_t)MYP_MARIADB_CLIENT_EXTENDED_METADATA;
    for (size_t i = 0; i < 6; i++) {
        under.types[i] = kinds[i];
        under.params[i] = (myp_bound_param){ kinds[i].column_type, kinds[i].is_unsigned, place == 2 && varied() % 2 };
    }
}

static void read_calls(uint8_t *first, const uint8_t *second, size_t len)
{
    for (size_t i = 0; i < CALLS; i++)
        read_call(&calls[i], first, second, len);
}

void read_twice(uint8_t *first, const uint8_t *second, size_t len, int is_seed)
{
    if (!is_seed) {
        vary(varied() % 7, varied() % 3);
        read_calls(first, second, len);
        return;
    }
    for (size_t columns = 0; columns < 7; columns++)
        for (size_t place = 0; place < 3; place++) {
            vary(columns, place);
            read_calls(first, second, len);
        }
}

/* Each place held bytes at some time: else no read of it was compared. */
unsigned long end_twice(void)
{
    read_apart();
    for (size_t i = 0; i < CALLS; i++)
        for (size_t k = 0; k < calls[i].count; k++)
            if (!shown[i][k])
                printf("%s: place %zu never held bytes\n", calls[i].name, k), bad++;
    return twice;
}
