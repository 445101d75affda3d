/* Runs one operation over a batch of packets, for valgrind to count its instructions.
 *
 * driver NAME COUNT   prints the sum that the operation answers, which depends on all of its work, and the most memory that was
 *                     held, in KiB; status 1 where the sum is 0, since nothing was read or written then
 * driver              prints the operations, one a line: NAME COUNT TEXT, with the COUNT to be used
 *
 * Only what runs below `measured` is to be counted; the packets, each other than the one before it,
 * are made ahead of it. */
#include <inttypes.h>
#include <malloc.h>
#include <stdint.h>
#include <stdio.h>
#include <stdlib.h>
#include <string.h>
#include <sys/resource.h>

typedef uint64_t call(const uint8_t *bytes, size_t len);

call bench_statements_read, bench_statements_written, bench_columns_read, bench_columns_written,
    bench_columns_borrowed, bench_executions_borrowed,
    bench_ok_packets_read, bench_ok_packets_viewed, bench_errors_read, bench_errors_written, bench_rows_read, bench_rows_counted, bench_rows_stored,
    bench_rows_viewed, bench_rows_placed, bench_text_rows_viewed, bench_text_rows_placed,
    bench_executions_written, bench_bulk_rows_made, bench_bulk_rows_written, bench_bulk_rows_offered,
    bench_bulk_rows_offered_refs, bench_bulk_rows_streamed, bench_bulk_rows_iterated,
    bench_ok_packets_sent, bench_rows_sent, bench_text_rows_sent, bench_executions_received,
    bench_handshakes_read, bench_handshakes_written, bench_responses_written, bench_registrations_written, bench_gtid_dumps_read,
    bench_gtid_dumps_written, bench_packets_passed, bench_payloads_found, bench_payloads_joined, bench_payloads_framed, bench_rows_distinguished,
    bench_exchanges_followed, bench_text_rows_streamed, bench_text_rows_in_session, bench_text_rows_observed, bench_exchanges_observed;

struct batch {
    uint8_t *bytes;
    size_t len, capacity;
};

static uint64_t state = 88172645463325252u;

/* a xorshift generator: the same numbers in each run */
static uint64_t varied(void)
{
    state ^= state << 13;
    state ^= state >> 7;
    state ^= state << 17;
    return state;
}

static void put(struct batch *batch, const void *bytes, size_t len)
{
    if (batch->capacity - batch->len < len) {
        batch->capacity = 2 * batch->capacity + len;
        batch->bytes = realloc(batch->bytes, batch->capacity);
        if (!batch->bytes)
            exit(3);
    }
    memcpy(batch->bytes + batch->len, bytes, len);
    batch->len += len;
}

static void put_number(struct batch *batch, uint64_t number, size_t width)
{
    uint8_t bytes[8];
    for (size_t i = 0; i < width; i++)
        bytes[i] = (uint8_t)(number >> 8 * i);
    put(batch, bytes, width);
}

static void put_statement(struct batch *batch)
{
    put_number(batch, 0, 1);
    put_number(batch, varied(), 4);
    put_number(batch, varied(), 2);
    put_number(batch, varied(), 2);
    put_number(batch, 0, 1);
    put_number(batch, varied() % 4, 2);
}

/* bytes of a length from 1 to most, after that length (a length-encoded string, most being below 251) */
static void put_string(struct batch *batch, size_t most)
{
    uint8_t bytes[256];
    size_t len = 1 + varied() % most;
    bytes[0] = (uint8_t)len;
    for (size_t i = 0; i < len; i++)
        bytes[1 + i] = (uint8_t)('a' + varied() % 26);
    put(batch, bytes, 1 + len);
}

/* what `fill` puts, after its length in two bytes */
static void put_framed(struct batch *batch, void (*fill)(struct batch *))
{
    size_t start = batch->len, len;
    put_number(batch, 0, 2);
    fill(batch);
    len = batch->len - start - 2;
    batch->bytes[start] = (uint8_t)len;
    batch->bytes[start + 1] = (uint8_t)(len >> 8);
}

static void fill_column(struct batch *batch)
{
    put(batch, "\003def", 4);
    for (int i = 0; i < 5; i++)
        put_string(batch, 20);
    put_number(batch, 0x0c, 1);
    put_number(batch, varied(), 2);
    put_number(batch, varied(), 4);
    put_number(batch, varied() % 2 ? 8 : 253, 1);
    put_number(batch, varied() % 0x1000, 2);
    put_number(batch, varied() % 32, 1);
    put_number(batch, 0, 2);
}

static void put_column(struct batch *batch)
{
    put_framed(batch, fill_column);
}

/* a variable of the session and its value, and for each second packet the schema too, as entries of a state string */
static void fill_state(struct batch *batch)
{
    struct batch data = { 0 };
    put_string(&data, 20);
    put_string(&data, 20);
    put_number(batch, 0, 1);
    put_number(batch, data.len, 1);
    put(batch, data.bytes, data.len);
    if (varied() % 2) {
        data.len = 0;
        put_string(&data, 20);
        put_number(batch, 1, 1);
        put_number(batch, data.len, 1);
        put(batch, data.bytes, data.len);
    }
    free(data.bytes);
}

static void fill_ok_packet(struct batch *batch)
{
    struct batch state_string = { 0 };
    put_number(batch, 0, 1);
    put_number(batch, varied() % 251, 1);
    put_number(batch, 0xfc, 1);
    put_number(batch, varied(), 2);
    put_number(batch, 0x4002, 2);
    put_number(batch, varied() % 4, 2);
    put_string(batch, 20);
    fill_state(&state_string);
    put_number(batch, state_string.len, 1);
    put(batch, state_string.bytes, state_string.len);
    free(state_string.bytes);
}

static void put_ok_packet(struct batch *batch)
{
    put_framed(batch, fill_ok_packet);
}

static void fill_error(struct batch *batch)
{
    uint8_t message[60];
    size_t len = 1 + varied() % sizeof message;
    for (size_t i = 0; i < len; i++)
        message[i] = (uint8_t)('a' + varied() % 26);
    put_number(batch, 0xff, 1);
    put_number(batch, 1000 + varied() % 1000, 2);
    put(batch, varied() % 2 ? "#HY000" : "#42000", 6);
    put(batch, message, len);
}

static void put_error(struct batch *batch)
{
    put_framed(batch, fill_error);
}

static void put_numbers(struct batch *batch)
{
    for (int i = 0; i < 5; i++)
        put_number(batch, varied(), 8);
}

/* a row without NULLs: its header and its bitmap, five numbers, and five strings */
static void fill_row(struct batch *batch)
{
    put_number(batch, 0, 3);
    put_numbers(batch);
    for (int i = 0; i < 5; i++)
        put_string(batch, 20);
}

static void put_row(struct batch *batch)
{
    put_framed(batch, fill_row);
}

/* a text row: five numbers as decimal digits, and five strings */
static void fill_text_row(struct batch *batch)
{
    for (int i = 0; i < 5; i++) {
        char digits[24];
        int len = snprintf(digits, sizeof digits, "%" PRId64, (int64_t)varied());
        put_number(batch, (uint64_t)len, 1);
        put(batch, digits, (size_t)len);
    }
    for (int i = 0; i < 5; i++)
        put_string(batch, 20);
}

static void put_text_row(struct batch *batch)
{
    put_framed(batch, fill_text_row);
}

/* an execution of five numbers and five strings, with their types */
static void fill_execution(struct batch *batch)
{
    put_number(batch, 0x17, 1);
    put_number(batch, varied(), 4);
    put_number(batch, 0, 1);
    put_number(batch, 1, 4);
    put_number(batch, 0, 2);
    put_number(batch, 1, 1);
    for (int i = 0; i < 10; i++)
        put_number(batch, i < 5 ? 8 : 0xfd, 2);
    put_numbers(batch);
    for (int i = 0; i < 5; i++)
        put_string(batch, 20);
}

static void put_execution(struct batch *batch)
{
    put_framed(batch, fill_execution);
}

/* a number of 8 bytes, and 20 bytes of text */
static void put_bulk_row(struct batch *batch)
{
    put_number(batch, varied(), 8);
    for (int i = 0; i < 20; i++)
        put_number(batch, 'a' + varied() % 26, 1);
}

/* a handshake of MariaDB 10.11, whose scrambles and numbers vary: 31 bytes after the version, then the second scramble
 * and the plugin's name, which end in a zero */
static void fill_handshake(struct batch *batch)
{
    static const char version[] = "5.5.5-10.11.19-MariaDB-0+deb12u1-log";
    static const char plugin[] = "mysql_native_password";
    put_number(batch, 10, 1);
    put(batch, version, sizeof version);
    put_number(batch, varied(), 4);
    put_number(batch, varied(), 8);
    put_number(batch, 0, 1);
    put_number(batch, 0xf7fe, 2);
    put_number(batch, 45, 1);
    put_number(batch, 2, 2);
    put_number(batch, 0x81ff, 2);
    put_number(batch, 21, 1);
    put_number(batch, 0, 6);
    put_number(batch, 0x1d, 4);
    put_number(batch, varied(), 8);
    put_number(batch, varied(), 4);
    put_number(batch, 0, 1);
    put(batch, plugin, sizeof plugin);
}

static void put_handshake(struct batch *batch)
{
    put_framed(batch, fill_handshake);
}

static void put_text(struct batch *batch, const char *text)
{
    put_number(batch, strlen(text), 1);
    put(batch, text, strlen(text));
}

/* a response of MariaDB's Connector/C, whose scramble varies: 32 bytes, the user, the scramble, the plugin's name, and
 * attributes of the connection after their length */
static void fill_response(struct batch *batch)
{
    static const char *const attributes[] = { "_os", "Linux", "_client_name", "libmariadb", "_pid", "15147",
        "_client_version", "3.3.20", "_platform", "x86_64", "_server_host", "127.0.0.1" };
    size_t len = 0;
    put_number(batch, 0x00bfa284, 4);
    put_number(batch, 1 << 24, 4);
    put_number(batch, 45, 1);
    for (int i = 0; i < 19; i++)
        put_number(batch, 0, 1);
    put_number(batch, 0x1d, 4);
    put(batch, "u_native", 9);
    put_number(batch, 20, 1);
    put_number(batch, varied(), 8);
    put_number(batch, varied(), 8);
    put_number(batch, varied(), 4);
    put(batch, "mysql_native_password", 22);
    for (size_t i = 0; i < sizeof attributes / sizeof *attributes; i++)
        len += 1 + strlen(attributes[i]);
    put_number(batch, len, 1);
    for (size_t i = 0; i < sizeof attributes / sizeof *attributes; i++)
        put_text(batch, attributes[i]);
}

static void put_response(struct batch *batch)
{
    put_framed(batch, fill_response);
}

static void fill_registration(struct batch *batch)
{
    put_number(batch, 0x15, 1);
    put_number(batch, varied(), 4);
    for (int i = 0; i < 3; i++)
        put_string(batch, 20);
    put_number(batch, varied(), 2);
    put_number(batch, 0, 4);
    put_number(batch, varied(), 4);
}

static void put_registration(struct batch *batch)
{
    put_framed(batch, fill_registration);
}

/* a dump by GTID set, of sids without tags that have a given number of intervals each */
static void fill_gtid_dump(struct batch *batch, size_t sids, size_t intervals)
{
    put_number(batch, 0x1e, 1);
    put_number(batch, 4, 2);
    put_number(batch, varied(), 4);
    put_number(batch, 11, 4);
    put(batch, "mbin.000001", 11);
    put_number(batch, 4, 8);
    put_number(batch, 8 + sids * (24 + 16 * intervals), 4);
    put_number(batch, sids, 8);
    for (size_t i = 0; i < sids; i++) {
        uint64_t first = 1;
        put_number(batch, varied(), 8);
        put_number(batch, varied(), 8);
        put_number(batch, intervals, 8);
        for (size_t j = 0; j < intervals; j++) {
            uint64_t end = first + 1 + varied() % 1000;
            put_number(batch, first, 8);
            put_number(batch, end, 8);
            first = end + 1 + varied() % 1000;
        }
    }
}

static void fill_two_sids(struct batch *batch)
{
    fill_gtid_dump(batch, 2, 2);
}

static void put_two_sids(struct batch *batch)
{
    put_framed(batch, fill_two_sids);
}

static void fill_interval(struct batch *batch)
{
    fill_gtid_dump(batch, 1, 1);
}

static void put_interval(struct batch *batch)
{
    put_framed(batch, fill_interval);
}

static void fill_ten_intervals(struct batch *batch)
{
    fill_gtid_dump(batch, 1, 10);
}

static void put_ten_intervals(struct batch *batch)
{
    put_framed(batch, fill_ten_intervals);
}

static void fill_thousand_intervals(struct batch *batch)
{
    fill_gtid_dump(batch, 1, 1000);
}

static void put_thousand_intervals(struct batch *batch)
{
    put_framed(batch, fill_thousand_intervals);
}

/* a text row as a frame: its length in three bytes and its sequence number before it */
static void put_framed_row(struct batch *batch)
{
    static uint8_t number;
    size_t start = batch->len, len;
    put_number(batch, 0, 4);
    fill_text_row(batch);
    len = batch->len - start - 4;
    for (int i = 0; i < 3; i++)
        batch->bytes[start + i] = (uint8_t)(len >> 8 * i);
    batch->bytes[start + 3] = number++;
}

static void fill_query(struct batch *batch)
{
    static const char query[] = "\003UPDATE t SET a = 1 WHERE b = 2";
    put(batch, query, sizeof query - 1);
}

static void fill_short_ok_packet(struct batch *batch)
{
    put_number(batch, 0, 1);
    put_number(batch, varied() % 251, 1);
    put_number(batch, varied() % 251, 1);
    put_number(batch, 2, 2);
    put_number(batch, 0, 2);
}

/* a query, and the OK packet that answers it */
static void put_exchange(struct batch *batch)
{
    put_framed(batch, fill_query);
    put_framed(batch, fill_short_ok_packet);
}

static const struct operation {
    const char *name;
    size_t count;
    const char *text;
    void (*put)(struct batch *batch);
    call *run;
} operations[] = {
    { "statements_read", 10000, "statement packet, read", put_statement, bench_statements_read },
    { "statements_written", 10000, "statement packet, read and written", put_statement, bench_statements_written },
    { "columns_read", 10000, "column, read", put_column, bench_columns_read },
    { "columns_borrowed", 10000, "column, read where it lies", put_column, bench_columns_borrowed },
    { "columns_written", 10000, "column, read and written", put_column, bench_columns_written },
    { "ok_packets_read", 10000, "OK packet, read with its session changes", put_ok_packet, bench_ok_packets_read },
    { "ok_packets_viewed", 10000, "OK packet, read in place with its session changes", put_ok_packet, bench_ok_packets_viewed },
    { "errors_read", 10000, "error, read", put_error, bench_errors_read },
    { "errors_written", 10000, "error, read and written", put_error, bench_errors_written },
    { "rows_read", 10000, "binary row of 10 columns, read", put_row, bench_rows_read },
    { "rows_counted", 10000, "binary row of 10 columns, read in a second place", put_row, bench_rows_counted },
    { "rows_stored", 10000, "binary row of 10 columns, stored in one block", put_row, bench_rows_stored },
    { "rows_viewed", 10000, "binary row of 10 columns, viewed value by value", put_row, bench_rows_viewed },
    { "rows_placed", 10000, "binary row of 10 columns, read into borrowed values", put_row, bench_rows_placed },
    { "text_rows_viewed", 10000, "text row of 10 columns, viewed value by value", put_text_row, bench_text_rows_viewed },
    { "text_rows_placed", 10000, "text row of 10 columns, read into borrowed values", put_text_row, bench_text_rows_placed },
    { "ok_packets_sent", 10000, "OK packet with session changes, read and sent", put_ok_packet, bench_ok_packets_sent },
    { "rows_sent", 10000, "binary row of 10 columns, read and sent", put_row, bench_rows_sent },
    { "text_rows_sent", 10000, "text row of 10 columns, read and sent", put_text_row, bench_text_rows_sent },
    { "executions_received", 10000, "execution of 10 values, read by a server", put_execution, bench_executions_received },
    { "executions_written", 10000, "execution of 10 values, built and written", put_numbers, bench_executions_written },
    { "executions_borrowed", 10000, "execution of 10 borrowed values, written at once", put_numbers, bench_executions_borrowed },
    { "bulk_rows_made", 1000000, "bulk row, made and dropped", put_bulk_row, bench_bulk_rows_made },
    { "bulk_rows_written", 1000000, "bulk row, made, built into requests and written", put_bulk_row, bench_bulk_rows_written },
    /* (enough that they go into one request: of several, glibc puts the blocks of one together while the next is made) */
    { "bulk_rows_iterated", 250000, "bulk row, made, built into a request at a time and written", put_bulk_row, bench_bulk_rows_iterated },
    { "bulk_rows_offered", 250000, "bulk row, made, offered as a slice, built into requests and written", put_bulk_row, bench_bulk_rows_offered },
    { "bulk_rows_offered_refs", 250000, "bulk row, offered as borrowed values, built into requests and written", put_bulk_row, bench_bulk_rows_offered_refs },
    { "bulk_rows_streamed", 1000000, "bulk row, written straight into requests", put_bulk_row, bench_bulk_rows_streamed },
    { "handshakes_read", 10000, "handshake, read", put_handshake, bench_handshakes_read },
    { "handshakes_written", 10000, "handshake, read and written", put_handshake, bench_handshakes_written },
    { "responses_written", 10000, "response to a handshake, read and written", put_response, bench_responses_written },
    { "registrations_written", 10000, "registration of a replica, read and written", put_registration, bench_registrations_written },
    { "gtid_dumps_read", 10000, "GTID dump of 2 sids, read", put_two_sids, bench_gtid_dumps_read },
    { "gtid_dumps_written", 10000, "GTID dump of 2 sids, read and written", put_two_sids, bench_gtid_dumps_written },
    { "gtid_1_written", 10000, "GTID dump of 1 interval, read and written", put_interval, bench_gtid_dumps_written },
    { "gtid_10_written", 10000, "GTID dump of 10 intervals, read and written", put_ten_intervals, bench_gtid_dumps_written },
    { "gtid_1000_written", 100, "GTID dump of 1,000 intervals, read and written", put_thousand_intervals, bench_gtid_dumps_written },
    { "payloads_found", 10000, "payload of a text row, found in a stream in one piece", put_framed_row, bench_payloads_found },
    { "payloads_joined", 10000, "payload of a text row, found in a stream in pieces of 1,460 bytes", put_framed_row, bench_payloads_joined },
    { "packets_passed", 10000, "payload in a batch, passed", put_text_row, bench_packets_passed },
    { "payloads_framed", 10000, "payload of a text row, put into a frame", put_text_row, bench_payloads_framed },
    { "rows_distinguished", 10000, "text row, distinguished", put_text_row, bench_rows_distinguished },
    { "exchanges_passed", 10000, "two payloads in a batch, passed", put_exchange, bench_packets_passed },
    { "exchanges_followed", 10000, "query and its OK packet, distinguished", put_exchange, bench_exchanges_followed },
    { "text_rows_streamed", 10000, "text row of 10 columns, from a stream to its values", put_framed_row, bench_text_rows_streamed },
    { "text_rows_in_session", 10000, "text row of 10 columns, from a stream to its values, by a session", put_framed_row, bench_text_rows_in_session },
    { "text_rows_observed", 10000, "text row of 10 columns, from a stream to its values, by an observer", put_framed_row, bench_text_rows_observed },
    { "exchanges_observed", 10000, "query and its OK packet, read by an observer", put_exchange, bench_exchanges_observed },
};

__attribute__((noinline)) uint64_t measured(call *run, const struct batch *batch)
{
    return run(batch->bytes, batch->len);
}

int main(int argc, char **argv)
{
    uint64_t sum = 1;
    struct rusage held;
    /* a fixed bound for the blocks that stand alone: else glibc moves it with the sizes of those that are freed, and so
     * does a work of its own at one count of packets, to put together all the small blocks, and not at another */
    mallopt(M_MMAP_THRESHOLD, 128 * 1024);
    for (size_t i = 0; i < sizeof operations / sizeof *operations; i++) {
        const struct operation *it = &operations[i];
        if (argc != 3) {
            printf("%s %zu %s\n", it->name, it->count, it->text);
        } else if (!strcmp(argv[1], it->name)) {
            struct batch batch = { 0 };
            for (size_t n = strtoul(argv[2], NULL, 10); n; n--)
                it->put(&batch);
            sum = measured(it->run, &batch);
            getrusage(RUSAGE_SELF, &held);
            printf("%" PRIu64 " %ld\n", sum, held.ru_maxrss);
        }
    }
    return sum == 0;
}
