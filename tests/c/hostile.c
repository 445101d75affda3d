/* Reads cut and changed packets that end right before a page that may not be touched, through every reader, and checks that
 * each place that is handed out lies in the packet, and that what stands there after a refusal is what stood there before. What
 * was read is written, and read again as the same. Each packet is also read twice into one struct, from two buffers.
 *
 * hostile COUNT [SEED] < SEEDS: a packet a line, in hexadecimal digits, beside those that stand here */
#define _GNU_SOURCE
#include "hostile.h"
#include <sys/mman.h>

enum { MOST = 1024, LONGEST = 2048 };

static uint64_t state = 88172645463325252u;
uint64_t varied(void)
{
    state ^= state << 13, state ^= state >> 7, state ^= state << 17;
    return state;
}

static uint8_t *page_end, *other_end; /* the first bytes that may not be touched, after two buffers */
uint32_t capabilities;
const uint8_t *from, *to;
unsigned long bad, done, refused, changed, written;
const myp_bytes nothing = MYP_BYTES_INIT;

void place(const char *what, myp_bytes b)
{
    if (b.len && (b.data < from || b.data + b.len > to)) {
        printf("%s: a place outside the packet\n", what);
        bad++;
    }
}

static const uint8_t stmt[] = { 0, 1, 0, 0, 0, 1, 0, 2, 0, 0, 0, 0 };
static const uint8_t err[] = "\xff\x48\x04#HY000No tables used";
static const uint8_t progress[] = "\xff\xff\xff\x01\x02\x03\x10\x27\x00\x04text";
static const uint8_t ok[] = { 0, 3, 0xfc, 0x10, 0x27, 2, 0x40, 1, 0, 2, 'h', 'i', 32, 0, 15, 10, 'a', 'u', 't', 'o', 'c', 'o', 'm', 'm', 'i', 't', 3, 'O', 'F', 'F', 1, 4, 3, 'a', 'b', 'c', 4, 3, 2, 'x', 'y', 5, 2, 1, 'I' };
static const uint8_t eof[] = { 0xfe, 0, 0, 2, 0 };
static const uint8_t infile[] = { 0xfb, '/', 't', 'm', 'p', '/', 'x' };
static const uint8_t column[] = "\003def\004test\003tbl\003org\001a\001b\x0c\x3f\0\x0b\0\0\0\x08\x21\0\0\0\0";
static const uint8_t text_row[] = { 1, '7', 0xfb, 3, 'a', 'b', 'c', 0, 0xfc, 4, 0, 'x', 'y', 'z', 'w' };
static const uint8_t binary_row[] = { 0, 1 << 3, 0, 0xff, 0xff, 0xff, 0xff, 2, 'o', 'k', 7, 0xe8, 0x07, 2, 29, 23, 59, 58, 12, 1, 1, 0, 0, 0, 2, 3, 4, 5, 0, 0, 0, 5 };
static const uint8_t handshake[] = "\x0a" "5.5.5-10.11.19-MariaDB\0\x01\0\0\0abcdefgh\0\xfe\xf7\x2d\x02\0\xff\x81\x15\0\0\0\0\0\0\x1d\0\0\0ijklmnopqrst\0mysql_native_password";
static const uint8_t key[] = "\x01-----BEGIN", parsec_salt[] = "P\x02" "abcdefghijklmnopqr";
static const uint8_t session_state[] = "\x00\x0f\x0a" "autocommit\x03OFF\x01\x05\x04test\x02\x01" "1\x03\x04\x00\x01g1\x04\x02\x01x\x05\x02\x01I";
static const uint8_t login[] = "\x0d\xa2\xbe\x81\0\0\0\x01\x2d\0\0\0\0\0\0\0\0\0\0\0\0\0\0\0\0\0\0\0\x1d\0\0\0root\0\x04" "abcdmydb\0mysql_native_password\0\x0a\x01" "a\x01" "b\x02" "cd\x02" "ef";
static const uint8_t long_data[] = "\x18\x05\0\0\0\x02\0abc", close_one[] = "\x19\x04\x03\x02\x01";
static const uint8_t dump[] = "\x12\x04\0\0\0\x01\0\x07\0\0\0mbin.000001", registration[] = "\x15\x4d\0\0\0\x04host\x04user\x03pwd\x9f\x0f\0\0\0\0\0\0\0\0";
static const uint8_t gtid_dump[] = "\x1e\x04\0\x2a\0\0\0\x03\0\0\0b.1\x04\0\0\0\0\0\0\0\x5d\0\0\0\0\x02\0\0\0\0\0\x01" "0123456789abcdef" "\x06" "app\x01\0\0\0\0\0\0\0\x01\0\0\0\0\0\0\0\x64\0\0\0\0\0\0\0" "0123456789abcdef" "\0\x01\0\0\0\0\0\0\0\x01\0\0\0\0\0\0\0\x32\0\0\0\0\0\0\0";
static const uint8_t change[] = "\x11u\0\x02\x01\x02" "d\0\x02\x01" "client_ed25519\0\x04\x01k\x01v";
static const uint8_t execute[] = { 0x17, 1, 0, 0, 0, 0, 1, 0, 0, 0, 1, 1, 6, 0, 8, 0, 0xfd, 0, 12, 0, 1, 0, 0, 0, 0, 0, 0, 0, 2, 'h', 'i', 4, 0xe8, 7, 2, 29 };
const myp_column_type kinds[6] = { { 3, 0 }, { 8, 0 }, { 253, 0 }, { 12, 0 }, { 11, 0 }, { 1, 1 } };

#define SEED(text) { (const uint8_t *)(text), sizeof(text) - 1 }
static struct {
    const uint8_t *at;
    size_t len;
} packets[MOST] = {
    { stmt, sizeof stmt }, { err, sizeof err - 1 }, { progress, sizeof progress - 1 }, { ok, sizeof ok }, { eof, sizeof eof }, { infile, sizeof infile },
    { column, sizeof column - 1 }, { text_row, sizeof text_row }, { binary_row, sizeof binary_row }, { handshake, sizeof handshake }, { key, sizeof key - 1 }, { parsec_salt, sizeof parsec_salt - 1 },
    { session_state, sizeof session_state - 1 }, { login, sizeof login - 1 }, { long_data, sizeof long_data - 1 }, { close_one, sizeof close_one - 1 }, { execute, sizeof execute }, { dump, sizeof dump - 1 }, { registration, sizeof registration - 1 }, { gtid_dump, sizeof gtid_dump - 1 }, { change, sizeof change - 1 },
    SEED("\xfe" "mysql_native_password\0zQg4i6oNy6=rHN/>-b)A"), SEED("\x02" "mysql_native_password\0zQg4i6oNy6=rHN/>-b)A"), /* switches, with names that a library may know */
    SEED("\xfe\0\0\x02\x40\1\0\2hi\x07\1\5\4test"), /* the end of rows, with information and a state */
    SEED("\3def\2ve\1t\1t\1j\1k\x09\0\4uuid\1\1a\x0c\x2d\0\xff\xff\xff\xff\xfc\x90\0\0\0\0"), /* extended metadata, and with a default value */
    SEED("\3def\2ve\1t\1t\1j\1k\x09\0\4uuid\1\1a\x0c\x2d\0\xff\xff\xff\xff\xfc\x90\0\0\0\0\1" "0"),
    SEED("\1\0\0\0\x0e\0\0\0\x09\2\0\0\1ab"), /* three frames */
    SEED("\x0a" "autocommit\3OFF\4name\5value"), SEED("\0\4uuid\1\4json"), SEED("\1a\1b\2cd\2ef"), /* variables, attributes of a column and of a login */
    SEED("0123456789abcdef\6app\1\0\0\0\0\0\0\0\1\0\0\0\0\0\0\0\x64\0\0\0\0\0\0\0" "0123456789abcdef\0\0\0\0\0\0\0\0\0"), /* sids with tags, and intervals */
    SEED("\1\0\0\0\0\0\0\0\x64\0\0\0\0\0\0\0\xc8\0\0\0\0\0\0\0\xd2\0\0\0\0\0\0\0"),
    SEED("\xfa\1\0\0\0\x80\0\3\0\xfe\0\x08\x80\0\x2a\0\0\0\0\2hi\1"), SEED("\3\0\xfe\0\x08\x80\0\x2a\0\0\0\0\2hi\1"), /* a bulk request, and its types and a row */
    SEED("\0\x2a\0\0\0\0\7\0\0\0\0\0\0\0\0\2hi\1\1\0\2ho"), /* rows of three of the columns here */
    SEED("\4t\0a%"), SEED("\3\2\1\0\1\xfe\0\2n1\xfe\0\2n2\2v1\2v2" "DO 1"), /* commands: a list of fields, and a query with attributes */
    SEED("\x17\1\0\0\0\x08\1\0\0\0\3\0\1\x08\0\0\x08\0\0\xfe\0\1a\7\0\0\0\0\0\0\0\7\0\0\0\0\0\0\0\1z"), /* an execution with an attribute */
    SEED("\x17\1\0\0\0\x08\1\0\0\0\2\0\1\x08\0\1p\x08\0\1q\7\0\0\0\0\0\0\0\7\0\0\0\0\0\0\0"), /* named parameters */
    SEED("\x13\2db\1t"), SEED("\xef\x96\x65\0\0\0\0\0\0mbin.000001"), SEED("\0\xef\1event"), /* a dump of a table, an acknowledgement, an event */
};
static size_t count_of_packets;

/* an answer that no call is to give: the first ones are shown, with their packet */
void lost(const char *call, uint32_t code)
{
    if (bad++ >= 12)
        return;
    printf("%.60s: code %u, caps %08x, packet", call, code, capabilities);
    for (const uint8_t *p = from; p < to; p++)
        printf(" %02x", *p);
    puts("");
}

/* A conversation, and a struct of any bytes: it is no conversation, or one that goes on or refuses the packet, and is one still. */
static void read_any(const uint8_t *p, size_t len, uint32_t caps)
{
    static myp_conversation stands = MYP_CONVERSATION_INIT;
    static const uint32_t others = 1u << MYP_ERROR_COMPRESSED | 1u << MYP_ERROR_TOO_MANY_COMMANDS;
    myp_conversation any;
    myp_packet next;
    uint8_t rests = 0;
    if (!stands.opening && myp_begin_conversation(caps, 0, MYP_OPENING_BETWEEN_COMMANDS, &stands))
        lost("myp_begin_conversation", MYP_ERROR_INVALID_INPUT);
    for (size_t i = 0; i < sizeof any; i++)
        ((uint8_t *)&any)[i] = (uint8_t)(varied() % (i < 40 || i > 43 ? 256 : 16));
    if (varied() % 8) /* up to eight commands wait, or nine */
        any.commands = any.exchange + varied() % 10;
    memset(&next, 7, sizeof next);
    uint32_t side = (uint32_t)varied() % 3, none = myp_is_idle(&any, &rests);
    unsigned long before = refused;
    CALL_OR(others, next, myp_next_packet(&any, side, p, len, &next));
    if ((none || side == 2) && refused == before)
        lost("myp_next_packet of no conversation", MYP_OK);
    if (myp_is_idle(&any, &rests) != none)
        lost("myp_is_idle", none);
    CALL_OR(others, stands, myp_next_packet(&stands, (uint32_t)varied() % 2, p, len, &next));
}

static void read_all(size_t len)
{
    const uint8_t *p = page_end - len;
    uint32_t caps = (uint32_t)varied();
    from = p, to = page_end, capabilities = caps;
    static const myp_bytes none = MYP_BYTES_INIT;
    myp_header head;
    memset(&head, 7, sizeof head);
    CALL(head, myp_read_header(p, len, &head));
    myp_column_count count;
    memset(&count, 7, sizeof count);
    CALL(count, myp_read_column_count(p, len, caps, (uint32_t)varied(), &count));
    myp_server_version version;
    memset(&version, 7, sizeof version);
    CALL(version, myp_read_server_version(p, len, &version));
    CALL(version, myp_read_mariadb_version(p, len, &version));
    read_any(p, len, caps);
    myp_statement s;
    memset(&s, 7, sizeof s);
    CALL(s, myp_read_statement(p, len, caps, &s));
    myp_error e;
    memset(&e, 7, sizeof e), e.message = e.sql_state = none;
    CALL(e, myp_read_error(p, len, caps, &e));
    place("error", e.message), place("state", e.sql_state);
    for (uint32_t k = 0; k < 5; k++) {
        myp_ok o;
        memset(&o, 7, sizeof o), o.info = o.session_state = none;
        CALL(o, myp_read_ok(p, len, k, caps, &o));
        place("info", o.info), place("session state", o.session_state);
    }
    myp_bytes file = none, more = none;
    CALL(file, myp_read_local_infile(p, len, &file));
    CALL(more, myp_read_auth_more_data(p, len, &more));
    place("file", file), place("more data", more);
    myp_auth_switch w = MYP_AUTH_SWITCH_INIT;
    CALL(w, myp_read_auth_switch(p, len, &w));
    CALL(w, myp_read_auth_next_factor(p, len, &w));
    place("plugin", w.plugin_name), place("plugin's data", w.plugin_data);
    myp_column c;
    memset(&c, 7, sizeof c), c.schema = c.table = c.org_table = c.name = c.org_name = c.metadata = none;
    CALL(c, myp_read_column(p, len, 0, &c));
    place("schema", c.schema), place("table", c.table), place("org_table", c.org_table), place("name", c.name), place("org_name", c.org_name);
    myp_handshake h;
    memset(&h, 7, sizeof h), h.server_version = h.scramble_1 = h.scramble_2 = h.auth_plugin_name = none;
    CALL(h, myp_read_handshake(p, len, &h));
    place("version", h.server_version), place("scramble", h.scramble_1), place("scramble", h.scramble_2), place("plugin", h.auth_plugin_name);
    static const myp_value no_value = MYP_VALUE_INIT;
    myp_value v[8];
    size_t n = varied() % 8, used = 7;
    for (size_t i = 0; i < 8; i++)
        v[i] = no_value;
    CALL(used, myp_read_text_row(p, len, v, n, &used));
    for (size_t i = 0; i < 8; i++)
        place("text value", v[i].bytes);
    myp_column_type k[6];
    memcpy(k, kinds, sizeof k);
    if (varied() % 2)
        k[varied() % 6].column_type = (uint8_t)varied();
    CALL(used, myp_read_binary_row(p, len, k, n > 6 ? 6 : n, v, 8, &used));
    for (size_t i = 0; i < 8; i++)
        place("binary value", v[i].bytes);
}

/* the packets of the standard input: the rows of tests/vectors/ */
static void take_seeds(void)
{
    static char line[2 * LONGEST + 2];
    while (packets[count_of_packets].at)
        count_of_packets++;
    while (count_of_packets < MOST && fgets(line, sizeof line, stdin)) {
        size_t len = strcspn(line, "\n") / 2;
        uint8_t *bytes = malloc(len + 1);
        if (!bytes || len + 40 > LONGEST)
            exit(3);
        for (size_t i = 0; i < len; i++) {
            unsigned byte = 0;
            sscanf(line + 2 * i, "%2x", &byte);
            bytes[i] = (uint8_t)byte;
        }
        packets[count_of_packets].at = bytes, packets[count_of_packets++].len = len;
    }
}

int main(int argc, char **argv)
{
    unsigned long count = argc > 1 ? strtoul(argv[1], NULL, 10) : 100000;
    if (argc > 2)
        state ^= strtoul(argv[2], NULL, 10) * 0x9e3779b97f4a7c15u;
    uint8_t *area = mmap(NULL, 4 * 4096, PROT_READ | PROT_WRITE, MAP_PRIVATE | MAP_ANONYMOUS, -1, 0);
    if (area == MAP_FAILED || mprotect(area + 4096, 4096, PROT_NONE) || mprotect(area + 3 * 4096, 4096, PROT_NONE))
        return 3;
    page_end = area + 4096, other_end = area + 3 * 4096;
    take_seeds();
    /* (each packet is read as it is first) */
    for (unsigned long i = 0; i < count + count_of_packets; i++) {
        size_t which = i < count_of_packets ? i : varied() % count_of_packets, len = packets[which].len;
        uint8_t bytes[LONGEST];
        memcpy(bytes, packets[which].at, len);
        if (i >= count_of_packets) {
            if (varied() % 3 == 0)
                len = varied() % (len + 1);
            for (size_t k = varied() % 4; k && len; k--)
                bytes[varied() % len] = varied() % 4 ? (uint8_t)varied() : (uint8_t)(0xf8 + varied() % 8);
            if (varied() % 8 == 0)
                for (size_t k = varied() % 40; k && len < sizeof bytes; k--)
                    bytes[len++] = (uint8_t)varied();
        }
        memcpy(page_end - len, bytes, len), memcpy(other_end - len, bytes, len);
        read_all(len);
        read_client(page_end - len, len);
        read_server(page_end - len, len);
        read_again(page_end - len, len, capabilities);
        read_twice(page_end - len, other_end - len, len, i < count_of_packets);
    }
    unsigned long twice = end_twice();
    printf("hostile: %zu packets, %lu reads, %lu refused, %lu written again, %lu read twice, %lu changed something and refused, %lu bad\n",
           count_of_packets, done, refused, written, twice, changed, bad);
    return bad != 0 || changed != 0;
}
