/* A recorder in one file: a proxy that prints each packet between clients and a server.
 *
 *     cc recorder.c $(pkg-config --cflags --libs mysql_packets) -o recorder
 *     ./recorder PORT SERVER_HOST SERVER_PORT
 *
 * It listens on the loopback address and serves one connection after another. TLS and compression hide packets, and without definitions
 * a row has no types: it takes these capabilities out of the server's greeting. Eight commands may come before the answers to earlier ones;
 * the next one is printed as refused. The sockets, the buffers and the types of columns and parameters are the recorder's; the packets are
 * the library's. */
#include <mysql_packets.h>
#include <arpa/inet.h>
#include <netdb.h>
#include <netinet/in.h>
#include <poll.h>
#include <stdio.h>
#include <stdlib.h>
#include <string.h>
#include <sys/socket.h>
#include <unistd.h>

enum { HEADER = 4, PIECE = 1 << 16, SHOWN = 60, STATEMENTS = 64, TYPES = 256, EXCHANGES = 16 };

typedef struct list {
    uint8_t *data;
    size_t len, size;
} list;

/* a side of a connection: what came of a frame, and of a payload that goes on in the next frame */
typedef struct side {
    int from, to;
    list held, payload;
} side;

/* a prepared statement, or a query: the types of its parameters, and of the columns of its last result. More than TYPES are unknown */
typedef struct statement {
    uint32_t id;
    int is_kept, is_bound; /* bound: an execution gave the parameters their types */
    size_t params, columns, defined;
    myp_bound_param param[TYPES];
    myp_column_type column[TYPES];
} statement;

static const char *const kinds[] = {
    "handshake", "ssl_request", "login", "auth_switch", "old_auth_switch", "auth_more_data", "auth_next_factor", "auth_plugin_data",
    "auth_data", "command", "ok", "error", "unsolicited_error", "progress_report", "local_infile", "infile_content", "infile_end",
    "column_count", "column", "field_list_column", "eof", "ok_terminator", "text_row", "binary_row", "prepare_ok", "statistics",
    "binlog_event", "semi_sync_ack", "clone" };

static myp_conversation session; /* its capabilities are what both sides agreed on, once the client has logged in */
static statement statements[STATEMENTS], query;
static statement *current = &query, *last; /* the one whose rows come, and the one that was prepared last */
static size_t params_to_come;              /* of a statement that is being prepared */
static statement *begun[EXCHANGES];        /* of the commands that aren't answered: whose rows come, by the number of the exchange */
static uint64_t exchange, cleared;         /* that of the server's last packet, and of the last command that removed all statements */

static void stop(const char *what)
{
    fprintf(stderr, "recorder: %s\n", what);
    exit(1);
}

static void append(list *to, const uint8_t *data, size_t len)
{
    if (to->len + len > to->size) {
        to->size = 2 * (to->len + len);
        to->data = realloc(to->data, to->size);
        if (!to->data)
            stop("memory was refused");
    }
    memcpy(to->data + to->len, data, len);
    to->len += len;
}

static int put(int to, const uint8_t *data, size_t len)
{
    for (size_t at = 0; at < len;) {
        ssize_t n = write(to, data + at, len - at);
        if (n <= 0)
            return 0;
        at += (size_t)n;
    }
    return 1;
}

/* ---- what is printed */
static void print_text(const uint8_t *text, size_t len)
{
    putchar(' ');
    for (size_t at = 0; at < len && at < SHOWN; at++)
        putchar(text[at] < 32 || text[at] > 126 ? '.' : text[at]);
}

static void print_error(myp_bytes payload)
{
    myp_error error = MYP_ERROR_INIT;
    /* an error in place of the greeting has an SQL state from MySQL, and none from MariaDB */
    uint32_t before = payload.len > 3 && payload.data[3] == '#' ? MYP_CLIENT_PROTOCOL_41 : 0;
    uint32_t capabilities = session.opening == MYP_OPENING_SESSION ? before : session.capabilities;
    if (myp_read_error(payload.data, payload.len, capabilities, &error) == MYP_OK) {
        printf(" %u", error.code);
        print_text(error.message.data, error.message.len);
    }
}

static void print_ok(myp_bytes payload, uint32_t kind)
{
    myp_ok ok = MYP_OK_INIT;
    if (myp_read_ok(payload.data, payload.len, kind, session.capabilities, &ok) == MYP_OK)
        printf(" affected_rows=%llu status=%04x warnings=%u", (unsigned long long)ok.affected_rows, ok.status_flags, ok.warnings);
}

static void print_number(const myp_value *value)
{
    float single;
    double number;
    uint32_t bits = (uint32_t)value->number;
    memcpy(&single, &bits, sizeof single), memcpy(&number, &value->number, sizeof number);
    if (value->kind == MYP_VALUE_INT)
        printf(" %lld", (long long)value->number);
    else if (value->kind == MYP_VALUE_UINT)
        printf(" %llu", (unsigned long long)value->number);
    else
        printf(" %g", value->kind == MYP_VALUE_FLOAT ? (double)single : number);
}

static void print_value(const myp_value *value)
{
    switch (value->kind) {
    case MYP_VALUE_NULL: printf(" NULL"); break;
    case MYP_VALUE_BYTES: print_text(value->bytes.data, value->bytes.len); break;
    case MYP_VALUE_INT:
    case MYP_VALUE_UINT:
    case MYP_VALUE_FLOAT:
    case MYP_VALUE_DOUBLE: print_number(value); break;
    case MYP_VALUE_TIME:
        printf(" %s%u %02u:%02u:%02u.%06u", value->is_negative ? "-" : "", value->days, value->hour, value->minute, value->second, value->micros);
        break;
    default:
        printf(" %04u-%02u-%02u %02u:%02u:%02u.%06u", value->days, value->month, value->day, value->hour, value->minute, value->second, value->micros);
        if (value->kind == MYP_VALUE_DATE_WITH_OFFSET)
            printf(" offset=%lld", (long long)value->number);
    }
}

static void print_values(const myp_value *values, size_t count)
{
    for (size_t at = 0; at < count; at++)
        print_value(&values[at]);
}

/* ---- statements: what earlier packets say of values in later ones */
static void forget_statements(void)
{
    for (size_t at = 0; at < STATEMENTS; at++)
        statements[at].is_kept = 0;
    last = NULL;
}

/* The statement that a command names after its first byte, or NULL if it is unknown. ffffffff is the one that was prepared last. */
static statement *statement_of(myp_bytes payload)
{
    if (payload.len < 5)
        return NULL;
    uint32_t id = payload.data[1] | (uint32_t)payload.data[2] << 8 | (uint32_t)payload.data[3] << 16 | (uint32_t)payload.data[4] << 24;
    if (id == UINT32_MAX)
        return last;
    for (size_t at = 0; at < STATEMENTS; at++)
        if (statements[at].is_kept && statements[at].id == id)
            return &statements[at];
    return NULL;
}

static void clear_data(statement *of)
{
    for (size_t at = 0; at < TYPES; at++)
        of->param[at].is_sent_ahead = 0;
}

/* Prints the parameters of an execution, and keeps the types that it sends. */
static void print_execution(statement *of, myp_bytes payload)
{
    static myp_value values[TYPES];
    myp_column_type types[TYPES];
    myp_execution execution = MYP_EXECUTION_INIT;
    int is_known = of && of->params <= TYPES
        && myp_read_execution(payload.data, payload.len, session.capabilities, of->param, of->params, values, TYPES, types, TYPES, &execution) == MYP_OK;
    if (!is_known || !(execution.sends_types || of->is_bound || !of->params)) {
        printf(" size=%zu", payload.len);
    } else {
        print_values(values, of->params);
        for (size_t at = 0; at < of->params; at++)
            of->param[at].column_type = types[at].column_type, of->param[at].is_unsigned = types[at].is_unsigned;
        of->is_bound = 1;
    }
    if (of)
        clear_data(of);
}

static void take_long_data(statement *of, myp_bytes payload)
{
    myp_long_data data = MYP_LONG_DATA_INIT;
    if (of && myp_read_long_data(payload.data, payload.len, &data) == MYP_OK && data.param_index < TYPES)
        of->param[data.param_index].is_sent_ahead = 1;
}

/* A command, and the statement of which it is. */
static void take_command(const myp_packet *packet, myp_bytes payload)
{
    statement *of = statement_of(payload), **rows_of = &begun[packet->exchange % EXCHANGES];
    *rows_of = &query;
    switch (packet->command) {
    case MYP_COM_STMT_EXECUTE: print_execution(of, payload), *rows_of = of; break;
    case MYP_COM_STMT_FETCH: *rows_of = of; break;
    case MYP_COM_STMT_PREPARE: last = NULL; break;
    case MYP_COM_STMT_SEND_LONG_DATA: take_long_data(of, payload); break;
    case MYP_COM_STMT_RESET:
        if (of)
            clear_data(of);
        break;
    case MYP_COM_STMT_CLOSE:
        if (of)
            of->is_kept = 0;
        if (of == last)
            last = NULL;
        break;
    case MYP_COM_CHANGE_USER:
    case MYP_COM_RESET_CONNECTION: forget_statements(), cleared = packet->exchange; break;
    }
}

/* A statement that is prepared takes the place of one of its number, or a free one, if no later command removed it. */
static void take_prepared(const myp_packet *packet, myp_bytes payload)
{
    myp_statement prepared = MYP_STATEMENT_INIT;
    if (myp_read_statement(payload.data, payload.len, session.capabilities, &prepared) != MYP_OK)
        return;
    last = NULL, params_to_come = prepared.num_params;
    for (size_t at = 0; at < STATEMENTS && packet->exchange > cleared; at++)
        if (statements[at].is_kept ? statements[at].id == prepared.statement_id : !last)
            last = &statements[at];
    if (last)
        *last = (statement){ .id = prepared.statement_id, .is_kept = 1, .params = prepared.num_params, .columns = prepared.num_columns };
    current = last;
}

/* The definition of a parameter, whose type an execution says again, or of a column. */
static void take_definition(myp_bytes payload)
{
    myp_column of = MYP_COLUMN_INIT;
    int is_read = myp_read_column(payload.data, payload.len, session.mariadb_capabilities, &of) == MYP_OK;
    print_text(of.name.data, of.name.len);
    if (params_to_come)
        params_to_come--;
    else if (is_read && current && current->defined < TYPES)
        current->column[current->defined++] = myp_type_of(&of);
}

/* Prints the values of a row, or its size if the columns are unknown. */
static void print_row(myp_bytes payload, int is_text)
{
    static myp_value values[TYPES];
    size_t used = 0;
    int is_known = current && current->columns <= TYPES && (is_text || current->defined == current->columns);
    uint32_t code = !is_known ? MYP_ERROR_INVALID_INPUT
        : is_text ? myp_read_text_row(payload.data, payload.len, values, current->columns, &used)
                  : myp_read_binary_row(payload.data, payload.len, current->column, current->columns, values, TYPES, &used);
    if (code == MYP_OK)
        print_values(values, current->columns);
    else
        printf(" size=%zu", payload.len);
}

static void print_handshake(myp_bytes payload)
{
    myp_handshake greeting = MYP_HANDSHAKE_INIT;
    if (myp_read_handshake(payload.data, payload.len, &greeting) == MYP_OK)
        print_text(greeting.server_version.data, greeting.server_version.len);
}

static void print_login(myp_bytes payload)
{
    myp_login login = MYP_LOGIN_INIT;
    if (myp_read_login(payload.data, payload.len, &login) == MYP_OK)
        print_text(login.user.data, login.user.len);
}

static void print_packet(const myp_packet *packet, myp_bytes payload)
{
    switch (packet->kind) {
    case MYP_PACKET_HANDSHAKE: print_handshake(payload); break;
    case MYP_PACKET_LOGIN: print_login(payload); break;
    case MYP_PACKET_COMMAND:
        printf(" code=%u", packet->command);
        if (packet->command == MYP_COM_QUERY || packet->command == MYP_COM_STMT_PREPARE || packet->command == MYP_COM_INIT_DB)
            print_text(payload.data + 1, payload.len - 1);
        take_command(packet, payload);
        break;
    case MYP_PACKET_COLUMN: take_definition(payload); break;
    case MYP_PACKET_TEXT_ROW: print_row(payload, 1); break;
    case MYP_PACKET_BINARY_ROW: print_row(payload, 0); break;
    case MYP_PACKET_OK: print_ok(payload, MYP_OK_COMMON); break;
    case MYP_PACKET_OK_TERMINATOR: print_ok(payload, MYP_OK_TERMINATOR); break;
    case MYP_PACKET_EOF: print_ok(payload, MYP_OK_OLD_EOF); break;
    case MYP_PACKET_ERROR:
    case MYP_PACKET_UNSOLICITED_ERROR: print_error(payload); break;
    case MYP_PACKET_COLUMN_COUNT:
        printf(" columns=%llu", (unsigned long long)packet->columns);
        params_to_come = 0;
        if (current)
            current->columns = packet->columns, current->defined = 0;
        break;
    case MYP_PACKET_PREPARE_OK:
        printf(" columns=%llu params=%u", (unsigned long long)packet->columns, packet->params);
        take_prepared(packet, payload);
        break;
    default: printf(" size=%zu", payload.len); break;
    }
}

/* ---- a connection */

/* Prints a packet, and passes it to the session. */
static void take_packet(int from, uint8_t sequence_id, myp_bytes payload)
{
    myp_packet packet = MYP_PACKET_INIT;
    uint32_t code = myp_next_packet(&session, (uint32_t)from, payload.data, payload.len, &packet);
    printf("%c %u %s", from == MYP_SIDE_CLIENT ? '>' : '<', sequence_id, code == MYP_OK ? kinds[packet.kind] : "refused");
    if (code == MYP_OK && from == MYP_SIDE_SERVER && packet.exchange != exchange)
        exchange = packet.exchange, current = begun[exchange % EXCHANGES];
    if (code == MYP_OK)
        print_packet(&packet, payload);
    putchar('\n');
}

/* Passes a greeting on without what hides packets, to the client and to the session. */
static int greet(const side *server, uint8_t sequence_id, const myp_handshake *greeting)
{
    uint8_t out[HEADER + 1024];
    size_t length = 0, written = 0;
    myp_handshake sent = *greeting;
    sent.capabilities &= ~(uint32_t)(MYP_CLIENT_SSL | MYP_CLIENT_COMPRESS | MYP_CLIENT_ZSTD_COMPRESSION_ALGORITHM
                                     | MYP_CLIENT_OPTIONAL_RESULTSET_METADATA);
    sent.mariadb_capabilities &= ~(uint32_t)MYP_MARIADB_CLIENT_CACHE_METADATA;
    if (myp_write_handshake(&sent, out + HEADER, sizeof out - HEADER, &length) != MYP_OK
        || myp_write_header((uint32_t)length, sequence_id, out, HEADER, &written) != MYP_OK)
        stop("the greeting can't be written");
    take_packet(MYP_SIDE_SERVER, sequence_id, (myp_bytes){ out + HEADER, length });
    return put(server->to, out, HEADER + length);
}

/* Takes a payload. Whether it was a greeting, which is sent on here. */
static int take_payload(const side *of, int from, uint8_t sequence_id, myp_bytes payload)
{
    myp_handshake greeting = MYP_HANDSHAKE_INIT;
    int is_first = session.opening == MYP_OPENING_SESSION && from == MYP_SIDE_SERVER;
    if (is_first && myp_read_handshake(payload.data, payload.len, &greeting) == MYP_OK)
        return greet(of, sequence_id, &greeting);
    take_packet(from, sequence_id, payload);
    return 0;
}

/* Takes the frames that are whole: each is sent on as it came, except for the greeting. Whether the connection goes on. */
static int take_frames(side *of, int from)
{
    myp_bytes rest = { of->held.data, of->held.len };
    myp_frame frame = MYP_FRAME_INIT;
    const uint8_t *begun = rest.data;
    while (myp_next_frame(&rest, &frame) == MYP_OK) {
        int is_sent = 0;
        append(&of->payload, frame.content.data, frame.content.len);
        if (frame.is_last) {
            is_sent = take_payload(of, from, frame.sequence_id, (myp_bytes){ of->payload.data, of->payload.len });
            of->payload.len = 0;
        }
        if (!is_sent && !put(of->to, begun, (size_t)(rest.data - begun)))
            return 0;
        begun = rest.data;
    }
    memmove(of->held.data, rest.data, rest.len);
    of->held.len = rest.len;
    return 1;
}

static void follow(int client, int server)
{
    static uint8_t piece[PIECE];
    side sides[2] = { { client, server, { 0 }, { 0 } }, { server, client, { 0 }, { 0 } } };
    struct pollfd ready[2] = { { client, POLLIN, 0 }, { server, POLLIN, 0 } };
    uint8_t is_idle = 0;
    if (myp_begin_session(&session) != MYP_OK)
        stop("no session begins");
    forget_statements();
    current = &query, exchange = cleared = 0;
    for (int goes_on = 1; goes_on && poll(ready, 2, -1) > 0;)
        for (int from = 0; goes_on && from < 2; from++) {
            if (!ready[from].revents)
                continue;
            ssize_t n = read(sides[from].from, piece, sizeof piece);
            if (n > 0)
                append(&sides[from].held, piece, (size_t)n);
            goes_on = n > 0 && take_frames(&sides[from], from);
        }
    if (myp_is_idle(&session, &is_idle) != MYP_OK)
        stop("no session was begun");
    printf("closed, %s\n", is_idle ? "all is answered" : "not all is answered");
    for (int from = 0; from < 2; from++)
        free(sides[from].held.data), free(sides[from].payload.data);
}

static int connected(const char *host, const char *port)
{
    struct addrinfo wanted = { 0 }, *found = NULL;
    wanted.ai_socktype = SOCK_STREAM;
    if (getaddrinfo(host, port, &wanted, &found))
        stop("the host is not known");
    int to = socket(found->ai_family, found->ai_socktype, found->ai_protocol);
    if (to < 0 || connect(to, found->ai_addr, found->ai_addrlen))
        stop("the server is not reached");
    freeaddrinfo(found);
    return to;
}

int main(int count, char **words)
{
    if (count != 4)
        stop("call it as recorder PORT SERVER_HOST SERVER_PORT");
    struct sockaddr_in here = { 0 };
    here.sin_family = AF_INET, here.sin_port = htons((uint16_t)atoi(words[1])), here.sin_addr.s_addr = htonl(INADDR_LOOPBACK);
    int listening = socket(AF_INET, SOCK_STREAM, 0), again = 1;
    setsockopt(listening, SOL_SOCKET, SO_REUSEADDR, &again, sizeof again);
    if (bind(listening, (struct sockaddr *)&here, sizeof here) || listen(listening, 8))
        stop("the port is taken");
    setvbuf(stdout, NULL, _IOLBF, 0);
    puts("listening");
    for (int client; (client = accept(listening, NULL, NULL)) >= 0;) {
        int server = connected(words[2], words[3]);
        follow(client, server);
        close(client), close(server);
    }
    return 0;
}
