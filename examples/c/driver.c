/* A driver in one file: it logs in to a MariaDB server, asks, executes, reads rows and an error, and inserts rows in bulk.
 *
 *     cc driver.c $(pkg-config --cflags --libs mysql_packets) -o driver
 *     ./driver HOST PORT USER PASSWORD SCHEMA
 *
 * The socket and the buffers are the driver's; the packets are the library's. */
#include <mysql_packets.h>
#include <netdb.h>
#include <stdio.h>
#include <stdlib.h>
#include <string.h>
#include <sys/socket.h>
#include <unistd.h>

enum { HEADER = 4, SIZE = 1 << 20, MOST_COLUMNS = 64 };

static FILE *from_server, *to_server;
static uint8_t sequence_id, in[SIZE], out[HEADER + SIZE];
static myp_conversation session; /* its capabilities are what both sides agreed on, once the login is sent */
static myp_packet next;          /* what the packet is that was received or sent last */

static void stop(const char *what)
{
    fprintf(stderr, "driver: %s\n", what);
    exit(1);
}

static void check(uint32_t code, const char *what)
{
    if (code != MYP_OK) {
        fprintf(stderr, "driver: %s: %s\n", what, myp_error_text(code));
        exit(1);
    }
}

static myp_bytes bytes_of(const char *text)
{
    return (myp_bytes){ (const uint8_t *)text, strlen(text) };
}

static int is_text(myp_bytes bytes, const char *text)
{
    return bytes.len == strlen(text) && !memcmp(bytes.data, text, bytes.len);
}

/* ---- packets over the socket: a header of four bytes, and a payload (here no longer than one packet) */
static myp_bytes receive(void)
{
    uint8_t head[HEADER];
    myp_header header = MYP_HEADER_INIT;
    if (fread(head, 1, HEADER, from_server) != HEADER || myp_read_header(head, HEADER, &header) != MYP_OK)
        stop("the connection is closed");
    if (header.payload_length > SIZE || fread(in, 1, header.payload_length, from_server) != header.payload_length)
        stop("a packet is cut, or larger than this driver's buffer");
    sequence_id = (uint8_t)(header.sequence_id + 1);
    check(myp_next_packet(&session, MYP_SIDE_SERVER, in, header.payload_length, &next), "packet");
    return (myp_bytes){ in, header.payload_length };
}

/* sends the payload that stands in `out` after the place of its header */
static void send_payload(size_t length)
{
    size_t written = 0;
    check(myp_next_packet(&session, MYP_SIDE_CLIENT, out + HEADER, length, &next), "command");
    check(myp_write_header((uint32_t)length, sequence_id++, out, HEADER, &written), "header");
    if (fwrite(out, 1, HEADER + length, to_server) != HEADER + length || fflush(to_server))
        stop("the connection is closed");
}

static void send_command(uint8_t code, const char *text)
{
    size_t length = 0;
    myp_command command = MYP_COMMAND_INIT;
    command.code = code, command.text = bytes_of(text);
    if (code == MYP_COM_QUERY)
        check(myp_write_query(command.text.data, command.text.len, NULL, 0, session.capabilities, out + HEADER, SIZE, &length), "query");
    else
        check(myp_write_command(&command, out + HEADER, SIZE, &length), "command");
    sequence_id = 0;
    send_payload(length);
}

/* ---- answers */
static void show_error(myp_bytes packet)
{
    myp_error error = MYP_ERROR_INIT;
    /* in place of the greeting MySQL sends an SQL state, and MariaDB none */
    uint32_t before = packet.len > 3 && packet.data[3] == '#' ? MYP_CLIENT_PROTOCOL_41 : 0;
    check(myp_read_error(packet.data, packet.len, session.opening == MYP_OPENING_SESSION ? before : session.capabilities, &error), "error");
    printf("error %u (%.*s): %.*s\n", error.code, (int)error.sql_state.len, (const char *)error.sql_state.data,
           (int)error.message.len, (const char *)error.message.data);
}

/* a reply that must be a packet of this kind, and no error */
static myp_bytes receive_kind(uint8_t kind)
{
    myp_bytes packet = receive();
    if (next.kind == MYP_PACKET_ERROR || next.kind == MYP_PACKET_UNSOLICITED_ERROR) {
        show_error(packet);
        exit(1);
    }
    if (next.kind != kind)
        stop("another packet is expected");
    return packet;
}

static myp_ok receive_ok(void)
{
    myp_ok ok = MYP_OK_INIT;
    myp_bytes packet = receive_kind(MYP_PACKET_OK);
    check(myp_read_ok(packet.data, packet.len, MYP_OK_COMMON, session.capabilities, &ok), "OK packet");
    return ok;
}

/* ---- the login, by mysql_native_password or caching_sha2_password */
static size_t auth_response(myp_bytes plugin, const char *password, const uint8_t *nonce, uint8_t *response)
{
    const uint8_t *secret = (const uint8_t *)password;
    size_t length = 0;
    if (is_text(plugin, "mysql_native_password"))
        check(myp_scramble_native(secret, strlen(password), nonce, 20, response, 32, &length), "response");
    else if (is_text(plugin, "caching_sha2_password"))
        check(myp_scramble_sha2(secret, strlen(password), nonce, 20, response, 32, &length), "response");
    else
        stop("the server wants another plugin");
    return length;
}

/* What the server wants after the login: another plugin, or more of this one. */
static void authenticate(const char *password)
{
    myp_auth_switch other = MYP_AUTH_SWITCH_INIT;
    myp_bytes more = MYP_BYTES_INIT, packet = receive();
    for (; next.kind != MYP_PACKET_OK; packet = receive()) {
        if (next.kind == MYP_PACKET_AUTH_SWITCH) {
            check(myp_read_auth_switch(packet.data, packet.len, &other), "switch");
            if (other.plugin_data.len < 20)
                stop("the server sends no nonce of 20 bytes");
            send_payload(auth_response(other.plugin_name, password, other.plugin_data.data, out + HEADER));
        } else if (next.kind == MYP_PACKET_AUTH_MORE_DATA) {
            check(myp_read_auth_more_data(packet.data, packet.len, &more), "more data");
            if (more.len != 1 || more.data[0] != 3) /* 3: the server knows the password's hash, and an OK packet follows */
                stop("the server wants the password itself, which needs TLS");
        } else {
            show_error(packet);
            exit(1);
        }
    }
}

static void log_in(const char *user, const char *password, const char *schema)
{
    uint8_t nonce[20], response[32];
    size_t length = 0;
    check(myp_begin_session(&session), "session");
    myp_handshake handshake = MYP_HANDSHAKE_INIT;
    myp_bytes packet = receive_kind(MYP_PACKET_HANDSHAKE);
    check(myp_read_handshake(packet.data, packet.len, &handshake), "handshake");
    printf("server %.*s\n", (int)handshake.server_version.len, (const char *)handshake.server_version.data);
    if (!myp_nonce(&handshake, nonce))
        stop("the server sends no nonce of 20 bytes");
    myp_login login = MYP_LOGIN_INIT;
    login.user = bytes_of(user);
    login.auth_plugin_name = is_text(handshake.auth_plugin_name, "caching_sha2_password") ? handshake.auth_plugin_name : bytes_of("mysql_native_password");
    login.auth_response = (myp_bytes){ response, auth_response(login.auth_plugin_name, password, nonce, response) };
    login.database = bytes_of(schema);
    login.has_database = login.has_auth_plugin_name = 1;
    login.capabilities = handshake.capabilities
        & (MYP_CLIENT_CONNECT_WITH_DB | MYP_CLIENT_PROTOCOL_41 | MYP_CLIENT_TRANSACTIONS | MYP_CLIENT_SECURE_CONNECTION
           | MYP_CLIENT_PLUGIN_AUTH | MYP_CLIENT_DEPRECATE_EOF | MYP_CLIENT_QUERY_ATTRIBUTES);
    login.mariadb_capabilities = handshake.mariadb_capabilities & MYP_MARIADB_CLIENT_STMT_BULK_OPERATIONS;
    login.max_packet_size = 1 << 24, login.collation = 45;
    check(myp_write_login(&login, NULL, 0, out + HEADER, SIZE, &length), "login");
    send_payload(length);
    authenticate(password);
}

/* ---- results */
static void show(const myp_value *value)
{
    switch (value->kind) {
    case MYP_VALUE_NULL: printf(" NULL"); break;
    case MYP_VALUE_BYTES: printf(" '%.*s'", (int)value->bytes.len, (const char *)value->bytes.data); break;
    case MYP_VALUE_INT: printf(" %lld", (long long)value->number); break;
    case MYP_VALUE_UINT: printf(" %llu", (unsigned long long)value->number); break;
    case MYP_VALUE_DATE:
        printf(" %04u-%02u-%02u %02u:%02u:%02u", value->days, value->month, value->day, value->hour, value->minute, value->second);
        break;
    default: printf(" (kind %u)", value->kind);
    }
}

/* the types of some columns, whose definitions come one after another */
static void receive_columns(size_t count, myp_column_type *types)
{
    for (size_t i = 0; i < count; i++) {
        myp_column column = MYP_COLUMN_INIT;
        myp_bytes packet = receive_kind(MYP_PACKET_COLUMN);
        check(myp_read_column(packet.data, packet.len, session.mariadb_capabilities, &column), "column");
        if (types)
            types[i] = myp_type_of(&column);
    }
    if (count && !(session.capabilities & MYP_CLIENT_DEPRECATE_EOF))
        receive_kind(MYP_PACKET_EOF);
}

static void show_result(int is_binary)
{
    static myp_column_type types[MOST_COLUMNS];
    static myp_value values[MOST_COLUMNS];
    receive_kind(MYP_PACKET_COLUMN_COUNT);
    if (next.columns > MOST_COLUMNS)
        stop("too many columns");
    size_t n = (size_t)next.columns, used = 0;
    receive_columns(n, types);
    for (size_t i = 0; i < n; i++)
        values[i] = myp_null();
    for (;;) {
        myp_bytes packet = receive();
        if (next.kind == MYP_PACKET_ERROR)
            show_error(packet);
        if (next.kind != MYP_PACKET_TEXT_ROW && next.kind != MYP_PACKET_BINARY_ROW)
            return;
        check(is_binary ? myp_read_binary_row(packet.data, packet.len, types, n, values, n, &used)
                        : myp_read_text_row(packet.data, packet.len, values, n, &used), "row");
        printf("row");
        for (size_t i = 0; i < n; i++)
            show(&values[i]);
        puts("");
    }
}

/* ---- prepared statements */
static uint32_t prepare(const char *sql)
{
    myp_statement statement = MYP_STATEMENT_INIT;
    send_command(MYP_COM_STMT_PREPARE, sql);
    myp_bytes packet = receive_kind(MYP_PACKET_PREPARE_OK);
    check(myp_read_statement(packet.data, packet.len, session.capabilities, &statement), "statement");
    receive_columns(statement.num_params, NULL);
    receive_columns(statement.num_columns, NULL);
    return statement.statement_id;
}

/* inserts rows of a number and a text, each request as large as the buffer */
static void insert_in_bulk(size_t count)
{
    static const myp_column_type types[] = { { MYP_TYPE_LONGLONG, 0 }, { MYP_TYPE_VAR_STRING, 0 } };
    uint32_t id = prepare("INSERT INTO numbers VALUES (?, ?)");
    myp_value *values = malloc(2 * count * sizeof *values);
    if (!values)
        stop("no memory");
    for (size_t i = 0; i < count; i++)
        values[2 * i] = myp_int((int64_t)i), values[2 * i + 1] = i % 2 ? myp_text("odd", 3) : myp_text("even", 4);
    for (size_t done = 0, rows = 0, length = 0; done < count; done += rows) {
        check(myp_write_bulk(id, 0, SIZE, types, 2, values + 2 * done, 2 * (count - done), out + HEADER, SIZE, &length, &rows), "rows");
        sequence_id = 0;
        send_payload(length);
        printf("a request of %zu rows, %llu are in\n", rows, (unsigned long long)receive_ok().affected_rows);
    }
    free(values);
}

int main(int argc, char **argv)
{
    if (argc != 6)
        stop("it takes HOST PORT USER PASSWORD SCHEMA");
    struct addrinfo *found, hints = { .ai_socktype = SOCK_STREAM };
    if (getaddrinfo(argv[1], argv[2], &hints, &found))
        stop("no such host");
    int fd = socket(found->ai_family, SOCK_STREAM, 0);
    if (connect(fd, found->ai_addr, found->ai_addrlen) || !(from_server = fdopen(fd, "r")) || !(to_server = fdopen(dup(fd), "w")))
        stop("the server doesn't answer");
    freeaddrinfo(found);
    log_in(argv[3], argv[4], argv[5]);
    send_command(MYP_COM_QUERY, "SELECT 1 + 1, 'text', NULL");
    show_result(0);
    /* an error among the rows */
    send_command(MYP_COM_QUERY, "SELECT seq, IF(seq < 3, 'a row', (SELECT seq FROM seq_1_to_2)) FROM seq_1_to_5");
    show_result(0);
    send_command(MYP_COM_QUERY, "CREATE OR REPLACE TABLE numbers (n BIGINT, name VARCHAR(20))");
    receive_ok();
    insert_in_bulk(100000);

    uint8_t as_long_data = 0;
    size_t length = 0;
    const myp_execution_options plain = MYP_EXECUTION_OPTIONS_INIT;
    myp_parameter params[] = { myp_param(myp_int(99990)), myp_param(myp_text("odd", 3)) };
    uint32_t id = prepare("SELECT n, name, n / 2, TIMESTAMP '2024-02-29 01:02:03' FROM numbers WHERE n > ? AND name = ? ORDER BY n");
    check(myp_write_execution(id, params, 2, NULL, 0, &plain, session.capabilities, out + HEADER, SIZE, &length, &as_long_data), "execution");
    sequence_id = 0;
    send_payload(length);
    show_result(1);
    send_command(MYP_COM_QUERY, "SELECT * FROM nothing_here");
    show_error(receive());
    send_command(MYP_COM_QUIT, "");
    return 0;
}
