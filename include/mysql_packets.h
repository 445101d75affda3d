/* The packets of MySQL and MariaDB: payloads are read in place, and written to the caller's buffer.
 *
 * Calls are stateless: no call allocates or keeps anything, there are no handles, and every call is
 * thread-safe. A byte string that is read points into the caller's packet, and is invalid once the
 * packet is freed or changed. Numbers in structs have the host's byte order; in packets they are
 * little-endian. `packet, len` is a whole payload: without its header of 4 bytes, and joined if it
 * was sent in more than one frame.
 *
 * A pointer may be NULL only if its length is 0: it is then an empty string, list or buffer. So a
 * buffer of NULL and 0 asks for the size of a packet. Output parameters must be initialized, by the
 * initializer of their struct or with zeros, and must not overlap any other argument.
 *
 * Each call returns an enum myp_code. On an error, `out` is unchanged unless the call's comment
 * says otherwise. A writer whose buffer is too small returns MYP_ERROR_BUFFER_TOO_SMALL, writes
 * nothing, and sets *written to the size that it needs:
 *
 *     while ((code = myp_write_close(id, buffer, size, &written)) == MYP_ERROR_BUFFER_TOO_SMALL)
 *         buffer = grow(buffer, size = written);
 *
 * The layout of a struct never changes: new fields come with a new struct and a new call. Options
 * are structs that are all zero in the plain case.
 *
 * Requires C99 or later, or C++, on a 64-bit little-endian host. Compile with what `pkg-config
 * --cflags --libs mysql_packets` prints. docs/USING.md has the rules of ownership. */
#ifndef MYSQL_PACKETS_H
#define MYSQL_PACKETS_H

#include <stddef.h>
#include <stdint.h>

#if UINTPTR_MAX != 0xffffffffffffffff
#error "mysql_packets.h requires a 64-bit host"
#endif
#if defined(__BYTE_ORDER__) && __BYTE_ORDER__ != __ORDER_LITTLE_ENDIAN__
#error "mysql_packets.h requires a little-endian host"
#endif

/* Marks the calls that return a code: a compiler warns if it is ignored. */
#if defined(__GNUC__)
#define MYP_MUST_CHECK __attribute__((warn_unused_result))
#else
#define MYP_MUST_CHECK
#endif

#ifdef __cplusplus
extern "C" {
#endif

/* Major, minor and patch, a byte each. myp_version() is that of the library. */
#define MYP_VERSION 0x000100u

enum myp_code {
    MYP_OK = 0,
    MYP_ERROR_UNEXPECTED_EOF = 1,    /* the packet is truncated */
    MYP_ERROR_INVALID_DATA = 2,      /* the bytes are not a valid packet of this type */
    MYP_ERROR_INVALID_INPUT = 3,     /* an argument fits no packet */
    MYP_ERROR_TOO_LARGE = 4,         /* the total length of the strings overflows size_t */
    MYP_ERROR_BUFFER_TOO_SMALL = 5,  /* the buffer or the array is too small */
    MYP_ERROR_ROW_TOO_LARGE = 6,     /* a row fits no bulk request */
    MYP_END = 7,                     /* end of the list */
    MYP_ERROR_OUT_OF_RANGE = 8,      /* the number is beyond the range of its type */
    MYP_ERROR_COMPRESSED = 9,        /* both sides agreed on compression */
    MYP_ERROR_TOO_MANY_COMMANDS = 10 /* too many pipelined commands */
};

static inline const char *myp_error_text(uint32_t code)
{
    switch (code) {
    case MYP_OK: return "success";
    case MYP_ERROR_UNEXPECTED_EOF: return "the packet is truncated";
    case MYP_ERROR_INVALID_DATA: return "the bytes are not a valid packet of this type";
    case MYP_ERROR_INVALID_INPUT: return "an argument fits no packet";
    case MYP_ERROR_TOO_LARGE: return "the total length overflows size_t";
    case MYP_ERROR_BUFFER_TOO_SMALL: return "the buffer is too small";
    case MYP_ERROR_ROW_TOO_LARGE: return "a row is too large for a request";
    case MYP_END: return "end of the list";
    case MYP_ERROR_OUT_OF_RANGE: return "the number is out of range";
    case MYP_ERROR_COMPRESSED: return "both sides agreed on compression";
    case MYP_ERROR_TOO_MANY_COMMANDS: return "too many pipelined commands";
    default: return "unknown code";
    }
}

/* A byte string. It is not terminated by a zero. Initializer: MYP_BYTES_INIT. */
typedef struct myp_bytes {
    const uint8_t *data;
    size_t len;
} myp_bytes;
#define MYP_BYTES_INIT { (const uint8_t *)"", 0 }

uint32_t myp_version(void);

/* Returns the text of a code, as myp_error_text does, for callers without this header.
 * MYP_ERROR_INVALID_INPUT for an unknown code. */
MYP_MUST_CHECK uint32_t myp_code_text(
    uint32_t code,
    myp_bytes *text);

/* ---- packet headers and replies */

/* Initializer: MYP_HEADER_INIT. */
typedef struct myp_header {
    uint32_t payload_length; /* at 16,777,215 the payload continues in the next frame */
    uint8_t sequence_id;
} myp_header;
#define MYP_HEADER_INIT { 0, 0 }

/* Reads the 4 bytes before a payload: its length (3 bytes) and the sequence number (1 byte). Later
 * bytes are ignored. MYP_ERROR_UNEXPECTED_EOF for fewer bytes. */
MYP_MUST_CHECK uint32_t myp_read_header(
    const uint8_t *bytes,
    size_t len,
    myp_header *out);

/* Writes the 4 bytes before a payload. The greeting and each command have the sequence number 0,
 * and each packet after them, of either side, the next one (0 after 255). MYP_ERROR_INVALID_INPUT
 * for a length above 16,777,215, and *written is 0; MYP_ERROR_BUFFER_TOO_SMALL. */
MYP_MUST_CHECK uint32_t myp_write_header(
    uint32_t payload_length,
    uint8_t sequence_id,
    uint8_t *out,
    size_t size,
    size_t *written);

/* A frame: a payload, or a part of one. Initializer: MYP_FRAME_INIT. */
typedef struct myp_frame {
    myp_bytes content;
    uint8_t sequence_id;
    uint8_t is_last; /* 1 if the payload ends here; 0 at 16,777,215 bytes: another frame follows */
} myp_frame;
#define MYP_FRAME_INIT { MYP_BYTES_INIT, 0, 0 }

/* Takes the next frame off the front of *rest. MYP_END if it isn't complete: receive more bytes. */
MYP_MUST_CHECK uint32_t myp_next_frame(
    myp_bytes *rest,
    myp_frame *out);

/* Initializer: MYP_COLUMN_COUNT_INIT. */
typedef struct myp_column_count {
    uint64_t count;
    uint8_t metadata_follows; /* 1 if column definitions follow; 0 if they are omitted */
    size_t used;              /* the bytes that were read: later ones belong to no packet */
} myp_column_count;
#define MYP_COLUMN_COUNT_INIT { 0, 0, 0 }

/* Reads the number of columns of a result (length-encoded), and under
 * MYP_CLIENT_OPTIONAL_RESULTSET_METADATA or MYP_MARIADB_CLIENT_CACHE_METADATA the byte that says
 * whether column definitions follow. If they are omitted under the second flag, those that were
 * sent last for this statement apply, by its preparation or by a later execution: keep them.
 * MYP_ERROR_UNEXPECTED_EOF; MYP_ERROR_INVALID_DATA for a number that begins with fb or ff. */
MYP_MUST_CHECK uint32_t myp_read_column_count(
    const uint8_t *packet,
    size_t len,
    uint32_t capabilities,
    uint32_t mariadb_capabilities,
    myp_column_count *out);

/* ---- which packet comes next */

enum myp_side {
    MYP_SIDE_CLIENT = 0,
    MYP_SIDE_SERVER = 1
};

enum myp_opening {
    MYP_OPENING_AFTER_LOGIN = 1,
    MYP_OPENING_BETWEEN_COMMANDS = 2,
    MYP_OPENING_SESSION = 3 /* only of myp_begin_session, until the client has sent its login */
};

/* The kind of a packet, which depends on all packets before it. */
enum myp_packet_kind {
    MYP_PACKET_HANDSHAKE = 0,
    MYP_PACKET_SSL_REQUEST,
    MYP_PACKET_LOGIN,
    MYP_PACKET_AUTH_SWITCH,
    MYP_PACKET_OLD_AUTH_SWITCH,    /* the single byte fe */
    MYP_PACKET_AUTH_MORE_DATA,
    MYP_PACKET_AUTH_NEXT_FACTOR,
    MYP_PACKET_AUTH_PLUGIN_DATA,   /* raw data of the server's plugin */
    MYP_PACKET_AUTH_DATA,          /* the client's response to any of these */
    MYP_PACKET_COMMAND,            /* its first byte is in `command` */
    MYP_PACKET_OK,
    MYP_PACKET_ERROR,              /* ends the response to a command */
    MYP_PACKET_UNSOLICITED_ERROR,  /* responds to no command: the server closes the connection */
    MYP_PACKET_PROGRESS_REPORT,
    MYP_PACKET_LOCAL_INFILE,
    MYP_PACKET_INFILE_CONTENT,     /* a part of the file */
    MYP_PACKET_INFILE_END,         /* an empty packet */
    MYP_PACKET_COLUMN_COUNT,       /* the number is in `columns` */
    MYP_PACKET_COLUMN,             /* the definition of a column or a parameter */
    MYP_PACKET_FIELD_LIST_COLUMN,  /* a definition with a default value, for COM_FIELD_LIST */
    MYP_PACKET_EOF,                /* ends definitions, rows or events */
    MYP_PACKET_OK_TERMINATOR,      /* ends rows, as an OK packet */
    MYP_PACKET_TEXT_ROW,
    MYP_PACKET_BINARY_ROW,
    MYP_PACKET_PREPARE_OK,         /* a prepared statement: `columns` and `params` */
    MYP_PACKET_STATISTICS,         /* the text that COM_STATISTICS returns */
    MYP_PACKET_BINLOG_EVENT,
    MYP_PACKET_SEMI_SYNC_ACK,      /* a replica's acknowledgement of an event */
    MYP_PACKET_CLONE               /* after COM_CLONE, a packet of the clone protocol */
};

/* The state of a conversation: the agreed capabilities, and what comes next. Its other numbers
 * belong to this version of the library. A copy continues independently. A zeroed struct is no
 * conversation: calls return MYP_ERROR_INVALID_INPUT until it is begun. Initializer:
 * MYP_CONVERSATION_INIT. */
typedef struct myp_conversation {
    uint64_t definitions;
    uint64_t columns;
    uint64_t exchange;             /* the number of the command that is answered, or was last */
    uint64_t commands;             /* the number of commands so far; those after `exchange` wait */
    uint32_t capabilities;         /* agreed by both sides; before the login, the server's */
    uint32_t mariadb_capabilities;
    uint8_t opening; /* of enum myp_opening */
    uint8_t place;
    uint8_t request;
    uint8_t after;
    uint8_t waiting[8];
} myp_conversation;
#define MYP_CONVERSATION_INIT { 0, 0, 0, 0, 0, 0, 0, 0, 0, 0, { 0 } }

/* Fields that the kind doesn't name are 0. Initializer: MYP_PACKET_INIT. */
typedef struct myp_packet {
    uint64_t columns;
    uint64_t exchange;        /* of any kind: the number of its command, from 1; 0 before them */
    uint16_t params;
    uint8_t kind;             /* of enum myp_packet_kind */
    uint8_t command;
    uint8_t metadata_follows; /* of MYP_PACKET_COLUMN_COUNT and _PREPARE_OK: definitions follow */
} myp_packet;
#define MYP_PACKET_INIT { 0, 0, 0, 0, 0, 0 }

/* Begins a session before the server's greeting. Pass each payload of both sides to
 * myp_next_packet, and the login too. Once its kind is MYP_PACKET_LOGIN and `opening` is
 * MYP_OPENING_AFTER_LOGIN, `capabilities` and `mariadb_capabilities` are those that both sides
 * agreed on, for all other calls. After a request for TLS, payloads are passed as they are after
 * decryption. Always MYP_OK. */
MYP_MUST_CHECK uint32_t myp_begin_session(
    myp_conversation *out);

/* Begins a conversation under capabilities that are known: after the client's login, or between two
 * commands of a connection that is joined later. MYP_ERROR_INVALID_INPUT for another opening. */
MYP_MUST_CHECK uint32_t myp_begin_conversation(
    uint32_t capabilities,
    uint32_t mariadb_capabilities,
    uint8_t opening,
    myp_conversation *out);

/* Takes the next payload, sent by a side of enum myp_side, and returns its kind and exchange. Up to
 * eight commands may wait for the responses to earlier ones: MYP_ERROR_TOO_MANY_COMMANDS for the
 * next one, which may be passed again after a response. MYP_ERROR_INVALID_DATA if the payload may
 * not come here; MYP_ERROR_INVALID_INPUT for another side, or a struct that is no conversation;
 * MYP_ERROR_COMPRESSED for the login of a session by which both sides agree on compression: the
 * bytes after it are compressed packets. After each error both structs are unchanged. */
MYP_MUST_CHECK uint32_t myp_next_packet(
    myp_conversation *conversation,
    uint32_t from,
    const uint8_t *payload,
    size_t len,
    myp_packet *out);

/* Returns 1 if every command was answered, or the login refused, else 0. MYP_ERROR_INVALID_INPUT
 * for a struct that is no conversation. */
MYP_MUST_CHECK uint32_t myp_is_idle(
    const myp_conversation *conversation,
    uint8_t *is_idle);

/* ---- what a client reads */

/* The nonce is scramble_1 and the first 12 bytes of scramble_2: myp_nonce copies it. Initializer:
 * MYP_HANDSHAKE_INIT. */
typedef struct myp_handshake {
    myp_bytes server_version;
    myp_bytes scramble_1;       /* 8 bytes */
    myp_bytes scramble_2;       /* 13 bytes or more; empty without MYP_CLIENT_SECURE_CONNECTION */
    myp_bytes auth_plugin_name; /* empty without MYP_CLIENT_PLUGIN_AUTH */
    size_t used;
    uint32_t connection_id;
    uint32_t capabilities;
    uint32_t mariadb_capabilities;
    uint16_t status_flags;
    uint8_t protocol_version;
    uint8_t default_collation;
} myp_handshake;
#define MYP_HANDSHAKE_INIT \
    { MYP_BYTES_INIT, MYP_BYTES_INIT, MYP_BYTES_INIT, MYP_BYTES_INIT, 0, 0, 0, 0, 0, 0, 0 }

/* Reads Protocol::HandshakeV10. MYP_ERROR_UNEXPECTED_EOF if a field is truncated or the version has
 * no zero; MYP_ERROR_INVALID_DATA if the first byte is neither 10 nor 9. A server that refuses the
 * connection sends an error instead, which begins with ff: myp_read_error with capabilities 0 reads
 * it, or with MYP_CLIENT_PROTOCOL_41 if its fourth byte is '#'. */
MYP_MUST_CHECK uint32_t myp_read_handshake(
    const uint8_t *packet,
    size_t len,
    myp_handshake *out);

/* Copies the nonce of a greeting, to be passed to the scramble calls. Returns 0 if the server sent
 * fewer than 20 bytes, else 1. */
static inline int myp_nonce(const myp_handshake *handshake, uint8_t nonce[20])
{
    size_t i;
    if (handshake->scramble_1.len != 8 || handshake->scramble_2.len < 12)
        return 0;
    for (i = 0; i < 20; i++)
        nonce[i] = i < 8 ? handshake->scramble_1.data[i] : handshake->scramble_2.data[i - 8];
    return 1;
}

/* Initializer: MYP_SERVER_VERSION_INIT. */
typedef struct myp_server_version {
    uint16_t major;
    uint16_t minor;
    uint16_t patch;
} myp_server_version;
#define MYP_SERVER_VERSION_INIT { 0, 0, 0 }

/* Reads the version at the start of a server's version text: two numbers of 1 or 2 digits and one
 * of 1 to 3, separated by dots. Later text is ignored. MYP_ERROR_INVALID_DATA without a version. */
MYP_MUST_CHECK uint32_t myp_read_server_version(
    const uint8_t *text,
    size_t len,
    myp_server_version *out);

/* Reads the version of MariaDB: three such numbers followed by -MariaDB, at the start of the text
 * or after the prefix 5.5.5-. MYP_ERROR_INVALID_DATA if there is none, as for MySQL. */
MYP_MUST_CHECK uint32_t myp_read_mariadb_version(
    const uint8_t *text,
    size_t len,
    myp_server_version *out);

/* Initializer: MYP_AUTH_SWITCH_INIT. */
typedef struct myp_auth_switch {
    myp_bytes plugin_name;
    myp_bytes plugin_data; /* to the end: a nonce of 20 bytes has a zero after it */
} myp_auth_switch;
#define MYP_AUTH_SWITCH_INIT { MYP_BYTES_INIT, MYP_BYTES_INIT }

/* Reads Protocol::AuthSwitchRequest: fe, the plugin's zero-terminated name, and its data.
 * MYP_ERROR_INVALID_DATA for another first byte; MYP_ERROR_UNEXPECTED_EOF for an empty packet or a
 * name without a zero. */
MYP_MUST_CHECK uint32_t myp_read_auth_switch(
    const uint8_t *packet,
    size_t len,
    myp_auth_switch *out);

/* Reads Protocol::AuthNextFactorRequest, under MYP_CLIENT_MULTI_FACTOR_AUTHENTICATION: 02, the
 * plugin's zero-terminated name, and its data. The errors are those of myp_read_auth_switch. */
MYP_MUST_CHECK uint32_t myp_read_auth_next_factor(
    const uint8_t *packet,
    size_t len,
    myp_auth_switch *out);

/* Reads Protocol::OldAuthSwitchRequest, the byte fe: the switch to mysql_old_password, for clients
 * without MYP_CLIENT_PLUGIN_AUTH. A switch to a named plugin also begins with fe, but is longer:
 * *used is 1. MYP_ERROR_INVALID_DATA for another byte; MYP_ERROR_UNEXPECTED_EOF. */
MYP_MUST_CHECK uint32_t myp_read_old_auth_switch(
    const uint8_t *packet,
    size_t len,
    size_t *used);

/* Reads Protocol::AuthMoreData: 01, and the plugin's data. MYP_ERROR_INVALID_DATA for another first
 * byte; MYP_ERROR_UNEXPECTED_EOF for an empty packet. */
MYP_MUST_CHECK uint32_t myp_read_auth_more_data(
    const uint8_t *packet,
    size_t len,
    myp_bytes *plugin_data);

/* Reads the server's RSA key for caching_sha2_password: 01, and the key as PEM.
 * MYP_ERROR_INVALID_DATA for another first byte; MYP_ERROR_UNEXPECTED_EOF for an empty packet. */
MYP_MUST_CHECK uint32_t myp_read_public_key(
    const uint8_t *packet,
    size_t len,
    myp_bytes *pem);

/* Reads the data that the plugin parsec receives after the nonce, 20 bytes: 'P', a factor of at
 * most 20, and a salt of 18 bytes; *iterations is 1024 << factor. MYP_ERROR_INVALID_DATA for
 * anything else. */
MYP_MUST_CHECK uint32_t myp_read_parsec_salt(
    const uint8_t *packet,
    size_t len,
    uint32_t *iterations,
    myp_bytes *salt);

enum myp_ok_kind {
    MYP_OK_COMMON = 0,     /* ends a statement: begins with 00 */
    MYP_OK_TERMINATOR = 1, /* ends rows under MYP_CLIENT_DEPRECATE_EOF: fe; rows and id are 0 */
    MYP_OK_OLD_EOF = 2,    /* EOF_Packet, without that flag: fe, the warnings and the status */
    MYP_OK_STREAM_END = 3  /* EOF_Packet at the end of a replication stream */
};

/* Initializer: MYP_OK_INIT. */
typedef struct myp_ok {
    uint64_t affected_rows;
    uint64_t last_insert_id; /* 0 if there is none */
    myp_bytes info;
    myp_bytes session_state; /* a list of changes: myp_next_change reads one */
    size_t used;
    uint16_t status_flags;
    uint16_t warnings;
} myp_ok;
#define MYP_OK_INIT { 0, 0, MYP_BYTES_INIT, MYP_BYTES_INIT, 0, 0, 0 }

/* Reads OK_Packet or EOF_Packet of a kind of enum myp_ok_kind, by the agreed capabilities. The
 * layout is always that of MYP_CLIENT_PROTOCOL_41: status flags and warnings are read whatever the
 * flags are. MYP_ERROR_UNEXPECTED_EOF; MYP_ERROR_INVALID_DATA for another first byte or an invalid
 * length; MYP_ERROR_INVALID_INPUT for an unknown kind. */
MYP_MUST_CHECK uint32_t myp_read_ok(
    const uint8_t *packet,
    size_t len,
    uint32_t kind,
    uint32_t capabilities,
    myp_ok *out);

enum myp_session_track {
    MYP_SESSION_TRACK_SYSTEM_VARIABLES = 0,
    MYP_SESSION_TRACK_SCHEMA = 1,
    MYP_SESSION_TRACK_STATE_CHANGE = 2,
    MYP_SESSION_TRACK_GTIDS = 3,
    MYP_SESSION_TRACK_TRANSACTION_CHARACTERISTICS = 4,
    MYP_SESSION_TRACK_TRANSACTION_STATE = 5
};

/* Initializer: MYP_CHANGE_INIT. */
typedef struct myp_change {
    myp_bytes content;   /* the data, as it was sent */
    myp_bytes text;      /* the schema, GTIDs, transaction characteristics or state; else empty */
    myp_bytes variables; /* system variables: myp_next_variable reads one; else empty */
    uint8_t change_type; /* of enum myp_session_track */
    uint8_t is_tracked;  /* 1 for a state change that says that changes are tracked, else 0 */
} myp_change;
#define MYP_CHANGE_INIT { MYP_BYTES_INIT, MYP_BYTES_INIT, MYP_BYTES_INIT, 0, 0 }

/* Takes the next change off the front of *rest, the session_state of an OK packet. A state change
 * is read in both its forms: the length-encoded string of the protocol's pages, and the single byte
 * that servers send. GTIDs are the byte 0 and a length-encoded text. MYP_END at the end;
 * MYP_ERROR_UNEXPECTED_EOF; MYP_ERROR_INVALID_DATA for an unknown type, another encoding of GTIDs,
 * or an invalid length. */
MYP_MUST_CHECK uint32_t myp_next_change(
    myp_bytes *rest,
    myp_change *out);

/* Takes the next system variable off the front of *rest, the variables of a change. MYP_END at the
 * end; MYP_ERROR_UNEXPECTED_EOF; MYP_ERROR_INVALID_DATA for an invalid length. */
MYP_MUST_CHECK uint32_t myp_next_variable(
    myp_bytes *rest,
    myp_bytes *name,
    myp_bytes *value);

/* Initializer: MYP_ERROR_INIT. */
typedef struct myp_error {
    myp_bytes sql_state; /* 5 bytes, or empty if none was sent */
    myp_bytes message;   /* of a progress report: the name of the stage */
    size_t used;
    uint32_t progress;   /* of a progress report: thousandths of a percent; else 0, like stage */
    uint16_t code;       /* of a progress report: 0xffff */
    uint8_t is_progress; /* 1 for a progress report, else 0 */
    uint8_t stage;
    uint8_t max_stage;
} myp_error;
#define MYP_ERROR_INIT { MYP_BYTES_INIT, MYP_BYTES_INIT, 0, 0, 0, 0, 0, 0 }

/* Reads ERR_Packet, with an SQL state under MYP_CLIENT_PROTOCOL_41 (in place of the handshake, see
 * myp_read_handshake; after the login, pass the agreed flags); or, under MYP_CLIENT_PROGRESS,
 * a progress report of MariaDB. If MYP_MARIADB_CLIENT_PROGRESS is agreed on, which current servers
 * offer instead, pass MYP_CLIENT_PROGRESS too. MYP_ERROR_UNEXPECTED_EOF; MYP_ERROR_INVALID_DATA for
 * another first byte, or a state without '#'. */
MYP_MUST_CHECK uint32_t myp_read_error(
    const uint8_t *packet,
    size_t len,
    uint32_t capabilities,
    myp_error *out);

/* Reads a LOCAL INFILE request: fb, and the file's name. MYP_ERROR_INVALID_DATA for another first
 * byte; MYP_ERROR_UNEXPECTED_EOF for an empty packet. */
MYP_MUST_CHECK uint32_t myp_read_local_infile(
    const uint8_t *packet,
    size_t len,
    myp_bytes *file_name);

/* Initializer: MYP_STATEMENT_INIT, whose definitions follow. */
typedef struct myp_statement {
    uint32_t statement_id;
    uint16_t num_columns;
    uint16_t num_params;
    uint16_t warning_count;
    uint8_t metadata_follows; /* 0 if definitions are omitted, else 1 */
    size_t used;
} myp_statement;
#define MYP_STATEMENT_INIT { 0, 0, 0, 0, 1, 0 }

/* Reads COM_STMT_PREPARE_OK: 12 bytes, and under MYP_CLIENT_OPTIONAL_RESULTSET_METADATA a byte that
 * says whether definitions follow. num_params definitions follow, then num_columns; without
 * MYP_CLIENT_DEPRECATE_EOF an EOF_Packet ends each list that isn't empty. MYP_ERROR_UNEXPECTED_EOF;
 * MYP_ERROR_INVALID_DATA for another first byte than 00 (ff is an error). */
MYP_MUST_CHECK uint32_t myp_read_statement(
    const uint8_t *packet,
    size_t len,
    uint32_t capabilities,
    myp_statement *out);

/* Initializer: MYP_COLUMN_INIT. */
typedef struct myp_column {
    myp_bytes schema;
    myp_bytes table;        /* or its alias */
    myp_bytes org_table;
    myp_bytes name;         /* or its alias */
    myp_bytes org_name;
    myp_bytes metadata;     /* extended metadata: myp_next_column_attribute reads one attribute */
    uint32_t column_length; /* the maximum display width, in characters */
    uint16_t character_set; /* the number of a collation */
    uint16_t flags;         /* of enum myp_column_flag */
    uint8_t column_type;    /* of enum myp_type */
    uint8_t decimals;
    uint8_t has_metadata;   /* 1 if extended metadata were sent, else 0 */
    size_t used;
} myp_column;
#define MYP_COLUMN_INIT \
    { MYP_BYTES_INIT, MYP_BYTES_INIT, MYP_BYTES_INIT, MYP_BYTES_INIT, MYP_BYTES_INIT, \
      MYP_BYTES_INIT, 0, 0, 0, 0, 0, 0, 0 }

/* Reads Protocol::ColumnDefinition41, and under MYP_MARIADB_CLIENT_EXTENDED_METADATA the extended
 * metadata after the names; the attributes in it are not checked. MYP_ERROR_UNEXPECTED_EOF;
 * MYP_ERROR_INVALID_DATA for another catalog than def, an invalid length or an unknown type. */
MYP_MUST_CHECK uint32_t myp_read_column(
    const uint8_t *packet,
    size_t len,
    uint32_t mariadb_capabilities,
    myp_column *out);

/* Initializer: MYP_FIELD_LIST_COLUMN_INIT. */
typedef struct myp_field_list_column {
    myp_column column;         /* its `used` counts the default value too */
    myp_bytes default_value;   /* as text */
    uint8_t has_default_value; /* 0 if it is NULL, else 1 */
} myp_field_list_column;
#define MYP_FIELD_LIST_COLUMN_INIT { MYP_COLUMN_INIT, MYP_BYTES_INIT, 0 }

/* Reads a column that COM_FIELD_LIST returns (MYP_PACKET_FIELD_LIST_COLUMN): like myp_read_column,
 * with a default value. MYP_ERROR_UNEXPECTED_EOF if that is missing; MYP_ERROR_INVALID_DATA if its
 * length begins with ff. */
MYP_MUST_CHECK uint32_t myp_read_field_list_column(
    const uint8_t *packet,
    size_t len,
    uint32_t mariadb_capabilities,
    myp_field_list_column *out);

/* Servers may send other numbers. */
enum myp_column_attribute_kind {
    MYP_COLUMN_ATTRIBUTE_TYPE_NAME = 0,  /* the name of the type, such as uuid, inet6 or point */
    MYP_COLUMN_ATTRIBUTE_FORMAT_NAME = 1 /* the name of the values' format, such as json */
};

/* Initializer: MYP_COLUMN_ATTRIBUTE_INIT. */
typedef struct myp_column_attribute {
    myp_bytes text;
    uint8_t kind; /* of enum myp_column_attribute_kind */
} myp_column_attribute;
#define MYP_COLUMN_ATTRIBUTE_INIT { MYP_BYTES_INIT, 0 }

/* Takes the next attribute off the front of *rest, the metadata of a column. MYP_END at the end;
 * MYP_ERROR_UNEXPECTED_EOF; MYP_ERROR_INVALID_DATA for an invalid length. */
MYP_MUST_CHECK uint32_t myp_next_column_attribute(
    myp_bytes *rest,
    myp_column_attribute *out);

/* ---- rows */

enum myp_value_kind {
    MYP_VALUE_NULL,
    MYP_VALUE_BYTES,
    MYP_VALUE_INT,
    MYP_VALUE_UINT,
    MYP_VALUE_FLOAT,
    MYP_VALUE_DOUBLE,
    MYP_VALUE_DATE,
    MYP_VALUE_TIME,
    MYP_VALUE_DATE_WITH_OFFSET,
    MYP_VALUE_DEFAULT,
    MYP_VALUE_IGNORE
};

/* A value of a row, a parameter or an attribute. In a text row, values are bytes or NULL. In a
 * binary row the kind depends on the column's type: MYP_VALUE_INT for integers and years,
 * MYP_VALUE_UINT for an unsigned MYP_TYPE_LONGLONG, MYP_VALUE_FLOAT, MYP_VALUE_DOUBLE and
 * MYP_VALUE_TIME for those types, MYP_VALUE_DATE for DATE, DATETIME and TIMESTAMP, and
 * MYP_VALUE_BYTES for all others, including decimals.
 *
 * Initializer: MYP_VALUE_INIT, for each element of an array. The fields of each kind; others are
 * unchanged, and bytes are empty for all kinds but MYP_VALUE_BYTES:
 *
 *   MYP_VALUE_NULL     number, which is 0
 *   MYP_VALUE_BYTES    bytes
 *   MYP_VALUE_INT      number, in two's complement
 *   MYP_VALUE_UINT     number
 *   MYP_VALUE_FLOAT    number: the 32 bits
 *   MYP_VALUE_DOUBLE   number: the 64 bits
 *   MYP_VALUE_DATE     days (the year), month, day, hour, minute, second, micros; number and
 *                      is_negative are 0
 *   MYP_VALUE_TIME     is_negative, days, hour, minute, second, micros; number, month and day are 0
 *   MYP_VALUE_DATE_WITH_OFFSET
 *                      those of MYP_VALUE_DATE, and number: the offset from UTC in minutes, in
 *                      two's complement, from -32768 to 32767. Only parameters and attributes of
 *                      the types DATETIME and TIMESTAMP have it: calls that write rows and bulk
 *                      requests return MYP_ERROR_INVALID_INPUT for it
 *   MYP_VALUE_DEFAULT, MYP_VALUE_IGNORE
 *                      none: in a row of a bulk request that is written, the column's default, or
 *                      a column that is left unchanged. All other calls return
 *                      MYP_ERROR_INVALID_INPUT for them, and none sets them */
typedef struct myp_value {
    uint8_t kind; /* of enum myp_value_kind */
    uint8_t is_negative, month, day, hour, minute, second;
    uint8_t reserved;
    uint32_t micros;
    uint32_t days; /* of MYP_VALUE_DATE and MYP_VALUE_DATE_WITH_OFFSET the year */
    uint64_t number;
    myp_bytes bytes;
} myp_value;
#define MYP_VALUE_INIT { 0, 0, 0, 0, 0, 0, 0, 0, 0, 0, 0, MYP_BYTES_INIT }

static inline myp_value myp_null(void)
{
    myp_value value = MYP_VALUE_INIT;
    return value;
}

static inline myp_value myp_int(int64_t number)
{
    myp_value value = MYP_VALUE_INIT;
    value.kind = MYP_VALUE_INT, value.number = (uint64_t)number;
    return value;
}

static inline myp_value myp_uint(uint64_t number)
{
    myp_value value = MYP_VALUE_INIT;
    value.kind = MYP_VALUE_UINT, value.number = number;
    return value;
}

static inline myp_value myp_float(float number)
{
    union { float number; uint32_t bits; } either;
    myp_value value = MYP_VALUE_INIT;
    either.number = number;
    value.kind = MYP_VALUE_FLOAT, value.number = either.bits;
    return value;
}

static inline myp_value myp_double(double number)
{
    union { double number; uint64_t bits; } either;
    myp_value value = MYP_VALUE_INIT;
    either.number = number;
    value.kind = MYP_VALUE_DOUBLE, value.number = either.bits;
    return value;
}

static inline myp_value myp_date(uint16_t year, uint8_t month, uint8_t day)
{
    myp_value value = MYP_VALUE_INIT;
    value.kind = MYP_VALUE_DATE, value.days = year, value.month = month, value.day = day;
    return value;
}

static inline myp_value myp_datetime(
    uint16_t year,
    uint8_t month,
    uint8_t day,
    uint8_t hour,
    uint8_t minute,
    uint8_t second,
    uint32_t micros)
{
    myp_value value = myp_date(year, month, day);
    value.hour = hour, value.minute = minute, value.second = second, value.micros = micros;
    return value;
}

static inline myp_value myp_time(
    int is_negative,
    uint32_t days,
    uint8_t hour,
    uint8_t minute,
    uint8_t second,
    uint32_t micros)
{
    myp_value value = MYP_VALUE_INIT;
    value.kind = MYP_VALUE_TIME, value.is_negative = is_negative != 0, value.days = days;
    value.hour = hour, value.minute = minute, value.second = second, value.micros = micros;
    return value;
}

static inline myp_value myp_default(void)
{
    myp_value value = MYP_VALUE_INIT;
    value.kind = MYP_VALUE_DEFAULT;
    return value;
}

static inline myp_value myp_ignore(void)
{
    myp_value value = MYP_VALUE_INIT;
    value.kind = MYP_VALUE_IGNORE;
    return value;
}

/* Returns the number of MYP_VALUE_FLOAT and MYP_VALUE_DOUBLE. */
static inline double myp_as_double(const myp_value *value)
{
    union { uint64_t bits; double number; } twice;
    union { uint32_t bits; float number; } single;
    twice.bits = value->number, single.bits = (uint32_t)value->number;
    return value->kind == MYP_VALUE_FLOAT ? (double)single.number : twice.number;
}

static inline myp_value myp_text(const void *data, size_t len)
{
    myp_value value = MYP_VALUE_INIT;
    value.kind = MYP_VALUE_BYTES, value.bytes.data = (const uint8_t *)data, value.bytes.len = len;
    return value;
}

/* The type of a column, and whether its flags have MYP_COLUMN_FLAG_UNSIGNED (any number but 0). */
typedef struct myp_column_type {
    uint8_t column_type;
    uint8_t is_unsigned;
} myp_column_type;

/* Returns the type of a column for the rows of its result. */
static inline myp_column_type myp_type_of(const myp_column *column)
{
    myp_column_type type;
    type.column_type = column->column_type;
    type.is_unsigned = (column->flags & 32) != 0; /* MYP_COLUMN_FLAG_UNSIGNED */
    return type;
}

/* Reads ProtocolText::ResultsetRow into n values, one for each column; *used is the length of the
 * row. MYP_ERROR_UNEXPECTED_EOF and MYP_ERROR_INVALID_DATA: the values before the faulty one are
 * set, and the others unchanged. */
MYP_MUST_CHECK uint32_t myp_read_text_row(
    const uint8_t *packet,
    size_t len,
    myp_value *values,
    size_t n,
    size_t *used);

/* Converts the text of a value, decimal digits with an optional sign. MYP_ERROR_OUT_OF_RANGE for an
 * integer that *out can't hold; MYP_ERROR_INVALID_DATA for any other text, such as "" or "1.5". */
MYP_MUST_CHECK uint32_t myp_text_to_int(
    const uint8_t *text,
    size_t len,
    int64_t *out);

/* Like myp_text_to_int, for an unsigned integer. Any integer with a minus is
 * MYP_ERROR_OUT_OF_RANGE. */
MYP_MUST_CHECK uint32_t myp_text_to_uint(
    const uint8_t *text,
    size_t len,
    uint64_t *out);

/* Converts the text of a value, such as "-1.5e10", to the nearest double. MYP_ERROR_OUT_OF_RANGE
 * for a number beyond all doubles; MYP_ERROR_INVALID_DATA for any other text, such as "inf". */
MYP_MUST_CHECK uint32_t myp_text_to_double(
    const uint8_t *text,
    size_t len,
    double *out);

/* Reads ProtocolBinary::ResultsetRow into the first values, one for each column; *used is the
 * length of the row. MYP_ERROR_BUFFER_TOO_SMALL for fewer values than columns, and nothing is
 * changed; MYP_ERROR_UNEXPECTED_EOF and MYP_ERROR_INVALID_DATA: the values before the faulty one
 * are set, and the others unchanged. */
MYP_MUST_CHECK uint32_t myp_read_binary_row(
    const uint8_t *packet,
    size_t len,
    const myp_column_type *columns,
    size_t n_columns,
    myp_value *values,
    size_t n,
    size_t *used);

/* ---- what a client writes */

/* A command, by its first byte. The fields of each; when one is read, the others are empty or 0,
 * and when one is written they are ignored:
 *
 *   MYP_COM_QUERY, MYP_COM_STMT_PREPARE      text: the query, without its attributes
 *   MYP_COM_INIT_DB, MYP_COM_CREATE_DB, MYP_COM_DROP_DB
 *                                            text: the schema
 *   MYP_COM_FIELD_LIST                       text: the table; wildcard
 *   MYP_COM_REFRESH, MYP_COM_SHUTDOWN        number: a byte, read as 0 if a shutdown has none
 *   MYP_COM_SET_OPTION                       number: the option, 2 bytes
 *   MYP_COM_PROCESS_KILL                     number: the session
 *   MYP_COM_STMT_RESET, MYP_COM_STMT_CLOSE   number: the statement
 *   MYP_COM_STMT_FETCH                       number: the statement; rows
 *   MYP_COM_QUIT, MYP_COM_STATISTICS, MYP_COM_PROCESS_INFO, MYP_COM_DEBUG, MYP_COM_PING,
 *   MYP_COM_RESET_CONNECTION                 none
 *   MYP_COM_CHANGE_USER, MYP_COM_STMT_EXECUTE, MYP_COM_STMT_SEND_LONG_DATA,
 *   MYP_COM_STMT_BULK_EXECUTE, MYP_COM_REGISTER_SLAVE and the three dumps
 *                                            none: they have their own calls
 *   any other byte                           text: all bytes after it
 *
 * Initializer: MYP_COMMAND_INIT. */
typedef struct myp_command {
    myp_bytes text;
    myp_bytes wildcard; /* a LIKE pattern for the names of columns */
    size_t used;        /* ignored when a command is written */
    uint32_t number;
    uint32_t rows;
    uint8_t code;       /* of enum myp_com, or any other byte */
} myp_command;
#define MYP_COMMAND_INIT { MYP_BYTES_INIT, MYP_BYTES_INIT, 0, 0, 0, 0 }

/* Writes a command that consists of a text, a number or only its byte; under
 * MYP_CLIENT_QUERY_ATTRIBUTES a query is written by myp_write_query. A table's name ends at its
 * first zero. MYP_ERROR_INVALID_INPUT for a command with its own call, except MYP_COM_STMT_CLOSE,
 * for an unknown byte, and for a number that doesn't fit, and *written is 0;
 * MYP_ERROR_BUFFER_TOO_SMALL; MYP_ERROR_TOO_LARGE, and *written is 0. */
MYP_MUST_CHECK uint32_t myp_write_command(
    const myp_command *command,
    uint8_t *out,
    size_t size,
    size_t *written);

/* A parameter of an execution, or an attribute of a query or an execution. If all fields except the
 * value are zero, it has the type of the value's kind: LONGLONG, FLOAT, DOUBLE, VAR_STRING for
 * MYP_VALUE_BYTES, DATETIME, TIME or NULL. Initializer: MYP_PARAMETER_INIT. */
typedef struct myp_parameter {
    myp_value value;
    myp_bytes name;        /* sent with the type, under MYP_CLIENT_QUERY_ATTRIBUTES */
    uint8_t has_type;      /* not 0: it has the type below */
    uint8_t column_type;   /* of enum myp_type */
    uint8_t is_unsigned;   /* any number but 0 if it is */
    uint8_t is_sent_ahead; /* not 0: myp_write_long_data sent its data, and the value is ignored */
} myp_parameter;
#define MYP_PARAMETER_INIT { MYP_VALUE_INIT, MYP_BYTES_INIT, 0, 0, 0, 0 }

static inline myp_parameter myp_param(myp_value value)
{
    myp_parameter parameter = MYP_PARAMETER_INIT;
    parameter.value = value;
    return parameter;
}

static inline myp_parameter myp_query_attribute(const void *name, size_t len, myp_value value)
{
    myp_parameter attribute = MYP_PARAMETER_INIT;
    attribute.name.data = (const uint8_t *)name, attribute.name.len = len, attribute.value = value;
    return attribute;
}

/* Writes COM_QUERY by the agreed capabilities: under MYP_CLIENT_QUERY_ATTRIBUTES with these
 * attributes before its text, otherwise without any. MYP_ERROR_INVALID_INPUT if an attribute is
 * invalid, as in myp_write_execution, and *written is 0; MYP_ERROR_BUFFER_TOO_SMALL;
 * MYP_ERROR_TOO_LARGE, and *written is 0. */
MYP_MUST_CHECK uint32_t myp_write_query(
    const uint8_t *text,
    size_t len,
    const myp_parameter *attributes,
    size_t n_attributes,
    uint32_t capabilities,
    uint8_t *out,
    size_t size,
    size_t *written);

/* Writes COM_STMT_CLOSE, 5 bytes. MYP_ERROR_BUFFER_TOO_SMALL. */
MYP_MUST_CHECK uint32_t myp_write_close(
    uint32_t statement_id,
    uint8_t *out,
    size_t size,
    size_t *written);

/* Initializer: MYP_LONG_DATA_INIT. */
typedef struct myp_long_data {
    myp_bytes content;
    uint32_t statement_id;
    uint16_t param_index; /* the first parameter is 0 */
} myp_long_data;
#define MYP_LONG_DATA_INIT { MYP_BYTES_INIT, 0, 0 }

/* Writes COM_STMT_SEND_LONG_DATA: 7 bytes, and a part of one parameter.
 * MYP_ERROR_BUFFER_TOO_SMALL. */
MYP_MUST_CHECK uint32_t myp_write_long_data(
    const myp_long_data *part,
    uint8_t *out,
    size_t size,
    size_t *written);

/* The cursor that an execution opens over its rows: MYP_COM_STMT_FETCH fetches them. Servers only
 * open the read-only one. */
enum myp_cursor {
    MYP_CURSOR_NONE = 0,
    MYP_CURSOR_READ_ONLY = 1,
    MYP_CURSOR_FOR_UPDATE = 2,
    MYP_CURSOR_SCROLLABLE = 4
};

/* A flag of an execution, in addition to the cursor: under MYP_CLIENT_QUERY_ATTRIBUTES the number
 * of parameters and attributes follows, even if the statement has no parameters. */
enum myp_execution_flag {
    MYP_EXECUTION_PARAMETER_COUNT_AVAILABLE = 8
};

/* How an execution is sent: all zero without a cursor, and with types. Initializer:
 * MYP_EXECUTION_OPTIONS_INIT. */
typedef struct myp_execution_options {
    uint32_t iteration_count; /* servers ignore it; 0 is sent as 1 */
    uint8_t flags;            /* of enum myp_cursor */
    uint8_t omits_types;      /* not 0: the server knows the types from an earlier execution */
} myp_execution_options;
#define MYP_EXECUTION_OPTIONS_INIT { 0, 0, 0 }

/* Writes COM_STMT_EXECUTE by the agreed capabilities: under MYP_CLIENT_QUERY_ATTRIBUTES with the
 * attributes after the parameters, names, and MYP_EXECUTION_PARAMETER_COUNT_AVAILABLE; otherwise
 * without them.
 *
 * A value is encoded under its type: an integer has as many bytes as the type; MYP_VALUE_FLOAT
 * needs MYP_TYPE_FLOAT, and MYP_VALUE_DOUBLE MYP_TYPE_DOUBLE; a date needs MYP_TYPE_DATETIME or
 * MYP_TYPE_TIMESTAMP, or MYP_TYPE_DATE without a time of day; MYP_VALUE_TIME needs MYP_TYPE_TIME;
 * bytes need another type; MYP_VALUE_NULL takes any; MYP_VALUE_DATE_WITH_OFFSET needs
 * MYP_TYPE_DATETIME or MYP_TYPE_TIMESTAMP. Dates and times have their shortest form; the server
 * checks their ranges. The type of the value's kind always fits. If types are omitted, pass those
 * of the earlier execution; with attributes types are sent in any case.
 *
 * *as_long_data is 1 if all byte strings of the parameters are left out, short ones too, because
 * the request would exceed 16,777,215 bytes with them: first send each by myp_write_long_data, an
 * empty one as one empty part. Or send the large ones, set is_sent_ahead for them, and call again:
 * the others stay in the request.
 *
 * MYP_ERROR_INVALID_INPUT for an invalid value or type, or a value that its type can't encode, and
 * *written is 0 and *as_long_data unchanged; MYP_ERROR_BUFFER_TOO_SMALL, and *as_long_data is set;
 * MYP_ERROR_TOO_LARGE, and *written is 0. */
MYP_MUST_CHECK uint32_t myp_write_execution(
    uint32_t statement_id,
    const myp_parameter *params,
    size_t n_params,
    const myp_parameter *attributes,
    size_t n_attributes,
    const myp_execution_options *options,
    uint32_t capabilities,
    uint8_t *out,
    size_t size,
    size_t *written,
    uint8_t *as_long_data);

/* Flags of a bulk execution: myp_write_bulk takes the first, and sets the second. */
enum myp_bulk_flag {
    MYP_BULK_SEND_UNIT_RESULTS = 64,    /* each row has its own result */
    MYP_BULK_SEND_TYPES_TO_SERVER = 128 /* types are sent before the rows */
};

/* Writes COM_STMT_BULK_EXECUTE, which needs MYP_MARIADB_CLIENT_STMT_BULK_OPERATIONS, with as many
 * of the first rows as a request of max_allowed_packet - 4 bytes holds (the server's
 * @@max_allowed_packet), and their types; *rows is their number. A column is a parameter of the
 * statement, in the order of its question marks. The values are row after row. Each is encoded
 * under the type of its column, as in myp_write_execution; myp_default() and myp_ignore()
 * fit any type. MariaDB refuses MYP_TYPE_INT24 and MYP_TYPE_YEAR: send a MEDIUMINT as
 * MYP_TYPE_LONG, and a YEAR as MYP_TYPE_SHORT. Without values nothing is written. A buffer of
 * max_allowed_packet - 4 bytes is never too small.
 *
 * MYP_ERROR_INVALID_INPUT for no columns, values that are not whole rows, an unknown flag, an
 * invalid type, a value that is invalid or that its type can't encode, or max_allowed_packet below
 * 4; MYP_ERROR_ROW_TOO_LARGE if the first row exceeds a request: *written and *rows are 0, even if
 * the invalid row comes after others. Rows after those that fit are not checked.
 * MYP_ERROR_BUFFER_TOO_SMALL: *rows is 0. */
MYP_MUST_CHECK uint32_t myp_write_bulk(
    uint32_t statement_id,
    uint32_t flags,
    size_t max_allowed_packet,
    const myp_column_type *types,
    size_t columns,
    const myp_value *values,
    size_t n_values,
    uint8_t *out,
    size_t size,
    size_t *written,
    size_t *rows);

/* Begins COM_STMT_BULK_EXECUTE for rows that are added one by one: writes its head and the types,
 * as myp_write_bulk does. MYP_ERROR_INVALID_INPUT for no columns, an unknown flag, or an invalid
 * type, and *written is 0; MYP_ERROR_BUFFER_TOO_SMALL. */
MYP_MUST_CHECK uint32_t myp_begin_bulk(
    uint32_t statement_id,
    uint32_t flags,
    const myp_column_type *types,
    size_t columns,
    uint8_t *out,
    size_t size,
    size_t *written);

/* Adds a row after the first *used bytes of out, which myp_begin_bulk and this call wrote, and sets
 * both *used and *needed to the number of bytes with the row. This loop sends rows in the fewest
 * requests, from a buffer that grows (head is *used after myp_begin_bulk):
 *
 *     code = myp_add_bulk_row(types, k, row, k, max, out, size, &used, &needed);
 *     if (code == MYP_ERROR_BUFFER_TOO_SMALL)
 *         grow out to needed bytes, and try again
 *     else if (code == MYP_ERROR_ROW_TOO_LARGE && used > head)
 *         send used bytes of out, call myp_begin_bulk, and try again
 *
 * MYP_ERROR_ROW_TOO_LARGE if the request would exceed max_allowed_packet - 4 bytes: right after
 * myp_begin_bulk the row fits no request. MYP_ERROR_INVALID_INPUT if *used is less than a head or
 * more than size, there is not one value for each column, there are no columns, a value is invalid
 * or its type can't encode it, or max_allowed_packet is below 4. MYP_ERROR_BUFFER_TOO_SMALL:
 * *needed is the size that the buffer needs. After each error out and *used are unchanged. */
MYP_MUST_CHECK uint32_t myp_add_bulk_row(
    const myp_column_type *types,
    size_t columns,
    const myp_value *row,
    size_t n_values,
    size_t max_allowed_packet,
    uint8_t *out,
    size_t size,
    size_t *used,
    size_t *needed);

/* Returns the length of each row in a bulk request, for myp_bulk_cut_is_fewest: one byte for each
 * value, and the value's own length. The values are row after row; sizes[i] is the length of row i,
 * at most UINT64_MAX, and *rows is their number. MYP_ERROR_INVALID_INPUT for invalid types and
 * values, as in myp_write_bulk, and *rows is 0; MYP_ERROR_BUFFER_TOO_SMALL for fewer sizes than
 * rows. After both, the sizes are unchanged. */
MYP_MUST_CHECK uint32_t myp_bulk_row_sizes(
    const myp_column_type *types,
    size_t columns,
    const myp_value *values,
    size_t n_values,
    uint64_t *sizes,
    size_t n_sizes,
    size_t *rows);

/* All zero: any number of rows, and types only in the first request. Initializer:
 * MYP_BULK_RULE_INIT. */
typedef struct myp_bulk_rule {
    size_t max_rows;      /* the maximum number of rows in a request, if has_max_rows is not 0 */
    uint8_t has_max_rows;
    uint8_t types_always; /* not 0: every request sends types */
} myp_bulk_rule;
#define MYP_BULK_RULE_INIT { 0, 0, 0 }

/* Sets *yes to 1 if each request fits the limit and no division that fits has fewer requests, else
 * to 0. sizes[i] is the length of row i, as myp_bulk_row_sizes returns it; ends[j] is the number of
 * rows in the first j + 1 requests. Always MYP_OK. */
MYP_MUST_CHECK uint32_t myp_bulk_cut_is_fewest(
    const myp_bulk_rule *rule,
    uint64_t limit,
    size_t columns,
    const uint64_t *sizes,
    size_t n,
    const size_t *ends,
    size_t n_ends,
    uint8_t *yes);

/* Initializer: MYP_SSL_REQUEST_INIT. */
typedef struct myp_ssl_request {
    uint32_t capabilities; /* those of the login that follows, and MYP_CLIENT_SSL */
    uint32_t mariadb_capabilities;
    uint32_t max_packet_size;
    uint8_t character_set;
} myp_ssl_request;
#define MYP_SSL_REQUEST_INIT { 0, 0, 0, 0 }

/* Writes Protocol::SSLRequest, 32 bytes. MYP_ERROR_BUFFER_TOO_SMALL. */
MYP_MUST_CHECK uint32_t myp_write_ssl_request(
    const myp_ssl_request *request,
    uint8_t *out,
    size_t size,
    size_t *written);

/* An attribute of a connection. Initializer: MYP_CONNECTION_ATTRIBUTE_INIT. */
typedef struct myp_connection_attribute {
    myp_bytes name;
    myp_bytes value;
} myp_connection_attribute;
#define MYP_CONNECTION_ATTRIBUTE_INIT { MYP_BYTES_INIT, MYP_BYTES_INIT }

/* A login. Fields that were not sent are empty. When it is written, has_database,
 * has_auth_plugin_name and has_attributes (any number but 0) set or clear
 * MYP_CLIENT_CONNECT_WITH_DB, MYP_CLIENT_PLUGIN_AUTH and MYP_CLIENT_CONNECT_ATTRS. The caller sets
 * the other flags: at least MYP_CLIENT_PROTOCOL_41 and MYP_CLIENT_SECURE_CONNECTION, and only flags
 * of the handshake. Initializer: MYP_LOGIN_INIT. */
typedef struct myp_login {
    myp_bytes user;
    myp_bytes auth_response; /* 255 bytes of it without MYP_CLIENT_PLUGIN_AUTH_LENENC_CLIENT_DATA */
    myp_bytes database;
    myp_bytes auth_plugin_name;
    myp_bytes attributes; /* myp_next_connection_attribute reads one; ignored when it is written */
    size_t used;          /* ignored when it is written */
    uint32_t capabilities;
    uint32_t mariadb_capabilities;
    uint32_t max_packet_size;
    uint8_t collation;
    uint8_t has_database;         /* 1 if it was sent, else 0 */
    uint8_t has_auth_plugin_name; /* 1 if it was sent, else 0 */
    uint8_t has_attributes;       /* 1 if they were sent, else 0 */
    uint8_t has_zstd_level; /* 1 if it was sent: under MYP_CLIENT_ZSTD_COMPRESSION_ALGORITHM */
    uint8_t zstd_level;     /* the level of compression, 1 to 22 */
} myp_login;
#define MYP_LOGIN_INIT \
    { MYP_BYTES_INIT, MYP_BYTES_INIT, MYP_BYTES_INIT, MYP_BYTES_INIT, MYP_BYTES_INIT, \
      0, 0, 0, 0, 0, 0, 0, 0, 0, 0 }

/* Writes Protocol::HandshakeResponse41 with these attributes, if has_attributes is set; of two with
 * the same name the later one. Names end at their first zero. MYP_ERROR_INVALID_INPUT for
 * attributes that are sent and are not UTF-8, and *written is 0; MYP_ERROR_BUFFER_TOO_SMALL;
 * MYP_ERROR_TOO_LARGE, and *written is 0. Takes quadratic time in the number of attributes. */
MYP_MUST_CHECK uint32_t myp_write_login(
    const myp_login *login,
    const myp_connection_attribute *attributes,
    size_t n_attributes,
    uint8_t *out,
    size_t size,
    size_t *written);

/* A change of user. Fields that were not sent are empty or 0. Initializer: MYP_CHANGE_USER_INIT,
 * with a character set. */
typedef struct myp_change_user {
    myp_bytes user;
    myp_bytes auth_response; /* at most 255 bytes: later ones are not written */
    myp_bytes database;
    myp_bytes auth_plugin_name;
    myp_bytes attributes; /* myp_next_connection_attribute reads one; ignored when it is written */
    size_t used;          /* ignored when it is written */
    uint16_t character_set;       /* the number of a collation */
    uint8_t has_character_set;    /* 0 if it isn't sent: then plugin and attributes aren't either */
    uint8_t has_auth_plugin_name; /* 1 if it was sent, else 0; ignored when it is written */
    uint8_t has_attributes;       /* 1 if they were sent, else 0; ignored when it is written */
} myp_change_user;
#define MYP_CHANGE_USER_INIT \
    { MYP_BYTES_INIT, MYP_BYTES_INIT, MYP_BYTES_INIT, MYP_BYTES_INIT, MYP_BYTES_INIT, \
      0, 0, 1, 0, 0 }

/* Writes COM_CHANGE_USER by the agreed capabilities: the plugin's name under
 * MYP_CLIENT_PLUGIN_AUTH, the attributes under MYP_CLIENT_CONNECT_ATTRS. Names end at their first
 * zero. The errors are those of myp_write_login. */
MYP_MUST_CHECK uint32_t myp_write_change_user(
    const myp_change_user *change,
    const myp_connection_attribute *attributes,
    size_t n_attributes,
    uint32_t capabilities,
    uint8_t *out,
    size_t size,
    size_t *written);

/* Writes the request for the server's RSA key of caching_sha2_password, 1 byte.
 * MYP_ERROR_BUFFER_TOO_SMALL. */
MYP_MUST_CHECK uint32_t myp_write_public_key_request(
    uint8_t *out,
    size_t size,
    size_t *written);

/* Writes the response of mysql_native_password to a nonce: 20 bytes, or none for an empty password.
 * This is no packet, but the auth_response of a login, or the payload after a switch. The nonce has
 * 20 bytes: pass the plugin_data of a switch without the zero at its end.
 * MYP_ERROR_BUFFER_TOO_SMALL. */
MYP_MUST_CHECK uint32_t myp_scramble_native(
    const uint8_t *password,
    size_t len,
    const uint8_t *nonce,
    size_t nonce_len,
    uint8_t *out,
    size_t size,
    size_t *written);

/* Writes the response of caching_sha2_password to a nonce of 20 bytes: 32 bytes, or none for an
 * empty password. This is the auth_response of a login, or the payload after a switch. The server
 * answers with MYP_PACKET_AUTH_MORE_DATA of one byte: 03 if it knows the password (fast
 * authentication; an OK packet follows), or 04 for full authentication: over TLS or a Unix socket
 * send the password and a zero; otherwise request the key with myp_write_public_key_request, and
 * send the password and a zero, XORed with the nonce (repeated; after a switch, the switch's) and
 * encrypted by RSA-OAEP with SHA-1 and the key that myp_read_public_key returns.
 * MYP_ERROR_BUFFER_TOO_SMALL. */
MYP_MUST_CHECK uint32_t myp_scramble_sha2(
    const uint8_t *password,
    size_t len,
    const uint8_t *nonce,
    size_t nonce_len,
    uint8_t *out,
    size_t size,
    size_t *written);

/* ---- replication */

/* What a replica reports of itself: SHOW REPLICAS lists it. Initializer:
 * MYP_REGISTER_REPLICA_INIT. */
typedef struct myp_register_replica {
    myp_bytes hostname;
    myp_bytes user;
    myp_bytes password;
    size_t used;               /* ignored when it is written */
    uint32_t server_id;
    uint32_t replication_rank; /* servers ignore it */
    uint32_t master_id;        /* usually 0 */
    uint16_t port;
} myp_register_replica;
#define MYP_REGISTER_REPLICA_INIT { MYP_BYTES_INIT, MYP_BYTES_INIT, MYP_BYTES_INIT, 0, 0, 0, 0, 0 }

/* Writes COM_REGISTER_SLAVE, with at most 255 bytes of hostname, user and password.
 * MYP_ERROR_BUFFER_TOO_SMALL. */
MYP_MUST_CHECK uint32_t myp_write_register_replica(
    const myp_register_replica *replica,
    uint8_t *out,
    size_t size,
    size_t *written);

/* Initializer: MYP_DUMP_INIT. */
typedef struct myp_dump {
    myp_bytes file_name;
    uint32_t server_id;
    uint32_t position;
    uint16_t flags; /* of enum myp_dump_flag */
} myp_dump;
#define MYP_DUMP_INIT { MYP_BYTES_INIT, 0, 0, 0 }

/* Writes COM_BINLOG_DUMP. MYP_ERROR_BUFFER_TOO_SMALL. */
MYP_MUST_CHECK uint32_t myp_write_dump(
    const myp_dump *dump,
    uint8_t *out,
    size_t size,
    size_t *written);

/* Initializer: MYP_TABLE_DUMP_INIT. */
typedef struct myp_table_dump {
    myp_bytes database;
    myp_bytes table;
    size_t used; /* ignored when it is written */
} myp_table_dump;
#define MYP_TABLE_DUMP_INIT { MYP_BYTES_INIT, MYP_BYTES_INIT, 0 }

/* Writes COM_TABLE_DUMP, with at most 255 bytes of each name. MYP_ERROR_BUFFER_TOO_SMALL. */
MYP_MUST_CHECK uint32_t myp_write_table_dump(
    const myp_table_dump *dump,
    uint8_t *out,
    size_t size,
    size_t *written);

/* Initializer: MYP_SEMI_SYNC_ACK_INIT. */
typedef struct myp_semi_sync_ack {
    myp_bytes file_name;
    uint64_t position; /* after the event */
} myp_semi_sync_ack;
#define MYP_SEMI_SYNC_ACK_INIT { MYP_BYTES_INIT, 0 }

/* Writes the acknowledgement of semi-synchronous replication: the position after the event, and the
 * name of the binary log. MYP_ERROR_BUFFER_TOO_SMALL. */
MYP_MUST_CHECK uint32_t myp_write_semi_sync_ack(
    const myp_semi_sync_ack *ack,
    uint8_t *out,
    size_t size,
    size_t *written);

enum myp_stream_kind {
    MYP_STREAM_EVENT = 0,
    MYP_STREAM_END = 1,  /* an EOF_Packet: myp_read_ok of MYP_OK_STREAM_END reads it */
    MYP_STREAM_ERROR = 2 /* an ERR_Packet: myp_read_error reads it */
};

/* A packet of the stream that a dump returns. Initializer: MYP_STREAM_PACKET_INIT. */
typedef struct myp_stream_packet {
    myp_bytes content; /* an event, with its checksum if the log has one; else the whole packet */
    uint8_t kind;      /* of enum myp_stream_kind */
    uint8_t wants_ack; /* 1 if the event must be acknowledged, else 0 */
} myp_stream_packet;
#define MYP_STREAM_PACKET_INIT { MYP_BYTES_INIT, 0, 0 }

/* Reads a packet of the stream by its first byte: 00 an event, fe the end, ff an error.
 * is_semi_sync is any number but 0 if semi-synchronous replication is agreed on: then each event
 * follows ef and a byte whose lowest bit asks for an acknowledgement. MYP_ERROR_UNEXPECTED_EOF for
 * an empty packet or a missing byte; MYP_ERROR_INVALID_DATA for another byte than 00 or ef. */
MYP_MUST_CHECK uint32_t myp_read_stream_packet(
    const uint8_t *packet,
    size_t len,
    uint8_t is_semi_sync,
    myp_stream_packet *out);

/* Transactions of one server: from start, before end. Initializer: MYP_INTERVAL_INIT. */
typedef struct myp_interval {
    uint64_t start;
    uint64_t end;
} myp_interval;
#define MYP_INTERVAL_INIT { 0, 0 }

/* The transactions of one server, or those with one tag. Initializer: MYP_SID_INIT. */
typedef struct myp_sid {
    const myp_interval *intervals;
    size_t n_intervals;
    uint8_t uuid[16];
    uint8_t tag[32];    /* tag_length bytes: a lowercase letter or '_', then these and digits */
    uint8_t tag_length; /* 0 without a tag */
} myp_sid;
#define MYP_SID_INIT { NULL, 0, { 0 }, { 0 }, 0 }

/* Reads the text of a sid: UUID:1-5:7, or with a tag UUID:tag:1-5:7. Its intervals are stored in
 * the first elements of the array, to which out->intervals then points, and *count is their number.
 * MYP_ERROR_INVALID_DATA for another text: *count is 0; MYP_ERROR_BUFFER_TOO_SMALL for n less than
 * *count. After both nothing else is changed. */
MYP_MUST_CHECK uint32_t myp_sid_from_text(
    const uint8_t *text,
    size_t len,
    myp_sid *out,
    myp_interval *intervals,
    size_t n,
    size_t *count);

/* Writes the text of a GTID set, in the form of @@gtid_executed: sids are separated by a comma and
 * a newline, and a sid with the uuid of the one before it and a tag is written only as the tag and
 * the intervals. The text has no zero at its end. MYP_ERROR_INVALID_INPUT for an invalid tag, and
 * *written is 0; MYP_ERROR_BUFFER_TOO_SMALL; MYP_ERROR_TOO_LARGE, and *written is 0. */
MYP_MUST_CHECK uint32_t myp_sids_to_text(
    const myp_sid *sids,
    size_t n,
    uint8_t *out,
    size_t size,
    size_t *written);

/* Initializer: MYP_GTID_DUMP_INIT. */
typedef struct myp_gtid_dump {
    myp_bytes file_name;
    myp_bytes sids;    /* n_sids of them: myp_next_sid reads one; ignored when it is written */
    uint64_t n_sids;   /* ignored when it is written */
    uint64_t position;
    size_t used;       /* ignored when it is written */
    uint32_t server_id;
    uint16_t flags;    /* of enum myp_dump_flag */
    uint8_t is_tagged; /* 1 if the sids are in the form with tags; ignored when it is written */
} myp_gtid_dump;
#define MYP_GTID_DUMP_INIT { MYP_BYTES_INIT, MYP_BYTES_INIT, 0, 0, 0, 0, 0, 0 }

/* Writes COM_BINLOG_DUMP_GTID: the replica has the transactions of these sids.
 * MYP_DUMP_THROUGH_GTID is set if and only if there is a sid, whatever the flags are.
 * MYP_ERROR_INVALID_INPUT for an invalid tag, and *written is 0; MYP_ERROR_BUFFER_TOO_SMALL;
 * MYP_ERROR_TOO_LARGE, and *written is 0. */
MYP_MUST_CHECK uint32_t myp_write_gtid_dump(
    const myp_gtid_dump *dump,
    const myp_sid *sids,
    size_t n,
    uint8_t *out,
    size_t size,
    size_t *written);

/* Writes COM_BINLOG_DUMP_GTID with the sids of the text of a GTID set, in the form of
 * @@gtid_executed; flags as in myp_write_gtid_dump. myp_read_gtid_dump returns the same sids.
 * MYP_ERROR_INVALID_DATA for another text, and *written is 0; MYP_ERROR_BUFFER_TOO_SMALL;
 * MYP_ERROR_TOO_LARGE, and *written is 0. */
MYP_MUST_CHECK uint32_t myp_gtid_dump_from_text(
    const myp_gtid_dump *dump,
    const uint8_t *text,
    size_t len,
    uint8_t *out,
    size_t size,
    size_t *written);

/* ---- what a server reads */

/* Reads Protocol::SSLRequest, the first 32 bytes of a login. It is a request for TLS if
 * capabilities has MYP_CLIENT_SSL. MYP_ERROR_UNEXPECTED_EOF for fewer bytes. */
MYP_MUST_CHECK uint32_t myp_read_ssl_request(
    const uint8_t *packet,
    size_t len,
    myp_ssl_request *out);

/* Reads Protocol::HandshakeResponse41, by the capabilities in it. MYP_ERROR_UNEXPECTED_EOF if a
 * field is truncated; MYP_ERROR_INVALID_DATA for an invalid length. */
MYP_MUST_CHECK uint32_t myp_read_login(
    const uint8_t *packet,
    size_t len,
    myp_login *out);

/* Takes the next attribute off the front of *rest, the attributes of a login. If a name is
 * repeated, its last value counts. MYP_END at the end; MYP_ERROR_UNEXPECTED_EOF;
 * MYP_ERROR_INVALID_DATA for an invalid length. */
MYP_MUST_CHECK uint32_t myp_next_connection_attribute(
    myp_bytes *rest,
    myp_bytes *name,
    myp_bytes *value);

/* Reads the request for the server's RSA key of caching_sha2_password, the byte 02.
 * MYP_ERROR_INVALID_DATA for another byte; MYP_ERROR_UNEXPECTED_EOF for an empty packet. */
MYP_MUST_CHECK uint32_t myp_read_public_key_request(
    const uint8_t *packet,
    size_t len,
    size_t *used);

/* Reads COM_CHANGE_USER by the agreed capabilities: the plugin under MYP_CLIENT_PLUGIN_AUTH, the
 * attributes under MYP_CLIENT_CONNECT_ATTRS. MYP_ERROR_UNEXPECTED_EOF if a field is truncated;
 * MYP_ERROR_INVALID_DATA for another first byte or an invalid length. */
MYP_MUST_CHECK uint32_t myp_read_change_user(
    const uint8_t *packet,
    size_t len,
    uint32_t capabilities,
    myp_change_user *out);

/* Reads a command by the agreed capabilities: a query has attributes under
 * MYP_CLIENT_QUERY_ATTRIBUTES. Commands with their own calls are checked too, except what follows
 * the head of an execution. MYP_ERROR_UNEXPECTED_EOF for an empty packet or a truncated field;
 * MYP_ERROR_INVALID_DATA for an invalid length. */
MYP_MUST_CHECK uint32_t myp_read_command(
    const uint8_t *packet,
    size_t len,
    uint32_t capabilities,
    myp_command *out);

/* Reads an attribute of a COM_QUERY under MYP_CLIENT_QUERY_ATTRIBUTES, with the type that was sent:
 * the first is at place 0. Each call reads the query from its start. MYP_END if there are fewer;
 * MYP_ERROR_UNEXPECTED_EOF and MYP_ERROR_INVALID_DATA if the packet is not a valid query of this
 * form. */
MYP_MUST_CHECK uint32_t myp_read_query_attribute(
    const uint8_t *packet,
    size_t len,
    size_t place,
    myp_parameter *out);

/* Reads COM_STMT_CLOSE, 5 bytes. MYP_ERROR_UNEXPECTED_EOF; MYP_ERROR_INVALID_DATA for another first
 * byte. */
MYP_MUST_CHECK uint32_t myp_read_close(
    const uint8_t *packet,
    size_t len,
    uint32_t *statement_id);

/* Reads COM_STMT_SEND_LONG_DATA: 7 bytes, and a part of one parameter. A server joins the parts of
 * a parameter. MYP_ERROR_UNEXPECTED_EOF for fewer than 7 bytes; MYP_ERROR_INVALID_DATA for another
 * first byte. */
MYP_MUST_CHECK uint32_t myp_read_long_data(
    const uint8_t *packet,
    size_t len,
    myp_long_data *out);

/* The first 10 bytes of an execution. Initializer: MYP_EXECUTION_HEAD_INIT. */
typedef struct myp_execution_head {
    size_t used;              /* 10 */
    uint32_t statement_id;
    uint32_t iteration_count; /* 1; servers ignore it */
    uint8_t flags;            /* of enum myp_cursor and enum myp_execution_flag */
} myp_execution_head;
#define MYP_EXECUTION_HEAD_INIT { 0, 0, 0, 0 }

/* Reads the first 10 bytes of COM_STMT_EXECUTE, which say which statement it executes.
 * MYP_ERROR_UNEXPECTED_EOF; MYP_ERROR_INVALID_DATA for another first byte. */
MYP_MUST_CHECK uint32_t myp_read_execution_head(
    const uint8_t *packet,
    size_t len,
    myp_execution_head *out);

/* A parameter, as a server knows it before an execution. */
typedef struct myp_bound_param {
    uint8_t column_type;   /* of enum myp_type: the one sent earlier, if types are omitted */
    uint8_t is_unsigned;   /* any number but 0 if it is */
    uint8_t is_sent_ahead; /* not 0: COM_STMT_SEND_LONG_DATA sent it, and no value is read */
} myp_bound_param;

/* Initializer: MYP_EXECUTION_INIT. */
typedef struct myp_execution {
    size_t used;
    size_t attributes;   /* their number: myp_read_execution_attribute reads one */
    uint32_t statement_id;
    uint8_t flags;       /* as in myp_execution_head */
    uint8_t sends_types; /* 1 if types were sent, else 0 */
} myp_execution;
#define MYP_EXECUTION_INIT { 0, 0, 0, 0, 0 }

/* Reads COM_STMT_EXECUTE by the agreed capabilities into the first values and types, one of each
 * for each parameter of the statement; under MYP_CLIENT_QUERY_ATTRIBUTES attributes may follow. A
 * server keeps the types for executions that omit them. A parameter that was sent ahead is
 * MYP_VALUE_NULL.
 *
 * MYP_ERROR_BUFFER_TOO_SMALL for fewer values or types than parameters: nothing is changed.
 * MYP_ERROR_UNEXPECTED_EOF; MYP_ERROR_INVALID_DATA, also for a count below that of the parameters,
 * and for attributes without types: the values before the faulty one and their types are set, and
 * the others are unchanged. */
MYP_MUST_CHECK uint32_t myp_read_execution(
    const uint8_t *packet,
    size_t len,
    uint32_t capabilities,
    const myp_bound_param *params,
    size_t n_params,
    myp_value *values,
    size_t n_values,
    myp_column_type *types,
    size_t n_types,
    myp_execution *out);

/* Reads an attribute of an execution of these parameters, with the type that was sent: the first is
 * at place 0. Each call reads the execution from its start. MYP_END if there are fewer;
 * MYP_ERROR_UNEXPECTED_EOF and MYP_ERROR_INVALID_DATA as in myp_read_execution. */
MYP_MUST_CHECK uint32_t myp_read_execution_attribute(
    const uint8_t *packet,
    size_t len,
    uint32_t capabilities,
    const myp_bound_param *params,
    size_t n_params,
    size_t place,
    myp_parameter *out);

/* Reads the names of an execution's parameters into the first elements, one for each. They are sent
 * with the types, under MYP_CLIENT_QUERY_ATTRIBUTES; a name that isn't sent is empty.
 *
 * MYP_ERROR_BUFFER_TOO_SMALL for fewer elements than parameters: nothing is changed.
 * MYP_ERROR_UNEXPECTED_EOF and MYP_ERROR_INVALID_DATA as in myp_read_execution: the names of the
 * parameters before the faulty one are set, and the others unchanged. */
MYP_MUST_CHECK uint32_t myp_read_execution_names(
    const uint8_t *packet,
    size_t len,
    uint32_t capabilities,
    const myp_bound_param *params,
    size_t n_params,
    myp_bytes *names,
    size_t n_names);

/* Initializer: MYP_BULK_HEAD_INIT. */
typedef struct myp_bulk_head {
    myp_bytes rows;        /* all after the head: the types, if they were sent, and the rows */
    uint32_t statement_id;
    uint16_t flags;        /* of enum myp_bulk_flag */
} myp_bulk_head;
#define MYP_BULK_HEAD_INIT { MYP_BYTES_INIT, 0, 0 }

/* Reads the first 7 bytes of COM_STMT_BULK_EXECUTE. MYP_ERROR_UNEXPECTED_EOF;
 * MYP_ERROR_INVALID_DATA for another first byte. */
MYP_MUST_CHECK uint32_t myp_read_bulk_head(
    const uint8_t *packet,
    size_t len,
    myp_bulk_head *out);

/* Takes the types of the columns off the front of *rest, the rows of a head with
 * MYP_BULK_SEND_TYPES_TO_SERVER; without that flag those of an earlier execution apply.
 * MYP_ERROR_UNEXPECTED_EOF, and no type is set; MYP_ERROR_INVALID_DATA for an unknown type, and the
 * types before it are set. After both *rest and the other types are unchanged. */
MYP_MUST_CHECK uint32_t myp_read_bulk_types(
    myp_bytes *rest,
    myp_column_type *types,
    size_t columns);

/* How a value of a bulk row is sent: except for MYP_INDICATOR_NONE, the value is MYP_VALUE_NULL.
 * The last two are written as myp_default() and myp_ignore(). */
enum myp_indicator {
    MYP_INDICATOR_NONE = 0,    /* a value follows */
    MYP_INDICATOR_NULL = 1,
    MYP_INDICATOR_DEFAULT = 2, /* the column's default */
    MYP_INDICATOR_IGNORE = 3   /* the column is unchanged */
};

/* Takes the next row of a bulk execution off the front of *rest, which begins after the types, into
 * the first values and indicators, one of each for each column. MYP_END at the end, and
 * MYP_ERROR_BUFFER_TOO_SMALL for fewer values or indicators than columns: nothing is changed.
 * MYP_ERROR_UNEXPECTED_EOF; MYP_ERROR_INVALID_DATA for an unknown indicator, a type that no value
 * has, and bytes without columns: the values before the faulty one and their indicators are set,
 * and *rest and the others are unchanged. */
MYP_MUST_CHECK uint32_t myp_next_bulk_row(
    myp_bytes *rest,
    const myp_column_type *types,
    size_t columns,
    myp_value *values,
    size_t n_values,
    uint8_t *indicators,
    size_t n_indicators);

/* ---- what a server writes
 *
 * A struct that a reader filled can be written again: `used` is ignored. Each call may return
 * MYP_ERROR_BUFFER_TOO_SMALL, and MYP_ERROR_TOO_LARGE, for example if one string is passed in many
 * places. After MYP_ERROR_INVALID_INPUT and MYP_ERROR_TOO_LARGE *written is 0. */

/* Writes OK_Packet or EOF_Packet of a kind of enum myp_ok_kind. An empty info or session state is
 * omitted, and so is a field that the kind or the capabilities do not have. MYP_ERROR_INVALID_INPUT
 * for an unknown kind, and for a session state that would be written although status_flags lacks
 * MYP_SERVER_SESSION_STATE_CHANGED. */
MYP_MUST_CHECK uint32_t myp_write_ok(
    const myp_ok *packet,
    uint32_t kind,
    uint32_t capabilities,
    uint8_t *out,
    size_t size,
    size_t *written);

/* Writes a change of the session: its type, and its length-encoded data. The session_state of an OK
 * packet is a list of changes. MYP_ERROR_INVALID_INPUT for a type above 5. */
MYP_MUST_CHECK uint32_t myp_write_change(
    uint8_t type,
    const uint8_t *content,
    size_t len,
    uint8_t *out,
    size_t size,
    size_t *written);

/* Writes ERR_Packet, with an SQL state if there is one: clients with MYP_CLIENT_PROTOCOL_41 expect
 * it, others don't. MYP_ERROR_INVALID_INPUT for a state of other than 5 or 0 bytes. */
MYP_MUST_CHECK uint32_t myp_write_error(
    const myp_error *error,
    uint8_t *out,
    size_t size,
    size_t *written);

/* Writes a progress report of MariaDB, for a client with MYP_CLIENT_PROGRESS: stage, max_stage,
 * progress, and message. MYP_ERROR_INVALID_INPUT for a progress above 16,777,215. */
MYP_MUST_CHECK uint32_t myp_write_progress(
    const myp_error *report,
    uint8_t *out,
    size_t size,
    size_t *written);

/* Writes COM_STMT_PREPARE_OK, and under MYP_CLIENT_OPTIONAL_RESULTSET_METADATA the byte
 * metadata_follows. MYP_ERROR_INVALID_INPUT if metadata_follows is 0 without that flag. */
MYP_MUST_CHECK uint32_t myp_write_statement(
    const myp_statement *statement,
    uint32_t capabilities,
    uint8_t *out,
    size_t size,
    size_t *written);

/* Writes the number of columns, and under MYP_CLIENT_OPTIONAL_RESULTSET_METADATA or
 * MYP_MARIADB_CLIENT_CACHE_METADATA a byte that says whether definitions follow.
 * MYP_ERROR_INVALID_INPUT if metadata_follows is 0 without these flags. */
MYP_MUST_CHECK uint32_t myp_write_column_count(
    const myp_column_count *columns,
    uint32_t capabilities,
    uint32_t mariadb_capabilities,
    uint8_t *out,
    size_t size,
    size_t *written);

/* Writes Protocol::ColumnDefinition41, with extended metadata if has_metadata is not 0: clients
 * with MYP_MARIADB_CLIENT_EXTENDED_METADATA expect them, others don't. MYP_ERROR_INVALID_INPUT for
 * an unknown type. */
MYP_MUST_CHECK uint32_t myp_write_column(
    const myp_column *column,
    uint8_t *out,
    size_t size,
    size_t *written);

/* Writes a column that COM_FIELD_LIST returns, with its default value, or NULL if has_default_value
 * is 0. MYP_ERROR_INVALID_INPUT for an unknown type. */
MYP_MUST_CHECK uint32_t myp_write_field_list_column(
    const myp_field_list_column *column,
    uint8_t *out,
    size_t size,
    size_t *written);

/* Writes an attribute of a column: its kind, and its length-encoded text. The metadata of a column
 * are a list of attributes. */
MYP_MUST_CHECK uint32_t myp_write_column_attribute(
    const myp_column_attribute *attribute,
    uint8_t *out,
    size_t size,
    size_t *written);

/* Writes ProtocolText::ResultsetRow of n values. MYP_ERROR_INVALID_INPUT for a value other than
 * bytes and NULL. */
MYP_MUST_CHECK uint32_t myp_write_text_row(
    const myp_value *values,
    size_t n,
    uint8_t *out,
    size_t size,
    size_t *written);

/* Writes ProtocolBinary::ResultsetRow: one value for each column, of the kind that the column is
 * read as. A signed column takes an unsigned number below 2^63 too. MYP_ERROR_INVALID_INPUT for a
 * value that is invalid or that its column's type can't encode, such as a number beyond the
 * column's width or a MYP_VALUE_DATE with a time of day in a column of DATE, and if n is not
 * n_columns. */
MYP_MUST_CHECK uint32_t myp_write_binary_row(
    const myp_column_type *columns,
    size_t n_columns,
    const myp_value *values,
    size_t n,
    uint8_t *out,
    size_t size,
    size_t *written);

/* Writes Protocol::HandshakeV10. MYP_ERROR_INVALID_INPUT for a zero in the version or the name; for
 * a scramble_1 of other than 8 bytes, or a scramble_2 of other than 13, or with
 * MYP_CLIENT_PLUGIN_AUTH 13 to 247; and for a scramble_2 or a name without its capability. */
MYP_MUST_CHECK uint32_t myp_write_handshake(
    const myp_handshake *handshake,
    uint8_t *out,
    size_t size,
    size_t *written);

/* Writes Protocol::AuthSwitchRequest. MYP_ERROR_INVALID_INPUT for a name with a zero. */
MYP_MUST_CHECK uint32_t myp_write_auth_switch(
    const myp_auth_switch *request,
    uint8_t *out,
    size_t size,
    size_t *written);

/* Writes Protocol::AuthNextFactorRequest, to a client with MYP_CLIENT_MULTI_FACTOR_AUTHENTICATION.
 * MYP_ERROR_INVALID_INPUT for a name with a zero. */
MYP_MUST_CHECK uint32_t myp_write_auth_next_factor(
    const myp_auth_switch *request,
    uint8_t *out,
    size_t size,
    size_t *written);

/* Writes Protocol::OldAuthSwitchRequest, 1 byte. */
MYP_MUST_CHECK uint32_t myp_write_old_auth_switch(
    uint8_t *out,
    size_t size,
    size_t *written);

/* Writes Protocol::AuthMoreData: 01, and the plugin's data. */
MYP_MUST_CHECK uint32_t myp_write_auth_more_data(
    const uint8_t *plugin_data,
    size_t len,
    uint8_t *out,
    size_t size,
    size_t *written);

/* Writes the response to a request for the server's public key: 01, and the key as PEM. */
MYP_MUST_CHECK uint32_t myp_write_public_key(
    const uint8_t *rsa_key,
    size_t len,
    uint8_t *out,
    size_t size,
    size_t *written);

/* Writes a LOCAL INFILE request: fb, and the file's name. */
MYP_MUST_CHECK uint32_t myp_write_local_infile(
    const uint8_t *file_name,
    size_t len,
    uint8_t *out,
    size_t size,
    size_t *written);

/* Writes a packet of the stream that a dump returns; is_semi_sync as in myp_read_stream_packet.
 * MYP_ERROR_INVALID_INPUT for an unknown kind, an end that does not begin with fe, and an error
 * that does not begin with ff. */
MYP_MUST_CHECK uint32_t myp_write_stream_packet(
    const myp_stream_packet *packet,
    uint8_t is_semi_sync,
    uint8_t *out,
    size_t size,
    size_t *written);

/* ---- what a source of binary logs reads */

/* Reads COM_BINLOG_DUMP: 11 bytes, and the file's name. MYP_ERROR_UNEXPECTED_EOF for fewer than 11
 * bytes; MYP_ERROR_INVALID_DATA for another first byte. */
MYP_MUST_CHECK uint32_t myp_read_dump(
    const uint8_t *packet,
    size_t len,
    myp_dump *out);

/* Reads COM_TABLE_DUMP. MYP_ERROR_UNEXPECTED_EOF if a field is truncated; MYP_ERROR_INVALID_DATA
 * for another first byte. */
MYP_MUST_CHECK uint32_t myp_read_table_dump(
    const uint8_t *packet,
    size_t len,
    myp_table_dump *out);

/* Reads the acknowledgement of semi-synchronous replication: ef, the position in 8 bytes, and the
 * log's name. MYP_ERROR_UNEXPECTED_EOF for fewer than 9 bytes; MYP_ERROR_INVALID_DATA for another
 * first byte. */
MYP_MUST_CHECK uint32_t myp_read_semi_sync_ack(
    const uint8_t *packet,
    size_t len,
    myp_semi_sync_ack *out);

/* Reads COM_REGISTER_SLAVE. MYP_ERROR_UNEXPECTED_EOF if a field is truncated;
 * MYP_ERROR_INVALID_DATA for another first byte. */
MYP_MUST_CHECK uint32_t myp_read_register_replica(
    const uint8_t *packet,
    size_t len,
    myp_register_replica *out);

/* Reads COM_BINLOG_DUMP_GTID, and checks each sid. Bytes after the last sid of the block are
 * ignored. MYP_ERROR_UNEXPECTED_EOF if a field or a sid is truncated; MYP_ERROR_INVALID_DATA for
 * another first byte or an invalid tag. */
MYP_MUST_CHECK uint32_t myp_read_gtid_dump(
    const uint8_t *packet,
    size_t len,
    myp_gtid_dump *out);

/* Writes the text of the GTID set of a COM_BINLOG_DUMP_GTID, as myp_sids_to_text does. The errors
 * are those of myp_read_gtid_dump, and *written is 0; MYP_ERROR_BUFFER_TOO_SMALL;
 * MYP_ERROR_TOO_LARGE, and *written is 0. */
MYP_MUST_CHECK uint32_t myp_gtid_dump_to_text(
    const uint8_t *packet,
    size_t len,
    uint8_t *out,
    size_t size,
    size_t *written);

/* A sid of a packet. Initializer: MYP_SID_PLACES_INIT. */
typedef struct myp_sid_places {
    myp_bytes tag;       /* empty without a tag */
    myp_bytes intervals; /* n_intervals of them: myp_next_interval reads one */
    uint64_t n_intervals;
    uint8_t uuid[16];
} myp_sid_places;
#define MYP_SID_PLACES_INIT { MYP_BYTES_INIT, MYP_BYTES_INIT, 0, { 0 } }

/* Takes the next sid off the front of *rest, the sids of a dump; is_tagged is the dump's. MYP_END
 * at the end; MYP_ERROR_UNEXPECTED_EOF; MYP_ERROR_INVALID_DATA for an invalid tag. */
MYP_MUST_CHECK uint32_t myp_next_sid(
    myp_bytes *rest,
    uint8_t is_tagged,
    myp_sid_places *out);

/* Takes the next interval off the front of *rest, the intervals of a sid. Any two numbers are
 * valid. MYP_END at the end; MYP_ERROR_UNEXPECTED_EOF for fewer than 16 bytes. */
MYP_MUST_CHECK uint32_t myp_next_interval(
    myp_bytes *rest,
    myp_interval *out);

/* ---- numbers of the protocol */

enum myp_type {
    MYP_TYPE_DECIMAL = 0,
    MYP_TYPE_TINY = 1,
    MYP_TYPE_SHORT = 2,
    MYP_TYPE_LONG = 3,
    MYP_TYPE_FLOAT = 4,
    MYP_TYPE_DOUBLE = 5,
    MYP_TYPE_NULL = 6,
    MYP_TYPE_TIMESTAMP = 7,
    MYP_TYPE_LONGLONG = 8,
    MYP_TYPE_INT24 = 9,
    MYP_TYPE_DATE = 10,
    MYP_TYPE_TIME = 11,
    MYP_TYPE_DATETIME = 12,
    MYP_TYPE_YEAR = 13,
    MYP_TYPE_NEWDATE = 14,
    MYP_TYPE_VARCHAR = 15,
    MYP_TYPE_BIT = 16,
    MYP_TYPE_TIMESTAMP2 = 17,
    MYP_TYPE_DATETIME2 = 18,
    MYP_TYPE_TIME2 = 19,
    MYP_TYPE_VECTOR = 242,
    MYP_TYPE_JSON = 245,
    MYP_TYPE_NEWDECIMAL = 246,
    MYP_TYPE_ENUM = 247,
    MYP_TYPE_SET = 248,
    MYP_TYPE_TINY_BLOB = 249,
    MYP_TYPE_MEDIUM_BLOB = 250,
    MYP_TYPE_LONG_BLOB = 251,
    MYP_TYPE_BLOB = 252,
    MYP_TYPE_VAR_STRING = 253,
    MYP_TYPE_STRING = 254,
    MYP_TYPE_GEOMETRY = 255
};

/* Other bits may be set in flags of every kind. */
enum myp_column_flag {
    MYP_COLUMN_FLAG_NOT_NULL = 1,
    MYP_COLUMN_FLAG_PRI_KEY = 2,
    MYP_COLUMN_FLAG_UNIQUE_KEY = 4,
    MYP_COLUMN_FLAG_MULTIPLE_KEY = 8,
    MYP_COLUMN_FLAG_BLOB = 16,
    MYP_COLUMN_FLAG_UNSIGNED = 32,
    MYP_COLUMN_FLAG_ZEROFILL = 64,
    MYP_COLUMN_FLAG_BINARY = 128,
    MYP_COLUMN_FLAG_ENUM = 256,
    MYP_COLUMN_FLAG_AUTO_INCREMENT = 512,
    MYP_COLUMN_FLAG_TIMESTAMP = 1024,
    MYP_COLUMN_FLAG_SET = 2048,
    MYP_COLUMN_FLAG_NO_DEFAULT_VALUE = 4096,
    MYP_COLUMN_FLAG_ON_UPDATE_NOW = 8192,
    MYP_COLUMN_FLAG_PART_KEY = 16384,
    MYP_COLUMN_FLAG_NUM = 32768
};

/* MYP_COM_QUIT, MYP_COM_STMT_CLOSE and MYP_COM_STMT_SEND_LONG_DATA have no response. */
enum myp_com {
    MYP_COM_QUIT = 1,
    MYP_COM_INIT_DB = 2,
    MYP_COM_QUERY = 3,
    MYP_COM_FIELD_LIST = 4,
    MYP_COM_CREATE_DB = 5,
    MYP_COM_DROP_DB = 6,
    MYP_COM_REFRESH = 7,
    MYP_COM_SHUTDOWN = 8,
    MYP_COM_STATISTICS = 9,
    MYP_COM_PROCESS_INFO = 10,
    MYP_COM_PROCESS_KILL = 12,
    MYP_COM_DEBUG = 13,
    MYP_COM_PING = 14,
    MYP_COM_CHANGE_USER = 17,
    MYP_COM_BINLOG_DUMP = 18,
    MYP_COM_TABLE_DUMP = 19,
    MYP_COM_REGISTER_SLAVE = 21,
    MYP_COM_STMT_PREPARE = 22,
    MYP_COM_STMT_EXECUTE = 23,
    MYP_COM_STMT_SEND_LONG_DATA = 24,
    MYP_COM_STMT_CLOSE = 25,
    MYP_COM_STMT_RESET = 26,
    MYP_COM_SET_OPTION = 27,
    MYP_COM_STMT_FETCH = 28,
    MYP_COM_BINLOG_DUMP_GTID = 30,
    MYP_COM_RESET_CONNECTION = 31,
    MYP_COM_CLONE = 32,
    MYP_COM_SUBSCRIBE_GROUP_REPLICATION_STREAM = 33,
    MYP_COM_STMT_BULK_EXECUTE = 250,
    MYP_COM_MULTI = 254
};

/* Both sides agree on the flags that both have. A client sets no flag that
 * myp_supported_capabilities() lacks, such as compression. It is an upper bound, not a default:
 * some of its flags change what queries mean (MYP_CLIENT_FOUND_ROWS, MYP_CLIENT_IGNORE_SPACE), and
 * a login with MYP_CLIENT_SSL is taken for a request for TLS. Choose the flags that you want, at
 * most those of the handshake. What each flag changes, and which call reads or writes it:
 *
 *   MYP_CLIENT_PROTOCOL_41                  an error's SQL state: myp_read_error
 *   MYP_CLIENT_SESSION_TRACK                an OK packet's info and session state: myp_read_ok,
 *                                           myp_write_ok
 *   MYP_CLIENT_DEPRECATE_EOF                an OK packet ends rows, and nothing ends definitions:
 *                                           myp_next_packet
 *   MYP_CLIENT_OPTIONAL_RESULTSET_METADATA  a byte after a column count, and after a statement:
 *                                           myp_read_column_count, myp_read_statement
 *   MYP_CLIENT_QUERY_ATTRIBUTES             attributes of queries and executions: myp_write_query,
 *                                           myp_write_execution, myp_read_execution
 *   MYP_CLIENT_PROGRESS                     progress reports before a response: myp_read_error
 *   MYP_CLIENT_MULTI_FACTOR_AUTHENTICATION  a further factor: myp_read_auth_next_factor
 *   MYP_CLIENT_PLUGIN_AUTH, MYP_CLIENT_CONNECT_ATTRS, MYP_CLIENT_CONNECT_WITH_DB,
 *   MYP_CLIENT_PLUGIN_AUTH_LENENC_CLIENT_DATA
 *                                           logins and changes of user: myp_write_login,
 *                                           myp_write_change_user
 *   MYP_CLIENT_SSL                          TLS of the caller, after myp_write_ssl_request
 *   MYP_CLIENT_LOCAL_FILES                  requests for a file: myp_read_local_infile
 *   MYP_MARIADB_CLIENT_EXTENDED_METADATA    columns: myp_read_column, myp_read_field_list_column
 *   MYP_MARIADB_CLIENT_CACHE_METADATA       a byte after a column count: myp_read_column_count
 *   MYP_MARIADB_CLIENT_STMT_BULK_OPERATIONS bulk requests: myp_write_bulk; with _BULK_UNIT_RESULTS
 *                                           each row may have its own result
 *
 * A client of MariaDB leaves MYP_CLIENT_LONG_PASSWORD out: with it the server takes the client for
 * one of MySQL, and ignores mariadb_capabilities. */
enum myp_client_flag {
    MYP_CLIENT_LONG_PASSWORD = 1,
    MYP_CLIENT_FOUND_ROWS = 2,
    MYP_CLIENT_LONG_FLAG = 4,
    MYP_CLIENT_CONNECT_WITH_DB = 8,
    MYP_CLIENT_NO_SCHEMA = 16,
    MYP_CLIENT_COMPRESS = 32,
    MYP_CLIENT_ODBC = 64,
    MYP_CLIENT_LOCAL_FILES = 128,
    MYP_CLIENT_IGNORE_SPACE = 256,
    MYP_CLIENT_PROTOCOL_41 = 512,
    MYP_CLIENT_INTERACTIVE = 1024,
    MYP_CLIENT_SSL = 2048,
    MYP_CLIENT_IGNORE_SIGPIPE = 4096,
    MYP_CLIENT_TRANSACTIONS = 8192,
    MYP_CLIENT_RESERVED = 16384,
    MYP_CLIENT_SECURE_CONNECTION = 32768,
    MYP_CLIENT_MULTI_STATEMENTS = 1 << 16,
    MYP_CLIENT_MULTI_RESULTS = 1 << 17,
    MYP_CLIENT_PS_MULTI_RESULTS = 1 << 18,
    MYP_CLIENT_PLUGIN_AUTH = 1 << 19,
    MYP_CLIENT_CONNECT_ATTRS = 1 << 20,
    MYP_CLIENT_PLUGIN_AUTH_LENENC_CLIENT_DATA = 1 << 21,
    MYP_CLIENT_CAN_HANDLE_EXPIRED_PASSWORDS = 1 << 22,
    MYP_CLIENT_SESSION_TRACK = 1 << 23,
    MYP_CLIENT_DEPRECATE_EOF = 1 << 24,
    MYP_CLIENT_OPTIONAL_RESULTSET_METADATA = 1 << 25,
    MYP_CLIENT_ZSTD_COMPRESSION_ALGORITHM = 1 << 26,
    MYP_CLIENT_QUERY_ATTRIBUTES = 1 << 27,
    MYP_CLIENT_MULTI_FACTOR_AUTHENTICATION = 1 << 28,
    MYP_CLIENT_PROGRESS = 1 << 29,
    MYP_CLIENT_SSL_VERIFY_SERVER_CERT = 1 << 30
};

enum myp_mariadb_client_flag {
    MYP_MARIADB_CLIENT_PROGRESS = 1,
    MYP_MARIADB_CLIENT_COM_MULTI = 2,
    MYP_MARIADB_CLIENT_STMT_BULK_OPERATIONS = 4,
    MYP_MARIADB_CLIENT_EXTENDED_METADATA = 8,
    MYP_MARIADB_CLIENT_CACHE_METADATA = 16,
    MYP_MARIADB_CLIENT_BULK_UNIT_RESULTS = 32
};

/* Return the flags that both sides may agree on so that these calls read and write every packet of
 * the session. */
uint32_t myp_supported_capabilities(void);
uint32_t myp_supported_mariadb_capabilities(void);

enum myp_server_flag {
    MYP_SERVER_STATUS_IN_TRANS = 1,
    MYP_SERVER_STATUS_AUTOCOMMIT = 2,
    MYP_SERVER_MORE_RESULTS_EXISTS = 8,
    MYP_SERVER_STATUS_NO_GOOD_INDEX_USED = 16,
    MYP_SERVER_STATUS_NO_INDEX_USED = 32,
    MYP_SERVER_STATUS_CURSOR_EXISTS = 64,
    MYP_SERVER_STATUS_LAST_ROW_SENT = 128,
    MYP_SERVER_STATUS_DB_DROPPED = 256,
    MYP_SERVER_STATUS_NO_BACKSLASH_ESCAPES = 512,
    MYP_SERVER_STATUS_METADATA_CHANGED = 1024,
    MYP_SERVER_QUERY_WAS_SLOW = 2048,
    MYP_SERVER_PS_OUT_PARAMS = 4096,
    MYP_SERVER_STATUS_IN_TRANS_READONLY = 8192,
    MYP_SERVER_SESSION_STATE_CHANGED = 16384,
    MYP_SERVER_STATUS_ANSI_QUOTES = 32768
};

enum myp_dump_flag {
    MYP_DUMP_NON_BLOCK = 1,
    MYP_DUMP_THROUGH_POSITION = 2,
    MYP_DUMP_THROUGH_GTID = 4
};

#ifdef __cplusplus
}
#endif

#endif
