/* What a reader gives of a packet is written, and read again as the same. A handshake alone may be refused. */
#include "hostile.h"

static uint8_t sent[4096];
#define SAME(a, b) ((a).len == (b).len && !memcmp((a).data, (b).data, (a).len))

static void must(const char *what, int good)
{
    written++;
    if (!good)
        lost(what, 0);
}

static void write_replies(const uint8_t *p, size_t len, uint32_t caps)
{
    size_t n = 0;
    for (uint32_t k = 0; k < 4; k++) {
        myp_ok o = MYP_OK_INIT, a = MYP_OK_INIT;
        if (!myp_read_ok(p, len, k, caps, &o))
            must("ok, written", !myp_write_ok(&o, k, caps, sent, sizeof sent, &n) && !myp_read_ok(sent, n, k, caps, &a) && a.affected_rows == o.affected_rows
                && a.last_insert_id == o.last_insert_id && a.status_flags == o.status_flags && a.warnings == o.warnings && SAME(a.info, o.info)
                && SAME(a.session_state, o.session_state) && a.used == n);
    }
    myp_error e = MYP_ERROR_INIT, a = MYP_ERROR_INIT;
    if (!myp_read_error(p, len, caps, &e))
        must("error, written", !(e.is_progress ? myp_write_progress(&e, sent, sizeof sent, &n) : myp_write_error(&e, sent, sizeof sent, &n))
            && !myp_read_error(sent, n, caps, &a) && a.is_progress == e.is_progress && a.code == e.code && a.stage == e.stage && a.max_stage == e.max_stage
            && a.progress == e.progress && SAME(a.sql_state, e.sql_state) && SAME(a.message, e.message) && a.used == n);
    myp_bytes file = MYP_BYTES_INIT, b = MYP_BYTES_INIT;
    if (!myp_read_local_infile(p, len, &file))
        must("file, written", !myp_write_local_infile(file.data, file.len, sent, sizeof sent, &n) && !myp_read_local_infile(sent, n, &b) && SAME(file, b));
}

static void write_columns(const uint8_t *p, size_t len, uint32_t caps)
{
    size_t n = 0;
    myp_statement s = MYP_STATEMENT_INIT, t = MYP_STATEMENT_INIT;
    if (!myp_read_statement(p, len, caps, &s))
        must("statement, written", !myp_write_statement(&s, caps, sent, sizeof sent, &n) && !myp_read_statement(sent, n, caps, &t) && t.statement_id == s.statement_id
            && t.num_columns == s.num_columns && t.num_params == s.num_params && t.warning_count == s.warning_count && t.metadata_follows == s.metadata_follows && t.used == n);
    myp_column_count c = MYP_COLUMN_COUNT_INIT, d = MYP_COLUMN_COUNT_INIT;
    if (!myp_read_column_count(p, len, caps, caps, &c))
        must("count, written", !myp_write_column_count(&c, caps, caps, sent, sizeof sent, &n)
            && !myp_read_column_count(sent, n, caps, caps, &d) && d.count == c.count && d.metadata_follows == c.metadata_follows && d.used == n);
    myp_column k = MYP_COLUMN_INIT, l = MYP_COLUMN_INIT;
    if (!myp_read_column(p, len, 0, &k))
        must("column, written", !myp_write_column(&k, sent, sizeof sent, &n) && !myp_read_column(sent, n, 0, &l) && SAME(l.schema, k.schema) && SAME(l.table, k.table)
            && SAME(l.org_table, k.org_table) && SAME(l.name, k.name) && SAME(l.org_name, k.org_name) && l.column_length == k.column_length
            && l.character_set == k.character_set && l.flags == k.flags && l.column_type == k.column_type && l.decimals == k.decimals && l.used == n);
}

static void write_extended(const uint8_t *p, size_t len, uint32_t caps)
{
    size_t n = 0;
    myp_column x = MYP_COLUMN_INIT, y = MYP_COLUMN_INIT;
    if (!myp_read_column(p, len, caps, &x))
        must("extended column, written", !myp_write_column(&x, sent, sizeof sent, &n) && !myp_read_column(sent, n, caps, &y)
            && SAME(y.schema, x.schema) && SAME(y.table, x.table) && SAME(y.org_table, x.org_table)
            && SAME(y.name, x.name) && SAME(y.org_name, x.org_name) && y.column_length == x.column_length
            && y.character_set == x.character_set && y.flags == x.flags && y.column_type == x.column_type
            && y.decimals == x.decimals && y.has_metadata == x.has_metadata && SAME(y.metadata, x.metadata) && y.used == n);
    myp_field_list_column f = MYP_FIELD_LIST_COLUMN_INIT, g = MYP_FIELD_LIST_COLUMN_INIT;
    if (!myp_read_field_list_column(p, len, caps, &f))
        must("field list column, written", !myp_write_field_list_column(&f, sent, sizeof sent, &n) && !myp_read_field_list_column(sent, n, caps, &g)
            && SAME(g.column.name, f.column.name) && SAME(g.column.metadata, f.column.metadata)
            && SAME(g.default_value, f.default_value) && g.has_default_value == f.has_default_value && g.column.used == n);
    myp_bytes rest = { p, len };
    myp_column_attribute t = MYP_COLUMN_ATTRIBUTE_INIT;
    if (len && !myp_next_column_attribute(&rest, &t)) {
        myp_column_attribute u = MYP_COLUMN_ATTRIBUTE_INIT;
        must("attribute, written", !myp_write_column_attribute(&t, sent, sizeof sent, &n) && (rest.data = sent, rest.len = n, !myp_next_column_attribute(&rest, &u))
            && u.kind == t.kind && SAME(u.text, t.text) && rest.len == 0);
    }
}

static void write_connection(const uint8_t *p, size_t len)
{
    size_t n = 0;
    myp_handshake h = MYP_HANDSHAKE_INIT, i = MYP_HANDSHAKE_INIT;
    if (!myp_read_handshake(p, len, &h)) {
        uint32_t code = myp_write_handshake(&h, sent, sizeof sent, &n);
        must("handshake, written", code == MYP_ERROR_INVALID_INPUT || (!code && !myp_read_handshake(sent, n, &i) && SAME(i.server_version, h.server_version)
            && SAME(i.scramble_1, h.scramble_1) && SAME(i.scramble_2, h.scramble_2) && SAME(i.auth_plugin_name, h.auth_plugin_name)
            && i.connection_id == h.connection_id && i.capabilities == h.capabilities && i.mariadb_capabilities == h.mariadb_capabilities
            && i.status_flags == h.status_flags && i.protocol_version == h.protocol_version && i.default_collation == h.default_collation && i.used == n));
    }
    myp_auth_switch w = MYP_AUTH_SWITCH_INIT, x = MYP_AUTH_SWITCH_INIT;
    if (!myp_read_auth_switch(p, len, &w))
        must("switch, written", !myp_write_auth_switch(&w, sent, sizeof sent, &n) && !myp_read_auth_switch(sent, n, &x) && SAME(x.plugin_name, w.plugin_name) && SAME(x.plugin_data, w.plugin_data));
    myp_bytes more = MYP_BYTES_INIT, b = MYP_BYTES_INIT;
    if (!myp_read_auth_more_data(p, len, &more))
        must("more data, written", !myp_write_auth_more_data(more.data, more.len, sent, sizeof sent, &n) && !myp_read_auth_more_data(sent, n, &b) && SAME(more, b));
}

static int same_values(const myp_value *v, const myp_value *w, size_t n)
{
    for (size_t i = 0; i < n; i++) {
        if (v[i].kind != w[i].kind || v[i].number != w[i].number || !SAME(v[i].bytes, w[i].bytes))
            return 0;
        if (v[i].kind >= MYP_VALUE_DATE && (v[i].days != w[i].days || v[i].month != w[i].month || v[i].day != w[i].day || v[i].hour != w[i].hour || v[i].minute != w[i].minute || v[i].second != w[i].second || v[i].micros != w[i].micros))
            return 0;
    }
    return 1;
}

static void write_rows(const uint8_t *p, size_t len)
{
    static const myp_value no_value = MYP_VALUE_INIT;
    myp_value v[8], w[8];
    size_t columns = varied() % 8, used = 0, n = 0;
    for (size_t i = 0; i < 8; i++)
        v[i] = w[i] = no_value;
    if (!myp_read_text_row(p, len, v, columns, &used))
        must("text row, written", !myp_write_text_row(v, columns, sent, sizeof sent, &n) && !myp_read_text_row(sent, n, w, columns, &used) && same_values(v, w, columns) && used == n);
    columns = columns > 6 ? 6 : columns;
    if (!myp_read_binary_row(p, len, kinds, columns, v, 8, &used))
        must("binary row, written", !myp_write_binary_row(kinds, columns, v, columns, sent, sizeof sent, &n) && !myp_read_binary_row(sent, n, kinds, columns, w, 8, &used) && same_values(v, w, columns) && used == n);
}

static void write_commands(const uint8_t *p, size_t len)
{
    size_t n = 0;
    myp_command c = MYP_COMMAND_INIT, d = MYP_COMMAND_INIT;
    if (!myp_read_command(p, len, 0, &c) && !myp_write_command(&c, sent, sizeof sent, &n))
        must("command, written", !myp_read_command(sent, n, 0, &d) && d.code == c.code && SAME(d.text, c.text) && SAME(d.wildcard, c.wildcard) && d.number == c.number
            && d.rows == c.rows && d.used == n);
}

static void write_query(const uint8_t *p, size_t len)
{
    size_t n = 0, count = 0;
    myp_command c = MYP_COMMAND_INIT, d = MYP_COMMAND_INIT;
    myp_parameter a[8], b = MYP_PARAMETER_INIT;
    for (size_t i = 0; i < 8; i++)
        a[i] = b;
    while (count < 8 && !myp_read_query_attribute(p, len, count, &a[count]))
        count++;
    if (myp_read_query_attribute(p, len, count, &b) != MYP_END || myp_read_command(p, len, MYP_CLIENT_QUERY_ATTRIBUTES, &c))
        return;
    must("query, written", !myp_write_query(c.text.data, c.text.len, a, count, MYP_CLIENT_QUERY_ATTRIBUTES, sent, sizeof sent, &n)
        && !myp_read_command(sent, n, MYP_CLIENT_QUERY_ATTRIBUTES, &d) && SAME(d.text, c.text) && myp_read_query_attribute(sent, n, count, &b) == MYP_END);
    for (size_t i = 0; i < count; b.value.number = 0, i++)
        must("attribute of a query, written", !myp_read_query_attribute(sent, n, i, &b) && SAME(b.name, a[i].name) && same_values(&b.value, &a[i].value, 1));
}

static void write_replication(const uint8_t *p, size_t len)
{
    size_t n = 0;
    uint8_t is_semi_sync = (uint8_t)(varied() % 2);
    myp_stream_packet s = MYP_STREAM_PACKET_INIT, t = MYP_STREAM_PACKET_INIT;
    if (!myp_read_stream_packet(p, len, is_semi_sync, &s))
        must("stream packet, written", !myp_write_stream_packet(&s, is_semi_sync, sent, sizeof sent, &n) && !myp_read_stream_packet(sent, n, is_semi_sync, &t)
            && t.kind == s.kind && t.wants_ack == s.wants_ack && SAME(t.content, s.content));
    myp_table_dump d = MYP_TABLE_DUMP_INIT, e = MYP_TABLE_DUMP_INIT;
    if (!myp_read_table_dump(p, len, &d))
        must("table dump, written", !myp_write_table_dump(&d, sent, sizeof sent, &n)
            && !myp_read_table_dump(sent, n, &e) && SAME(e.database, d.database) && SAME(e.table, d.table) && e.used == n);
    myp_semi_sync_ack a = MYP_SEMI_SYNC_ACK_INIT, b = MYP_SEMI_SYNC_ACK_INIT;
    if (!myp_read_semi_sync_ack(p, len, &a))
        must("acknowledgement, written", !myp_write_semi_sync_ack(&a, sent, sizeof sent, &n)
            && !myp_read_semi_sync_ack(sent, n, &b) && b.position == a.position && SAME(b.file_name, a.file_name));
}

void read_again(const uint8_t *p, size_t len, uint32_t capabilities)
{
    write_replication(p, len);
    write_commands(p, len);
    write_query(p, len);
    write_replies(p, len, capabilities);
    write_columns(p, len, capabilities);
    write_extended(p, len, capabilities);
    write_connection(p, len);
    write_rows(p, len);
}
