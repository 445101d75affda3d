/* What a server reads. */
#include "hostile.h"

/* the attributes of a query, to the last or to a fault */
static void read_query(const uint8_t *p, size_t len)
{
    myp_parameter t;
    memset(&t, 7, sizeof t), t.name = t.value.bytes = nothing;
    for (size_t i = 0; i < 3; i++) {
        myp_parameter before;
        memcpy(&before, &t, sizeof t);
        uint32_t code = myp_read_query_attribute(p, len, i, &t);
        done++;
        if (code) {
            refused++;
            if (code > MYP_ERROR_INVALID_DATA && code != MYP_END)
                lost("myp_read_query_attribute", code);
            changed += memcmp(&before, &t, sizeof t) != 0;
            break;
        }
        place("name", t.name), place("value", t.value.bytes);
    }
}

/* what a server reads */
static void read_served(const uint8_t *p, size_t len)
{
    uint32_t id = 7;
    CALL(id, myp_read_close(p, len, &id));
    myp_command c;
    memset(&c, 7, sizeof c), c.text = c.wildcard = nothing;
    CALL(c, myp_read_command(p, len, capabilities, &c));
    place("text", c.text), place("wildcard", c.wildcard);
    myp_long_data l;
    memset(&l, 7, sizeof l), l.content = nothing;
    CALL(l, myp_read_long_data(p, len, &l));
    place("long data", l.content);
    myp_ssl_request q;
    memset(&q, 7, sizeof q);
    CALL(q, myp_read_ssl_request(p, len, &q));
    myp_login r;
    memset(&r, 7, sizeof r), r.user = r.auth_response = r.database = r.auth_plugin_name = r.attributes = nothing;
    CALL(r, myp_read_login(p, len, &r));
    place("user", r.user), place("response", r.auth_response), place("database", r.database), place("plugin", r.auth_plugin_name), place("attributes", r.attributes);
    myp_change_user u;
    memset(&u, 7, sizeof u), u.user = u.auth_response = u.database = u.auth_plugin_name = u.attributes = nothing;
    CALL(u, myp_read_change_user(p, len, capabilities, &u));
    place("user", u.user), place("response", u.auth_response), place("database", u.database), place("plugin", u.auth_plugin_name), place("attributes", u.attributes);
    struct { myp_bytes rest, name, value; } a = { r.attributes, nothing, nothing };
    while (a.rest.len) {
        size_t left = a.rest.len;
        CALL(a, myp_next_connection_attribute(&a.rest, &a.name, &a.value));
        place("name", a.name), place("value", a.value), place("rest", a.rest);
        if (a.rest.len >= left) { /* the attributes of a login that was read are good */
            printf("an attribute of a login was refused\n"), bad++;
            break;
        }
    }
    a.rest.data = p, a.rest.len = len, a.name = a.value = nothing;
    if (len)
        CALL(a, myp_next_connection_attribute(&a.rest, &a.name, &a.value));
    place("name", a.name), place("value", a.value), place("rest", a.rest);
    myp_execution_head h;
    memset(&h, 7, sizeof h);
    CALL(h, myp_read_execution_head(p, len, &h));
    myp_bulk_head b;
    memset(&b, 7, sizeof b), b.rows = nothing;
    CALL(b, myp_read_bulk_head(p, len, &b));
    place("rows", b.rows);
    static const myp_value no_value = MYP_VALUE_INIT;
    myp_bound_param params[6];
    myp_value v[6];
    myp_column_type t[6] = { { 0, 0 } };
    for (size_t i = 0; i < 6; i++)
        v[i] = no_value, params[i].column_type = kinds[varied() % 6].column_type, params[i].is_unsigned = varied() % 2, params[i].is_sent_ahead = varied() % 4 == 0;
    myp_execution e;
    memset(&e, 7, sizeof e);
    uint32_t attributes = varied() % 2 ? MYP_CLIENT_QUERY_ATTRIBUTES : 0;
    size_t params_there = varied() % 7;
    CALL(e, myp_read_execution(p, len, attributes, params, params_there, v, 6, t, 6, &e));
    for (size_t i = 0; i < 6; i++)
        place("parameter", v[i].bytes);
    myp_parameter attribute;
    memset(&attribute, 7, sizeof attribute), attribute.name = nothing, attribute.value = no_value;
    if (e.attributes)
        CALL(attribute, myp_read_execution_attribute(p, len, attributes, params, params_there, 0, &attribute));
    place("attribute", attribute.name), place("attribute", attribute.value.bytes);
    myp_bytes names[6];
    for (size_t i = 0; i < 6; i++)
        names[i] = nothing;
    uint32_t named = myp_read_execution_names(p, len, attributes, params, params_there, names, 6);
    done++, refused += named != 0;
    if (named > MYP_ERROR_INVALID_DATA)
        lost("myp_read_execution_names", named);
    for (size_t i = 0; i < 6; i++)
        place("a parameter's name", names[i]);
    struct { myp_bytes rest; } k = { b.rows };
    size_t columns = varied() % 7;
    uint8_t given[6] = { 0 };
    CALL(k, myp_read_bulk_types(&k.rest, t, columns));
    place("types", k.rest);
    while (k.rest.len) {
        size_t left = k.rest.len;
        for (size_t i = 0; i < 6; i++)
            v[i] = no_value;
        CALL(k, myp_next_bulk_row(&k.rest, t, columns, v, 6, given, 6));
        for (size_t i = 0; i < 6; i++)
            place("a value of a bulk row", v[i].bytes);
        place("rows", k.rest);
        if (k.rest.len >= left)
            break;
    }
}

/* what a replica says */
static void read_replica(const uint8_t *p, size_t len)
{
    myp_dump d;
    memset(&d, 7, sizeof d), d.file_name = nothing;
    CALL(d, myp_read_dump(p, len, &d));
    place("file", d.file_name);
    myp_table_dump t;
    memset(&t, 7, sizeof t), t.database = t.table = nothing;
    CALL(t, myp_read_table_dump(p, len, &t));
    place("database", t.database), place("table", t.table);
    myp_semi_sync_ack a;
    memset(&a, 7, sizeof a), a.file_name = nothing;
    CALL(a, myp_read_semi_sync_ack(p, len, &a));
    place("file", a.file_name);
    myp_register_replica r;
    memset(&r, 7, sizeof r), r.hostname = r.user = r.password = nothing;
    CALL(r, myp_read_register_replica(p, len, &r));
    place("host", r.hostname), place("user", r.user), place("password", r.password);
    myp_gtid_dump g;
    memset(&g, 7, sizeof g), g.file_name = g.sids = nothing, g.n_sids = 0;
    CALL(g, myp_read_gtid_dump(p, len, &g));
    place("file", g.file_name), place("sids", g.sids);
    static uint8_t shown[65536];
    size_t written = 7;
    uint32_t code = myp_gtid_dump_to_text(p, len, shown, sizeof shown, &written);
    done++, refused += code != 0;
    if (code > MYP_ERROR_INVALID_DATA || (code && written))
        lost("myp_gtid_dump_to_text", code);
    myp_gtid_dump given = MYP_GTID_DUMP_INIT;
    given.file_name = (myp_bytes){ p, len };
    code = myp_gtid_dump_from_text(&given, p, len, shown, sizeof shown, &written);
    done++, refused += code != 0;
    if (code && (code != MYP_ERROR_INVALID_DATA || written))
        lost("myp_gtid_dump_from_text", code);
    struct { myp_bytes rest; myp_sid_places sid; } s;
    memset(&s, 7, sizeof s), s.rest = g.sids, s.sid.tag = s.sid.intervals = nothing;
    uint64_t n = 0;
    for (; s.rest.len; n++) {
        size_t left = s.rest.len;
        CALL(s, myp_next_sid(&s.rest, g.is_tagged, &s.sid));
        place("tag", s.sid.tag), place("intervals", s.sid.intervals), place("rest", s.rest);
        if (s.rest.len >= left || s.sid.intervals.len != 16 * s.sid.n_intervals)
            break;
    }
    if (n != g.n_sids || s.rest.len) {
        printf("the sids of a dump are others one by one\n");
        bad++;
    }
    s.rest.data = p, s.rest.len = len, s.sid.tag = s.sid.intervals = nothing;
    struct { myp_bytes rest; myp_interval interval; } i;
    memset(&i, 7, sizeof i), i.rest = s.rest;
    if (len) {
        CALL(s, myp_next_sid(&s.rest, varied() % 2, &s.sid));
        CALL(i, myp_next_interval(&i.rest, &i.interval));
    }
    place("tag", s.sid.tag), place("intervals", s.sid.intervals), place("rest", s.rest), place("rest", i.rest);
}

void read_server(const uint8_t *p, size_t len)
{
    read_query(p, len);
    read_served(p, len);
    read_replica(p, len);
}
