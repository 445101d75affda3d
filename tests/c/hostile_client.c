/* What a client reads one after another: keys, changes of the session, and their variables. */
#include "hostile.h"

static void read_keys(const uint8_t *p, size_t len)
{
    myp_bytes pem = nothing;
    CALL(pem, myp_read_public_key(p, len, &pem));
    place("key", pem);
    struct {
        uint32_t iterations, unused;
        myp_bytes salt;
    } parsec = { 7, 7, MYP_BYTES_INIT };
    CALL(parsec, myp_read_parsec_salt(p, len, &parsec.iterations, &parsec.salt));
    place("salt", parsec.salt);
}

/* goes on to the end, or to the first fault; the last answer is no change either */
#define NEXT(left, next, call) do { size_t had; do { had = (left).rest.len; __typeof__(left) before; memcpy(&before, &(left), sizeof (left)); \
    uint32_t code = (call); done++; if (code) { refused++; \
        if (code > 3 && (code != MYP_END || had)) lost(#call, code); \
        if (memcmp(&before, &(left), sizeof (left))) { changed++; } \
        break; } \
        if ((left).rest.len >= had) lost("nothing was taken", code); \
        next; } while (1); } while (0)

static void variables(myp_bytes bytes)
{
    struct {
        myp_bytes rest, name, value;
    } left = { bytes, MYP_BYTES_INIT, MYP_BYTES_INIT };
    NEXT(left, (place("name", left.name), place("value", left.value), place("rest", left.rest)), myp_next_variable(&left.rest, &left.name, &left.value));
}

static void read_changes(const uint8_t *p, size_t len)
{
    struct {
        myp_bytes rest;
        myp_change change;
    } left;
    memset(&left, 7, sizeof left), left.rest.data = p, left.rest.len = len;
    left.change.content = left.change.text = left.change.variables = nothing;
    NEXT(left, (place("data", left.change.content), place("text", left.change.text), place("variables", left.change.variables), place("rest", left.rest), variables(left.change.variables)), myp_next_change(&left.rest, &left.change));
    variables((myp_bytes){ p, len });
}

static void attributes(myp_bytes bytes)
{
    struct {
        myp_bytes rest;
        myp_column_attribute attribute;
    } left;
    memset(&left, 7, sizeof left), left.rest = bytes, left.attribute.text = nothing;
    NEXT(left, (place("text", left.attribute.text), place("rest", left.rest)), myp_next_column_attribute(&left.rest, &left.attribute));
}

static void read_extended(const uint8_t *p, size_t len)
{
    myp_column c;
    memset(&c, 7, sizeof c), c.schema = c.table = c.org_table = c.name = c.org_name = c.metadata = nothing;
    CALL(c, myp_read_column(p, len, (uint32_t)varied(), &c));
    place("schema", c.schema), place("table", c.table), place("org_table", c.org_table), place("name", c.name);
    place("org_name", c.org_name), place("metadata", c.metadata);
    attributes(c.metadata);
    attributes((myp_bytes){ p, len });
}

static void read_field_list(const uint8_t *p, size_t len)
{
    myp_field_list_column f;
    memset(&f, 7, sizeof f), f.column.schema = f.column.table = f.column.org_table = nothing;
    f.column.name = f.column.org_name = f.column.metadata = f.default_value = nothing;
    CALL(f, myp_read_field_list_column(p, len, (uint32_t)varied(), &f));
    place("schema", f.column.schema), place("table", f.column.table), place("org_table", f.column.org_table);
    place("name", f.column.name), place("org_name", f.column.org_name), place("metadata", f.column.metadata);
    place("default_value", f.default_value);
}

static void read_stream(const uint8_t *p, size_t len)
{
    myp_stream_packet s;
    memset(&s, 7, sizeof s), s.content = nothing;
    CALL(s, myp_read_stream_packet(p, len, (uint8_t)(varied() % 2), &s));
    place("content", s.content);
}

void read_client(const uint8_t *p, size_t len)
{
    read_keys(p, len);
    read_extended(p, len);
    read_field_list(p, len);
    read_stream(p, len);
    read_changes(p, len);
}
