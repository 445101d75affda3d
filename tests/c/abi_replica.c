/* What a replica says, and what a server reads. */
#include "abi.h"

static void replicas(void)
{
    uint8_t out[600], is[600];
    size_t n = 9, len;
    myp_register_replica r = MYP_REGISTER_REPLICA_INIT;
    r.server_id = 7, r.port = 3306, r.hostname = (myp_bytes){ (const uint8_t *)"h", 1 };
    len = hex(is, "150700000001680000ea0c0000000000000000"); /* replication.txt: registration */
    CHECK(myp_write_register_replica(&r, out, sizeof out, &n) == MYP_OK && n == len && !memcmp(out, is, len));
    CHECK(myp_write_register_replica(&r, out, len - 1, &n) == MYP_ERROR_BUFFER_TOO_SMALL && n == len && !memcmp(out, is, len));
    r = (myp_register_replica)MYP_REGISTER_REPLICA_INIT;
    r.server_id = 1, r.port = 0x17, r.replication_rank = 2, r.master_id = 3; /* commands.txt: its first row */
    len = hex(is, "1501000000000000170002000000" "03000000");
    CHECK(myp_write_register_replica(&r, out, sizeof out, &n) == MYP_OK && n == len && !memcmp(out, is, len));
    static uint8_t many[300];
    memset(many, 'x', sizeof many);
    r.user = (myp_bytes){ many, 300 };
    CHECK(myp_write_register_replica(&r, out, sizeof out, &n) == MYP_OK && n == 18 + 255 && out[6] == 255 && out[262] == 0);
    len = hex(is, "12040000000100070000006d62696e2e303030303031"); /* the protocol's page: position, flags, replica, file */
    myp_dump d = { { (const uint8_t *)"mbin.000001", 11 }, 7, 4, MYP_DUMP_NON_BLOCK };
    CHECK(myp_write_dump(&d, out, sizeof out, &n) == MYP_OK && n == len && !memcmp(out, is, len));
    d.file_name.len = 0, d.flags = 0;
    CHECK(myp_write_dump(&d, out, 10, &n) == MYP_ERROR_BUFFER_TOO_SMALL && n == 11 && out[5] == 1);
    len = hex(is, "130264620174"); /* commands.txt: a request for a table */
    myp_table_dump t = { { (const uint8_t *)"db", 2 }, { (const uint8_t *)"t", 1 }, 0 };
    CHECK(myp_write_table_dump(&t, out, sizeof out, &n) == MYP_OK && n == len && !memcmp(out, is, len));
    t = (myp_table_dump){ { many, 256 }, { many, 300 }, 0 };
    CHECK(myp_write_table_dump(&t, out, sizeof out, &n) == MYP_OK && n == 513 && out[1] == 255 && out[257] == 255);
    t.database.len = t.table.len = 1;
    CHECK(myp_write_table_dump(&t, out, 4, &n) == MYP_ERROR_BUFFER_TOO_SMALL && n == 5);
    len = hex(is, "ef96650000000000006d62696e2e303030303031"); /* commands.txt: captured acknowledgement */
    myp_semi_sync_ack a = { { (const uint8_t *)"mbin.000001", 11 }, 0x6596 };
    CHECK(myp_write_semi_sync_ack(&a, out, sizeof out, &n) == MYP_OK && n == len && !memcmp(out, is, len));
    a.file_name.len = 3, a.position = 4;
    CHECK(myp_write_semi_sync_ack(&a, out, 11, &n) == MYP_ERROR_BUFFER_TOO_SMALL && n == 12);
}

static void sids(void)
{
    static const char one[] = "3E11FA47-71CA-11E1-9E33-C80AA9429562:app:1-99", two[] = "a0b1c2d3-e4f5-6789-abcd-ef0123456789:1-49:60";
    uint8_t out[300], is[300];
    size_t n = 9, len, count = 7;
    myp_interval places[4] = { MYP_INTERVAL_INIT, MYP_INTERVAL_INIT, MYP_INTERVAL_INIT, MYP_INTERVAL_INIT };
    myp_sid s[2] = { MYP_SID_INIT, MYP_SID_INIT };
    CHECK(myp_sid_from_text((const uint8_t *)one, sizeof one - 1, s, places, 0, &count) == MYP_ERROR_BUFFER_TOO_SMALL && count == 1 && s[0].uuid[0] == 0 && s[0].n_intervals == 0);
    CHECK(myp_sid_from_text((const uint8_t *)one, sizeof one - 1, s, places, 1, &count) == MYP_OK && count == 1 && s[0].uuid[0] == 0x3e && s[0].uuid[15] == 0x62);
    CHECK(s[0].tag_length == 3 && !memcmp(s[0].tag, "app", 3) && s[0].n_intervals == 1 && s[0].intervals == places && places[0].start == 1 && places[0].end == 100);
    CHECK(myp_sid_from_text((const uint8_t *)two, sizeof two - 1, s + 1, places + 1, 3, &count) == MYP_OK && count == 2 && s[1].tag_length == 0 && s[1].n_intervals == 2);
    CHECK(myp_sid_from_text((const uint8_t *)two, sizeof two - 1, s, places, 1, &count) == MYP_ERROR_BUFFER_TOO_SMALL && count == 2 && s[0].tag_length == 3);
    CHECK(places[0].start == 1 && places[0].end == 100); /* a place that does not serve stays */
    CHECK(places[1].start == 1 && places[1].end == 50 && places[2].start == 60 && places[2].end == 61 && places[3].end == 0);
    CHECK(myp_sid_from_text((const uint8_t *)one, 36, s, places, 4, &count) == MYP_ERROR_INVALID_DATA && count == 0 && s[0].tag_length == 3);
    CHECK(myp_sid_from_text((const uint8_t *)"3E11FA47-71CA-11E1-9E33-C80AA9429562:4-3", 40, s, places, 4, &count) == MYP_ERROR_INVALID_DATA && count == 0);
    CHECK(myp_sid_from_text((const uint8_t *)"3E11FA47-71CA-11E1-9E33-C80AA9429562:7-8:4-3", 44, s, places, 4, &count) == MYP_ERROR_INVALID_DATA && count == 0 && places[0].start == 1 && s[0].n_intervals == 1);
    CHECK(myp_sid_from_text((const uint8_t *)"3E11FA47-71CA-11E1-9E33-C80AA9429562:\xff:1", 40, s, places, 4, &count) == MYP_ERROR_INVALID_DATA && s[0].n_intervals == 1);
    s[1].n_intervals = 1; /* replication.txt: dump by sets */
    len = hex(is, "1e04002a0000000000000004000000000000005d00000000020000000000013e11fa4771ca11e19e33c80aa942956206617070010000000000000001000000000000006400000000000000a0b1c2d3e4f56789abcdef012345678900010000000000000001000000000000003200000000000000");
    myp_gtid_dump d = MYP_GTID_DUMP_INIT;
    d.server_id = 42, d.position = 4;
    CHECK(myp_write_gtid_dump(&d, s, 2, out, sizeof out, &n) == MYP_OK && n == len && !memcmp(out, is, len));
    CHECK(myp_write_gtid_dump(&d, s, 2, out, len - 1, &n) == MYP_ERROR_BUFFER_TOO_SMALL && n == len);
    len = hex(is, "1e01000700000003000000622e310500000001000000080000000000000000000000"); /* without sids */
    d.server_id = 7, d.flags = MYP_DUMP_NON_BLOCK | MYP_DUMP_THROUGH_GTID, d.file_name = (myp_bytes){ (const uint8_t *)"b.1", 3 }, d.position = 4294967301u;
    CHECK(myp_write_gtid_dump(&d, s, 0, out, sizeof out, &n) == MYP_OK && n == len && !memcmp(out, is, len));
    s[0].tag[0] = 'A';
    CHECK(myp_write_gtid_dump(&d, s, 2, out, sizeof out, &n) == MYP_ERROR_INVALID_INPUT && n == 0 && !memcmp(out, is, len));
    s[0].tag[0] = 'a', s[0].tag_length = 33;
    CHECK(myp_write_gtid_dump(&d, s, 1, out, sizeof out, &n) == MYP_ERROR_INVALID_INPUT && n == 0);
}

/* gtid_sets.txt: @@gtid_executed of a server, and dumps with it */
static void texts(void)
{
    static const char set[] = "00000000-0000-0000-0000-000000000001:9223372036854775805,\n3e11fa47-71ca-11e1-9e33-c80aa9429562:1-8:_x9:4-5:app:1-3:5-6:9-10";
    static const char spaced[] = "11111111-1111-1111-1111-111111111111 : tAg : 4 , ", plain[] = "11111111-1111-1111-1111-111111111111:tag:4";
    uint8_t packet[400], out[400];
    size_t n = 7, len = 0, count = 0;
    myp_gtid_dump d = MYP_GTID_DUMP_INIT;
    d.server_id = 7, d.flags = MYP_DUMP_NON_BLOCK, d.file_name = (myp_bytes){ (const uint8_t *)"b.1", 3 }, d.position = 4;
    CHECK(myp_gtid_dump_from_text(&d, (const uint8_t *)set, sizeof set - 1, packet, sizeof packet, &len) == MYP_OK);
    myp_gtid_dump g = MYP_GTID_DUMP_INIT;
    myp_sid_places s = MYP_SID_PLACES_INIT;
    CHECK(myp_read_gtid_dump(packet, len, &g) == MYP_OK && g.server_id == 7 && g.flags == (MYP_DUMP_NON_BLOCK | MYP_DUMP_THROUGH_GTID) && IS(g.file_name, "b.1") && g.position == 4 && g.n_sids == 4 && g.is_tagged == 1);
    CHECK(myp_next_sid(&g.sids, 1, &s) == MYP_OK && s.tag.len == 0 && s.uuid[15] == 1 && s.n_intervals == 1 && myp_next_sid(&g.sids, 1, &s) == MYP_OK && s.tag.len == 0 && myp_next_sid(&g.sids, 1, &s) == MYP_OK && IS(s.tag, "_x9"));
    CHECK(myp_next_sid(&g.sids, 1, &s) == MYP_OK && IS(s.tag, "app") && s.n_intervals == 3 && myp_next_sid(&g.sids, 1, &s) == MYP_END);
    CHECK(myp_gtid_dump_to_text(packet, len, out, sizeof out, &n) == MYP_OK && n == sizeof set - 1 && !memcmp(out, set, n));
    CHECK(myp_gtid_dump_to_text(packet, len, out, n - 1, &n) == MYP_ERROR_BUFFER_TOO_SMALL && n == sizeof set - 1);
    CHECK(myp_gtid_dump_to_text(packet, len - 1, out, sizeof out, &n) == MYP_ERROR_UNEXPECTED_EOF && n == 0 && (n = 1) && myp_gtid_dump_to_text(packet + 1, len - 1, out, sizeof out, &n) == MYP_ERROR_INVALID_DATA && n == 0);
    CHECK(myp_gtid_dump_from_text(&d, (const uint8_t *)set, sizeof set - 1, out, len - 1, &n) == MYP_ERROR_BUFFER_TOO_SMALL && n == len);
    d.flags = 0, d.file_name = (myp_bytes)MYP_BYTES_INIT;
    CHECK(myp_gtid_dump_from_text(&d, (const uint8_t *)spaced, sizeof spaced - 1, packet, sizeof packet, &len) == MYP_OK && myp_gtid_dump_to_text(packet, len, out, sizeof out, &n) == MYP_OK && n == sizeof plain - 1 && !memcmp(out, plain, n));
    d.flags = MYP_DUMP_THROUGH_GTID;
    CHECK(myp_gtid_dump_from_text(&d, NULL, 0, packet, sizeof packet, &len) == MYP_OK && myp_read_gtid_dump(packet, len, &g) == MYP_OK && g.n_sids == 0 && g.flags == 0 && myp_gtid_dump_to_text(packet, len, out, sizeof out, &n) == MYP_OK && n == 0);
    CHECK(myp_gtid_dump_from_text(&d, (const uint8_t *)"11111111-1111-1111-1111-111111111111:0", 38, packet, sizeof packet, &len) == MYP_ERROR_INVALID_DATA && len == 0);
    CHECK(myp_gtid_dump_from_text(&d, (const uint8_t *)"\xff", 1, packet, sizeof packet, &len) == MYP_ERROR_INVALID_DATA && len == 0);
    myp_interval places[2] = { MYP_INTERVAL_INIT, MYP_INTERVAL_INIT };
    myp_sid held[2] = { MYP_SID_INIT, MYP_SID_INIT };
    static const char one[] = "3E11FA47-71CA-11E1-9E33-C80AA9429562:app:1-99:200", lower[] = "3e11fa47-71ca-11e1-9e33-c80aa9429562:app:1-99:200";
    CHECK(myp_sid_from_text((const uint8_t *)one, sizeof one - 1, held, places, 2, &count) == MYP_OK && myp_sids_to_text(held, 1, out, sizeof out, &n) == MYP_OK && n == sizeof lower - 1 && !memcmp(out, lower, n));
    held[1] = held[0], held[1].tag[0] = 'b'; /* the same uuid */
    static const char both[] = "3e11fa47-71ca-11e1-9e33-c80aa9429562:app:1-99:200:bpp:1-99:200";
    CHECK(myp_sids_to_text(held, 2, out, sizeof out, &n) == MYP_OK && n == sizeof both - 1 && !memcmp(out, both, n) && myp_sids_to_text(held, 2, out, 3, &n) == MYP_ERROR_BUFFER_TOO_SMALL && n == sizeof both - 1);
    held[1].tag[0] = 'B';
    CHECK(myp_sids_to_text(held, 2, out, sizeof out, &n) == MYP_ERROR_INVALID_INPUT && n == 0 && myp_sids_to_text(NULL, 0, out, sizeof out, &n) == MYP_OK && n == 0);
}

/* dumps with the sids of a text, byte by byte: as they stand there, neither sorted nor merged */
static void spelled(void)
{
    static const char tagged[] = "00112233-4455-6677-8899-AABBCCDDEEFF : 1 - 2 :4:_Xy:5 ,\t,\n10112233445566778899aabbccddeeff:A:7";
    static const char plain[] = " ,\t00112233445566778899aabbccddeeff:1-3:2 ,\r\n";
    static const char *const wrong[] = {
        "00112233445566778899aabbccddeeff:1,10112233445566778899aabbccddeeff:0", "00112233445566778899aabbccddeeff:1,10112233445566778899aabbccddee:1",
        "00112233445566778899aabbccddeeff:", "00112233445566778899aabbccddeeff", "00112233445566778899aabbccddeeff:a", "00112233445566778899aabbccddeeff:a:b:1",
        "00112233445566778899aabbccddeeff:1::2", "00112233445566778899aabbccddeeff:+1", "00112233445566778899aabbccddeeff:1-2-3", "00112233445566778899aabbccddeeff:2-1",
        "00112233445566778899aabbccddeeff:9223372036854775807", "00112233445566778899aabbccddeeff:1,:", "00112233445566778899aabbccddeeff:a-b:1",
        "00112233445566778899aabbccddeeff:ABCDEFGHIJKLMNOPQRSTUVWXYZ_012345:1",
    };
    uint8_t out[400], is[400];
    size_t n = 7, len;
    myp_gtid_dump d = MYP_GTID_DUMP_INIT;
    d.server_id = 7, d.flags = MYP_DUMP_NON_BLOCK, d.file_name = (myp_bytes){ (const uint8_t *)"b.1", 3 }, d.position = 4;
    len = hex(is, "1e050007000000" "03000000622e31" "0400000000000000" "97000000" "0003000000000001"
        "00112233445566778899aabbccddeeff" "00" "0200000000000000" "0100000000000000" "0300000000000000" "0400000000000000" "0500000000000000"
        "00112233445566778899aabbccddeeff" "065f7879" "0100000000000000" "0500000000000000" "0600000000000000"
        "10112233445566778899aabbccddeeff" "0261" "0100000000000000" "0700000000000000" "0800000000000000");
    CHECK(myp_gtid_dump_from_text(&d, (const uint8_t *)tagged, sizeof tagged - 1, out, sizeof out, &n) == MYP_OK && n == len && !memcmp(out, is, len));
    memset(out, 0xee, sizeof out);
    CHECK(myp_gtid_dump_from_text(&d, (const uint8_t *)tagged, sizeof tagged - 1, out, len, &n) == MYP_OK && n == len && !memcmp(out, is, len) && out[len] == 0xee);
    memset(out, 0xee, sizeof out);
    CHECK(myp_gtid_dump_from_text(&d, (const uint8_t *)tagged, sizeof tagged - 1, out, len - 1, &n) == MYP_ERROR_BUFFER_TOO_SMALL && n == len && out[0] == 0xee);
    CHECK(myp_gtid_dump_from_text(&d, (const uint8_t *)tagged, sizeof tagged - 1, NULL, 0, &n) == MYP_ERROR_BUFFER_TOO_SMALL && n == len);
    len = hex(is, "1e050007000000" "03000000622e31" "0400000000000000" "40000000" "0100000000000000"
        "00112233445566778899aabbccddeeff" "0200000000000000" "0100000000000000" "0400000000000000" "0200000000000000" "0300000000000000");
    CHECK(myp_gtid_dump_from_text(&d, (const uint8_t *)plain, sizeof plain - 1, out, sizeof out, &n) == MYP_OK && n == len && !memcmp(out, is, len));
    d.flags = MYP_DUMP_NON_BLOCK | MYP_DUMP_THROUGH_GTID;
    len = hex(is, "1e010007000000" "03000000622e31" "0400000000000000" "08000000" "0000000000000000");
    CHECK(myp_gtid_dump_from_text(&d, (const uint8_t *)" , \n", 4, out, sizeof out, &n) == MYP_OK && n == len && !memcmp(out, is, len));
    memset(out, 0xee, sizeof out);
    for (size_t i = 0; i < sizeof wrong / sizeof *wrong; i++)
        CHECK((n = 7) && myp_gtid_dump_from_text(&d, (const uint8_t *)wrong[i], strlen(wrong[i]), out, sizeof out, &n) == MYP_ERROR_INVALID_DATA && n == 0 && out[0] == 0xee);
    static const char longest[] = "00112233445566778899aabbccddeeff:ABCDEFGHIJKLMNOPQRSTUVWXYZ_01234:1";
    CHECK(myp_gtid_dump_from_text(&d, (const uint8_t *)longest, sizeof longest - 1, out, sizeof out, &n) == MYP_OK && out[50] == 64 && !memcmp(out + 51, "abcdefghijklmnopqrstuvwxyz_01234", 32));
}

/* commands.txt: what a client asks, by its first byte */
static void asked(void)
{
    uint8_t p[64];
    myp_command c = MYP_COMMAND_INIT;
    CHECK(myp_read_command((const uint8_t *)"\x03select 1", 9, 0, &c) == MYP_OK && c.code == MYP_COM_QUERY && IS(c.text, "select 1") && c.used == 9 && c.number == 0 && c.wildcard.len == 0);
    CHECK(myp_read_command((const uint8_t *)"\x03\x00\x01select 1", 11, MYP_CLIENT_QUERY_ATTRIBUTES, &c) == MYP_OK && IS(c.text, "select 1") && c.used == 11);
    CHECK(myp_read_command((const uint8_t *)"\x02" "db", 3, 0, &c) == MYP_OK && c.code == MYP_COM_INIT_DB && IS(c.text, "db"));
    CHECK(myp_read_command((const uint8_t *)"\x16select ?", 9, 0, &c) == MYP_OK && c.code == MYP_COM_STMT_PREPARE && IS(c.text, "select ?"));
    CHECK(myp_read_command((const uint8_t *)"\x04t\0a%", 5, 0, &c) == MYP_OK && c.code == MYP_COM_FIELD_LIST && IS(c.text, "t") && IS(c.wildcard, "a%"));
    CHECK(myp_read_command((const uint8_t *)"\x0e", 1, 0, &c) == MYP_OK && c.code == MYP_COM_PING && c.text.len == 0 && c.wildcard.len == 0 && c.used == 1);
    CHECK(myp_read_command((const uint8_t *)"\x0c\x04\x03\x02\x01", 5, 0, &c) == MYP_OK && c.code == MYP_COM_PROCESS_KILL && c.number == 0x01020304);
    CHECK(myp_read_command((const uint8_t *)"\x1c\x01\0\0\0\x0a\0\0\0", 9, 0, &c) == MYP_OK && c.code == MYP_COM_STMT_FETCH && c.number == 1 && c.rows == 10 && c.used == 9);
    CHECK(myp_read_command((const uint8_t *)"\x1b\x01\0", 3, 0, &c) == MYP_OK && c.code == MYP_COM_SET_OPTION && c.number == 1 && c.rows == 0);
    CHECK(myp_read_command((const uint8_t *)"\x08", 1, 0, &c) == MYP_OK && c.code == MYP_COM_SHUTDOWN && c.number == 0 && myp_read_command((const uint8_t *)"\x08\x10", 2, 0, &c) == MYP_OK && c.number == 16);
    CHECK(myp_read_command((const uint8_t *)"\x1a\x05\0\0\0", 5, 0, &c) == MYP_OK && c.code == MYP_COM_STMT_RESET && c.number == 5 && myp_read_command((const uint8_t *)"\x19\x06\0\0\0", 5, 0, &c) == MYP_OK && c.code == MYP_COM_STMT_CLOSE && c.number == 6);
    size_t len = hex(p, "0303010401fe00026e310300026e320600026e3302763107000000444f2031"); /* commands.txt: three attributes */
    myp_parameter a = MYP_PARAMETER_INIT;
    CHECK(myp_read_query_attribute(p, len, 0, &a) == MYP_OK && IS(a.name, "n1") && a.column_type == MYP_TYPE_STRING && a.is_unsigned == 0 && a.value.kind == MYP_VALUE_BYTES && IS(a.value.bytes, "v1"));
    CHECK(myp_read_query_attribute(p, len, 1, &a) == MYP_OK && IS(a.name, "n2") && a.column_type == MYP_TYPE_LONG && a.value.kind == MYP_VALUE_INT && a.value.number == 7 && a.value.bytes.len == 0);
    CHECK(myp_read_query_attribute(p, len, 2, &a) == MYP_OK && IS(a.name, "n3") && a.column_type == MYP_TYPE_NULL && a.value.kind == MYP_VALUE_NULL);
    CHECK(myp_read_query_attribute(p, len, 3, &a) == MYP_END && myp_read_query_attribute(p, len, SIZE_MAX, &a) == MYP_END && IS(a.name, "n3"));
    CHECK(myp_read_query_attribute(p, 20, 0, &a) == MYP_ERROR_UNEXPECTED_EOF && myp_read_query_attribute(p + 1, len - 1, 0, &a) == MYP_ERROR_INVALID_DATA && IS(a.name, "n3"));
    CHECK(myp_read_command(p, len, MYP_CLIENT_QUERY_ATTRIBUTES, &c) == MYP_OK && IS(c.text, "DO 1") && c.used == len);
    len = hex(p, "03010100010880002a00000000000000");
    CHECK(myp_read_query_attribute(p, len, 0, &a) == MYP_OK && a.name.len == 0 && a.column_type == MYP_TYPE_LONGLONG && a.is_unsigned == 1 && a.value.kind == MYP_VALUE_UINT && a.value.number == 42);
    len = hex(p, "12040000000100070000006d62696e2e303030303031");
    CHECK(myp_read_command(p, len, 0, &c) == MYP_OK && c.code == MYP_COM_BINLOG_DUMP && c.text.len == 0 && c.number == 0 && c.used == len);
    CHECK(myp_read_command((const uint8_t *)"\x20" "ab", 3, 0, &c) == MYP_OK && c.code == MYP_COM_CLONE && IS(c.text, "ab"));
    CHECK(myp_read_command(NULL, 0, 0, &c) == MYP_ERROR_UNEXPECTED_EOF && myp_read_command(p, 10, 0, &c) == MYP_ERROR_UNEXPECTED_EOF && myp_read_command((const uint8_t *)"\x04t", 2, 0, &c) == MYP_ERROR_UNEXPECTED_EOF && c.code == MYP_COM_CLONE);
}

static void served(void)
{
    uint32_t id = 5;
    CHECK(myp_read_close((const uint8_t *)"\x19\x04\x03\x02\x01", 5, &id) == MYP_OK && id == 0x01020304);
    CHECK(myp_read_close((const uint8_t *)"\x19\x04\x03\x02", 4, &id) == MYP_ERROR_UNEXPECTED_EOF && myp_read_close((const uint8_t *)"\x18\x04\x03\x02\x01", 5, &id) == MYP_ERROR_INVALID_DATA && id == 0x01020304);
    static const uint8_t data[] = "\x18\x05\0\0\0\x02\0abc";
    myp_long_data l = MYP_LONG_DATA_INIT;
    CHECK(myp_read_long_data(data, sizeof data - 1, &l) == MYP_OK && l.statement_id == 5 && l.param_index == 2 && l.content.data == data + 7 && l.content.len == 3);
    CHECK(myp_read_long_data(data, 6, &l) == MYP_ERROR_UNEXPECTED_EOF && myp_read_long_data(data + 1, 9, &l) == MYP_ERROR_INVALID_DATA && l.param_index == 2);
    uint8_t p[200];
    size_t len = hex(p, "05aaae81000000012d00000000000000000000000000000000000000" "1d000000726f6f7400");
    myp_ssl_request q = MYP_SSL_REQUEST_INIT;
    CHECK(myp_read_ssl_request(p, 32, &q) == MYP_OK && q.capabilities == 0x81aeaa05 && (q.capabilities & MYP_CLIENT_SSL) && q.max_packet_size == 0x1000000 && q.character_set == 45 && q.mariadb_capabilities == 29);
    CHECK(myp_read_ssl_request(p, 31, &q) == MYP_ERROR_UNEXPECTED_EOF && q.character_set == 45);
    /* responses.txt: a database sets its flag */
    len = hex(p, "0da2ae81000000012d0000000000000000000000000000000000000000000000726f6f7400006d796462006d7973716c5f6e61746976655f70617373776f726400");
    p[2] |= 0x10; /* and attributes after the plugin: a=b, cd= */
    static const char attributes[] = "\x08\x01" "a\x01" "b\x02" "cd\0";
    memcpy(p + len, attributes, sizeof attributes - 1);
    len += sizeof attributes - 1;
    myp_login r = MYP_LOGIN_INIT;
    CHECK(myp_read_login(p, len, &r) == MYP_OK && IS(r.user, "root") && r.auth_response.len == 0 && IS(r.database, "mydb") && IS(r.auth_plugin_name, "mysql_native_password"));
    CHECK(r.has_database == 1 && r.has_auth_plugin_name == 1 && r.has_attributes == 1 && r.attributes.data == p + len - 8 && r.attributes.len == 8 && r.used == len && r.collation == 45 && r.max_packet_size == 0x1000000);
    myp_bytes rest = r.attributes, name = MYP_BYTES_INIT, value = MYP_BYTES_INIT;
    CHECK(myp_next_connection_attribute(&rest, &name, &value) == MYP_OK && IS(name, "a") && IS(value, "b") && rest.len == 4);
    CHECK(myp_next_connection_attribute(&rest, &name, &value) == MYP_OK && IS(name, "cd") && value.len == 0 && rest.len == 0);
    CHECK(myp_next_connection_attribute(&rest, &name, &value) == MYP_END && IS(name, "cd"));
    rest = (myp_bytes){ r.attributes.data, 3 };
    CHECK(myp_next_connection_attribute(&rest, &name, &value) == MYP_ERROR_UNEXPECTED_EOF && IS(name, "cd") && rest.len == 3);
    CHECK(myp_read_login(p, len - 1, &r) == MYP_ERROR_UNEXPECTED_EOF && myp_read_login(p, 31, &r) == MYP_ERROR_UNEXPECTED_EOF && IS(r.user, "root"));
    len = hex(p, "05a2ae81000000012d0000000000000000000000000000000000000000000000726f6f7400006d7973716c5f6e61746976655f70617373776f726400"); /* a response of 60 bytes */
    CHECK(myp_read_login(p, len, &r) == MYP_OK && r.has_database == 0 && r.database.len == 0 && r.has_attributes == 0 && r.capabilities == 2175705605u && r.used == 60);
}

static void executions(void)
{
    uint8_t p[64];
    size_t len = hex(p, "170100000000010000000101060008000100000000000000"); /* executions.txt: statement 1 with NULL and 1 */
    myp_execution_head h = MYP_EXECUTION_HEAD_INIT;
    CHECK(myp_read_execution_head(p, len, &h) == MYP_OK && h.statement_id == 1 && h.flags == 0 && h.used == 10);
    CHECK(myp_read_execution_head(p, 9, &h) == MYP_ERROR_UNEXPECTED_EOF && myp_read_execution_head(p + 1, 10, &h) == MYP_ERROR_INVALID_DATA && h.statement_id == 1);
    myp_bound_param params[2] = { { 0, 0, 0 }, { 0, 0, 0 } };
    myp_value v[2] = { MYP_VALUE_INIT, MYP_VALUE_INIT };
    myp_column_type t[2] = { { 0, 0 }, { 0, 0 } };
    myp_execution e = MYP_EXECUTION_INIT;
    CHECK(myp_read_execution(p, len, 0, params, 2, v, 1, t, 2, &e) == MYP_ERROR_BUFFER_TOO_SMALL && myp_read_execution(p, len, 0, params, 2, v, 2, t, 1, &e) == MYP_ERROR_BUFFER_TOO_SMALL && e.statement_id == 0);
    CHECK(myp_read_execution(p, len, 0, params, 2, v, 2, t, 2, &e) == MYP_OK && e.statement_id == 1 && e.flags == 0 && e.sends_types == 1 && e.used == len);
    CHECK(v[0].kind == MYP_VALUE_NULL && v[1].kind == MYP_VALUE_INT && v[1].number == 1 && t[0].column_type == MYP_TYPE_NULL && t[1].column_type == MYP_TYPE_LONGLONG && t[1].is_unsigned == 0);
    CHECK(myp_read_execution(p, len - 1, 0, params, 2, v, 2, t, 2, &e) == MYP_ERROR_UNEXPECTED_EOF && e.used == len);
    CHECK(myp_read_execution(p, 9, 0, params, 2, v, 2, t, 2, &e) == MYP_ERROR_UNEXPECTED_EOF && v[1].number == 1 && t[0].column_type == MYP_TYPE_NULL && t[1].column_type == MYP_TYPE_LONGLONG);
    p[11] = 0, len = 12; /* no types are sent: those of an earlier execution are taken; the second was sent ahead */
    memcpy(p + len, "\x02hi", 3);
    p[10] = 0, params[0] = (myp_bound_param){ MYP_TYPE_VAR_STRING, 0, 0 }, params[1] = (myp_bound_param){ MYP_TYPE_BLOB, 0, 1 };
    CHECK(myp_read_execution(p, len + 3, 0, params, 2, v, 2, t, 2, &e) == MYP_OK && e.sends_types == 0 && e.used == 15 && v[0].bytes.data == p + 13 && v[0].bytes.len == 2 && v[1].kind == MYP_VALUE_NULL && t[1].column_type == MYP_TYPE_BLOB);
    params[0].column_type = 100; /* no type: as of all other types the value is a string (get_ps_param_len of MySQL) */
    CHECK(myp_read_execution(p, len + 3, 0, params, 2, v, 2, t, 2, &e) == MYP_OK && e.used == 15 && v[0].bytes.data == p + 13 && v[0].bytes.len == 2);
    CHECK(myp_read_execution(p, 10, 0, params, 0, v, 0, t, 0, &e) == MYP_OK && e.used == 10 && e.sends_types == 0 && e.attributes == 0);
}

static void executions_with_attributes(void)
{
    static const uint32_t flags = MYP_CLIENT_QUERY_ATTRIBUTES;
    uint8_t p[64];
    size_t len = hex(p, "17010000000801000000030001080000080000fe00016107000000000000000700000000000000017a"); /* executions.txt: 7, 7 and the attribute a */
    myp_bound_param params[2] = { { 0, 0, 0 }, { 0, 0, 0 } };
    myp_value v[2] = { MYP_VALUE_INIT, MYP_VALUE_INIT };
    myp_column_type t[2] = { { 0, 0 }, { 0, 0 } };
    myp_execution e = MYP_EXECUTION_INIT;
    CHECK(myp_read_execution(p, len, flags, params, 2, v, 2, t, 2, &e) == MYP_OK && e.flags == MYP_EXECUTION_PARAMETER_COUNT_AVAILABLE && e.attributes == 1 && e.used == len);
    CHECK(v[0].number == 7 && v[1].number == 7 && t[1].column_type == MYP_TYPE_LONGLONG);
    myp_parameter a = MYP_PARAMETER_INIT;
    CHECK(myp_read_execution_attribute(p, len, flags, params, 2, 1, &a) == MYP_END && a.name.len == 0);
    CHECK(myp_read_execution_attribute(p, len, flags, params, 2, 0, &a) == MYP_OK && a.name.data == p + 22 && a.name.len == 1 && a.column_type == MYP_TYPE_STRING && a.value.kind == MYP_VALUE_BYTES && a.value.bytes.data == p + len - 1);
    CHECK(myp_read_execution_attribute(p, len - 1, flags, params, 2, 0, &a) == MYP_ERROR_UNEXPECTED_EOF && myp_read_execution(p, len - 1, flags, params, 2, v, 2, t, 2, &e) == MYP_ERROR_UNEXPECTED_EOF);
    p[10] = 1; /* fewer than the statement has */
    CHECK(myp_read_execution(p, len, flags, params, 2, v, 2, t, 2, &e) == MYP_ERROR_INVALID_DATA && e.used == len);
    len = hex(p, "170100000008010000000200010c00000800000ddb07020304050640e20100f2020700000000000000"); /* a date with an offset of 754 minutes */
    CHECK(myp_read_execution(p, len, flags, params, 2, v, 2, t, 2, &e) == MYP_OK && e.attributes == 0 && v[0].kind == MYP_VALUE_DATE_WITH_OFFSET);
    CHECK(v[0].days == 2011 && v[0].month == 2 && v[0].day == 3 && v[0].hour == 4 && v[0].minute == 5 && v[0].second == 6 && v[0].micros == 123456 && (int64_t)v[0].number == 754);
}

/* MySQL 9.7.4's two named parameters (executions.txt), read and written again */
static void named_parameters(void)
{
    static const uint32_t flags = MYP_CLIENT_QUERY_ATTRIBUTES;
    static const myp_bound_param params[3] = { { 0, 0, 0 }, { 0, 0, 0 }, { 0, 0, 0 } };
    uint8_t p[64], out[64];
    size_t len = hex(p, "17010000000801000000020001080001700800017107000000000000000700000000000000"), n = 0;
    myp_bytes names[3] = { { p, 1 }, { p, 2 }, { p, 3 } };
    CHECK(myp_read_execution_names(p, len, flags, params, 2, names, 1) == MYP_ERROR_BUFFER_TOO_SMALL && names[0].len == 1);
    CHECK(myp_read_execution_names(p, len, flags, params, 2, names, 3) == MYP_OK && names[0].data == p + 16 && IS(names[0], "p") && names[1].data == p + 20 && IS(names[1], "q") && names[2].data == p && names[2].len == 3);
    CHECK(myp_read_execution_names(p, len - 1, flags, params, 2, names, 3) == MYP_ERROR_UNEXPECTED_EOF && myp_read_execution_names(p, len, flags, params, 3, names, 3) == MYP_ERROR_INVALID_DATA && names[2].len == 3);
    myp_parameter given[2] = { myp_query_attribute("p", 1, myp_int(7)), myp_query_attribute("q", 1, myp_int(7)) };
    const myp_execution_options options = MYP_EXECUTION_OPTIONS_INIT;
    uint8_t as_long_data = 7;
    CHECK(myp_write_execution(1, given, 2, NULL, 0, &options, flags, out, sizeof out, &n, &as_long_data) == MYP_OK && n == len && !memcmp(out, p, n) && as_long_data == 0);
    len = hex(p, "1701000000000100000000010800080007000000000000000700000000000000"); /* without names */
    CHECK(myp_read_execution_names(p, len, 0, params, 2, names, 3) == MYP_OK && names[0].len == 0 && names[1].len == 0 && names[2].len == 3);
    CHECK(myp_write_execution(1, given, 2, NULL, 0, &options, 0, out, sizeof out, &n, &as_long_data) == MYP_OK && n == len && !memcmp(out, p, n));
}

static void bulks(void)
{
    uint8_t p[32];
    size_t len = hex(p, "fa0100000080000800000100000000000000"); /* bulk.txt: a row of one number */
    myp_bulk_head b = MYP_BULK_HEAD_INIT;
    CHECK(myp_read_bulk_head(p, len, &b) == MYP_OK && b.statement_id == 1 && b.flags == MYP_BULK_SEND_TYPES_TO_SERVER && b.rows.data == p + 7 && b.rows.len == len - 7);
    CHECK(myp_read_bulk_head(p, 6, &b) == MYP_ERROR_UNEXPECTED_EOF && myp_read_bulk_head(p + 1, len - 1, &b) == MYP_ERROR_INVALID_DATA && b.statement_id == 1);
    CHECK(myp_read_bulk_head(p, 7, &b) == MYP_OK && b.rows.len == 0);
}

static void bulk_rows(void)
{
    /* MariaDB's page: the head, of each parameter its type and a byte of flags, and row by row an indicator and, after 0, a value */
    uint8_t p[64];
    size_t len = hex(p, "fa010000008000" "0300" "fe00" "0880" "002a000000" "00026869" "00ffffffffffffffff" "01" "02" "03");
    myp_bulk_head b = MYP_BULK_HEAD_INIT;
    myp_column_type t[4] = { { 9, 9 }, { 9, 9 }, { 9, 9 }, { 9, 9 } };
    CHECK(myp_read_bulk_head(p, len, &b) == MYP_OK && (b.flags & MYP_BULK_SEND_TYPES_TO_SERVER));
    CHECK(myp_read_bulk_types(&b.rows, t, 3) == MYP_OK && b.rows.data == p + 13 && b.rows.len == len - 13 && t[0].column_type == MYP_TYPE_LONG && t[0].is_unsigned == 0
          && t[1].column_type == MYP_TYPE_STRING && t[2].column_type == MYP_TYPE_LONGLONG && t[2].is_unsigned == 1 && t[3].column_type == 9);
    myp_value v[4] = { MYP_VALUE_INIT, MYP_VALUE_INIT, MYP_VALUE_INIT, myp_int(9) };
    uint8_t i[4] = { 7, 7, 7, 7 };
    CHECK(myp_next_bulk_row(&b.rows, t, 3, v, 2, i, 4) == MYP_ERROR_BUFFER_TOO_SMALL && myp_next_bulk_row(&b.rows, t, 3, v, 4, i, 2) == MYP_ERROR_BUFFER_TOO_SMALL && b.rows.data == p + 13 && i[0] == 7);
    CHECK(myp_next_bulk_row(&b.rows, t, 0, v, 4, i, 4) == MYP_ERROR_INVALID_DATA && b.rows.data == p + 13);
    CHECK(myp_next_bulk_row(&b.rows, t, 3, v, 4, i, 4) == MYP_OK && v[0].kind == MYP_VALUE_INT && v[0].number == 42 && v[1].kind == MYP_VALUE_BYTES && IS(v[1].bytes, "hi") && v[1].bytes.data == p + 20
          && v[2].kind == MYP_VALUE_UINT && v[2].number == UINT64_MAX && i[0] == MYP_INDICATOR_NONE && i[1] == MYP_INDICATOR_NONE && i[2] == MYP_INDICATOR_NONE && i[3] == 7 && v[3].number == 9);
    myp_bytes last = b.rows;
    CHECK(myp_next_bulk_row(&b.rows, t, 3, v, 3, i, 3) == MYP_OK && v[0].kind == MYP_VALUE_NULL && v[1].kind == MYP_VALUE_NULL && v[1].bytes.len == 0 && v[2].kind == MYP_VALUE_NULL && v[2].number == 0
          && i[0] == MYP_INDICATOR_NULL && i[1] == MYP_INDICATOR_DEFAULT && i[2] == MYP_INDICATOR_IGNORE && b.rows.len == 0);
    CHECK(myp_next_bulk_row(&b.rows, t, 3, v, 3, i, 3) == MYP_END && myp_next_bulk_row(&b.rows, t, 0, v, 0, i, 0) == MYP_END && i[2] == MYP_INDICATOR_IGNORE);
    b.rows = last, b.rows.len = 2; /* a row is cut off */
    CHECK(myp_next_bulk_row(&b.rows, t, 3, v, 3, i, 3) == MYP_ERROR_UNEXPECTED_EOF && b.rows.data == last.data && b.rows.len == 2);
    b.rows = last, p[len - 3] = 4; /* no indicator */
    CHECK(myp_next_bulk_row(&b.rows, t, 3, v, 3, i, 3) == MYP_ERROR_INVALID_DATA && b.rows.len == 3);
    p[len - 3] = 0, t[0].column_type = 100; /* no type */
    CHECK(myp_next_bulk_row(&b.rows, t, 3, v, 3, i, 3) == MYP_ERROR_INVALID_DATA && b.rows.len == 3);
    CHECK(myp_read_bulk_head(p, len, &b) == MYP_OK);
    b.rows.len = 5;
    CHECK(myp_read_bulk_types(&b.rows, t, 3) == MYP_ERROR_UNEXPECTED_EOF && t[0].column_type == 100 && b.rows.len == 5 && myp_read_bulk_types(&b.rows, t, 2) == MYP_OK && b.rows.len == 1);
    p[9] = 100, b.rows.data = p + 7, b.rows.len = 6;
    CHECK(myp_read_bulk_types(&b.rows, t, 3) == MYP_ERROR_INVALID_DATA && b.rows.data == p + 7 && myp_read_bulk_types(&b.rows, t, 0) == MYP_OK && b.rows.data == p + 7);
}

/* rows that a client writes are those that a server reads */
static void bulk_again(void)
{
    static const myp_column_type types[] = { { MYP_TYPE_LONGLONG, 0 }, { MYP_TYPE_DOUBLE, 0 }, { MYP_TYPE_BLOB, 0 } };
    myp_value v[6] = { myp_int(-1), MYP_VALUE_INIT, myp_text("a text", 6), MYP_VALUE_INIT, MYP_VALUE_INIT, myp_text("", 0) }, w[3] = { MYP_VALUE_INIT, MYP_VALUE_INIT, MYP_VALUE_INIT };
    v[4].kind = MYP_VALUE_DOUBLE, v[4].number = UINT64_C(0x3ff8000000000000);
    uint8_t out[100], i[3];
    size_t n = 0, rows = 0;
    CHECK(myp_write_bulk(3, 0, 1000, types, 3, v, 6, out, sizeof out, &n, &rows) == MYP_OK && rows == 2);
    myp_bulk_head b = MYP_BULK_HEAD_INIT;
    myp_column_type t[3];
    CHECK(myp_read_bulk_head(out, n, &b) == MYP_OK && b.statement_id == 3 && myp_read_bulk_types(&b.rows, t, 3) == MYP_OK && !memcmp(t, types, sizeof t));
    CHECK(myp_next_bulk_row(&b.rows, t, 3, w, 3, i, 3) == MYP_OK && w[0].kind == MYP_VALUE_INT && w[0].number == UINT64_MAX && w[1].kind == MYP_VALUE_NULL && i[1] == MYP_INDICATOR_NULL && IS(w[2].bytes, "a text"));
    CHECK(myp_next_bulk_row(&b.rows, t, 3, w, 3, i, 3) == MYP_OK && w[0].kind == MYP_VALUE_NULL && w[1].kind == MYP_VALUE_DOUBLE && w[1].number == v[4].number && i[1] == MYP_INDICATOR_NONE && w[2].kind == MYP_VALUE_BYTES && w[2].bytes.len == 0);
    CHECK(myp_next_bulk_row(&b.rows, t, 3, w, 3, i, 3) == MYP_END);
}

static void dumps(void)
{
    uint8_t p[200];
    size_t len = hex(p, "12040000000100070000006d62696e2e303030303031"); /* the protocol's page: position, flags, replica, file */
    myp_dump d = MYP_DUMP_INIT;
    CHECK(myp_read_dump(p, len, &d) == MYP_OK && d.position == 4 && d.flags == MYP_DUMP_NON_BLOCK && d.server_id == 7 && IS(d.file_name, "mbin.000001") && d.file_name.data == p + 11);
    CHECK(myp_read_dump(p, 10, &d) == MYP_ERROR_UNEXPECTED_EOF && myp_read_dump(p + 1, len - 1, &d) == MYP_ERROR_INVALID_DATA && d.position == 4);
    len = hex(p, "130264620174"); /* commands.txt: a request for a table */
    myp_table_dump t = MYP_TABLE_DUMP_INIT;
    CHECK(myp_read_table_dump(p, len, &t) == MYP_OK && IS(t.database, "db") && IS(t.table, "t") && t.table.data == p + 5 && t.used == len);
    CHECK(myp_read_table_dump(p, len - 1, &t) == MYP_ERROR_UNEXPECTED_EOF && myp_read_table_dump(p + 1, len - 1, &t) == MYP_ERROR_INVALID_DATA && t.used == len);
    len = hex(p, "ef96650000000000006d62696e2e303030303031"); /* commands.txt: captured acknowledgement */
    myp_semi_sync_ack a = MYP_SEMI_SYNC_ACK_INIT;
    CHECK(myp_read_semi_sync_ack(p, len, &a) == MYP_OK && a.position == 0x6596 && IS(a.file_name, "mbin.000001") && a.file_name.data == p + 9);
    CHECK(myp_read_semi_sync_ack(p, 8, &a) == MYP_ERROR_UNEXPECTED_EOF && myp_read_semi_sync_ack(p + 1, len - 1, &a) == MYP_ERROR_INVALID_DATA && a.position == 0x6596);
    CHECK(myp_read_semi_sync_ack(p, 9, &a) == MYP_OK && a.file_name.len == 0);
    len = hex(p, "154d000000107665632d686f73742e6578616d706c6500009f0f0000000000000000"); /* replication.txt: captured registration */
    myp_register_replica r = MYP_REGISTER_REPLICA_INIT;
    CHECK(myp_read_register_replica(p, len, &r) == MYP_OK && r.server_id == 77 && IS(r.hostname, "vec-host.example") && r.user.len == 0 && r.password.len == 0 && r.port == 3999 && r.replication_rank == 0 && r.master_id == 0 && r.used == len);
    CHECK(myp_read_register_replica(p, 22, &r) == MYP_ERROR_UNEXPECTED_EOF && myp_read_register_replica(p + 1, len - 1, &r) == MYP_ERROR_INVALID_DATA && r.port == 3999);
    /* replication.txt: dump by sets */
    len = hex(p, "1e04002a0000000000000004000000000000005d00000000020000000000013e11fa4771ca11e19e33c80aa942956206617070010000000000000001000000000000006400000000000000a0b1c2d3e4f56789abcdef012345678900010000000000000001000000000000003200000000000000");
    myp_gtid_dump g = MYP_GTID_DUMP_INIT;
    CHECK(myp_read_gtid_dump(p, len, &g) == MYP_OK && g.server_id == 42 && g.flags == MYP_DUMP_THROUGH_GTID && g.file_name.len == 0 && g.position == 4 && g.n_sids == 2 && g.is_tagged == 1 && g.sids.data == p + 31 && g.sids.len == len - 31 && g.used == len);
    CHECK(myp_read_gtid_dump(p, len - 1, &g) == MYP_ERROR_UNEXPECTED_EOF && myp_read_gtid_dump(p + 1, len - 1, &g) == MYP_ERROR_INVALID_DATA && g.n_sids == 2);
    myp_bytes rest = g.sids;
    myp_sid_places s = MYP_SID_PLACES_INIT;
    CHECK(myp_next_sid(&rest, g.is_tagged, &s) == MYP_OK && IS(s.tag, "app") && s.uuid[0] == 0x3e && s.uuid[15] == 0x62 && s.n_intervals == 1 && s.intervals.len == 16 && s.intervals.data == p + 59);
    myp_bytes left = s.intervals;
    myp_interval i = MYP_INTERVAL_INIT;
    CHECK(myp_next_interval(&left, &i) == MYP_OK && i.start == 1 && i.end == 100 && left.len == 0);
    CHECK(myp_next_interval(&left, &i) == MYP_END && i.end == 100);
    left = (myp_bytes){ p, 15 };
    CHECK(myp_next_interval(&left, &i) == MYP_ERROR_UNEXPECTED_EOF && i.end == 100 && left.len == 15);
    CHECK(myp_next_sid(&rest, g.is_tagged, &s) == MYP_OK && s.tag.len == 0 && s.uuid[0] == 0xa0 && s.n_intervals == 1 && rest.len == 0);
    CHECK(myp_next_sid(&rest, g.is_tagged, &s) == MYP_END && s.uuid[0] == 0xa0);
    rest = (myp_bytes){ p + 31, 20 };
    CHECK(myp_next_sid(&rest, 0, &s) == MYP_ERROR_UNEXPECTED_EOF && rest.len == 20 && s.uuid[0] == 0xa0);
    p[48] = 'A'; /* of the tag */
    CHECK(myp_read_gtid_dump(p, len, &g) == MYP_ERROR_INVALID_DATA && g.n_sids == 2);
    len = hex(p, "1e01000700000003000000622e310500000001000000080000000000000000000000"); /* without sids */
    CHECK(myp_read_gtid_dump(p, len, &g) == MYP_OK && IS(g.file_name, "b.1") && g.n_sids == 0 && g.sids.len == 0 && g.is_tagged == 0 && g.position == 4294967301u);
}

/* stream.txt: captured packets of a semi-synchronous stream, and the ends of one */
static void streams(void)
{
    uint8_t p[64], out[64];
    size_t len = hex(p, "00ef01784f096b10010000001f0000005d0200000000a606000000000000cabeb63b"), n = 7;
    myp_stream_packet s = MYP_STREAM_PACKET_INIT;
    CHECK(myp_read_stream_packet(p, len, 1, &s) == MYP_OK && s.kind == MYP_STREAM_EVENT && s.wants_ack == 1 && s.content.data == p + 3 && s.content.len == len - 3);
    CHECK(myp_write_stream_packet(&s, 1, out, len, &n) == MYP_OK && n == len && !memcmp(out, p, len) && myp_write_stream_packet(&s, 1, out, len - 1, &n) == MYP_ERROR_BUFFER_TOO_SMALL && n == len);
    s.wants_ack = 0;
    CHECK(myp_write_stream_packet(&s, 7, out, sizeof out, &n) == MYP_OK && n == len && out[2] == 0 && myp_write_stream_packet(&s, 0, out, sizeof out, &n) == MYP_OK && n == len - 2 && out[0] == 0 && out[1] == 0x78);
    CHECK(myp_read_stream_packet(p, len, 0, &s) == MYP_OK && s.wants_ack == 0 && s.content.data == p + 1 && s.content.len == len - 1);
    p[2] = 0xfe; /* the lowest of the flags asks */
    CHECK(myp_read_stream_packet(p, len, 1, &s) == MYP_OK && s.wants_ack == 0 && s.content.len == len - 3);
    CHECK(myp_read_stream_packet(p, 2, 1, &s) == MYP_ERROR_UNEXPECTED_EOF && myp_read_stream_packet(NULL, 0, 0, &s) == MYP_ERROR_UNEXPECTED_EOF && s.content.len == len - 3);
    p[1] = 0xee;
    CHECK(myp_read_stream_packet(p, len, 1, &s) == MYP_ERROR_INVALID_DATA && myp_read_stream_packet(p + 1, len, 0, &s) == MYP_ERROR_INVALID_DATA && s.content.len == len - 3);
    len = hex(p, "fe00002200");
    CHECK(myp_read_stream_packet(p, len, 1, &s) == MYP_OK && s.kind == MYP_STREAM_END && s.wants_ack == 0 && s.content.data == p && s.content.len == len);
    CHECK(myp_write_stream_packet(&s, 1, out, sizeof out, &n) == MYP_OK && n == len && !memcmp(out, p, len));
    s.kind = MYP_STREAM_ERROR; /* no error begins with fe */
    CHECK(myp_write_stream_packet(&s, 1, out, sizeof out, &n) == MYP_ERROR_INVALID_INPUT && n == 0 && out[0] == 0xfe);
    len = hex(p, "ffd404234859303030");
    CHECK(myp_read_stream_packet(p, len, 0, &s) == MYP_OK && s.kind == MYP_STREAM_ERROR && s.content.data == p && s.content.len == len && myp_write_stream_packet(&s, 0, out, sizeof out, &n) == MYP_OK && n == len && !memcmp(out, p, len));
    s.kind = 3;
    CHECK(myp_write_stream_packet(&s, 0, out, sizeof out, &n) == MYP_ERROR_INVALID_INPUT && n == 0);
}

static void changes(void)
{
    uint8_t p[100];
    size_t len = hex(p, "11750002010264000201636c69656e745f656432353531390004016b0176"); /* changes.txt: the same, read */
    uint32_t both = MYP_CLIENT_PLUGIN_AUTH | MYP_CLIENT_CONNECT_ATTRS;
    myp_change_user c = MYP_CHANGE_USER_INIT;
    CHECK(myp_read_change_user(p, len, both, &c) == MYP_OK && IS(c.user, "u") && IS(c.auth_response, "\x01\x02") && IS(c.database, "d") && c.has_character_set == 1 && c.character_set == 258);
    CHECK(c.has_auth_plugin_name == 1 && IS(c.auth_plugin_name, "client_ed25519") && c.has_attributes == 1 && c.attributes.data == p + 26 && c.attributes.len == 4 && c.used == len);
    CHECK(myp_read_change_user(p, len - 1, both, &c) == MYP_ERROR_UNEXPECTED_EOF && myp_read_change_user(p + 1, len - 1, both, &c) == MYP_ERROR_INVALID_DATA && c.character_set == 258);
    len = hex(p, "11726f6f740000"); /* connections.txt: cut in its database */
    CHECK(myp_read_change_user(p, len, MYP_CLIENT_CONNECT_ATTRS, &c) == MYP_ERROR_UNEXPECTED_EOF && c.character_set == 258 && c.user.len == 1);
    len = hex(p, "11726f6f74000000"); /* nothing after the database */
    CHECK(myp_read_change_user(p, len, both, &c) == MYP_OK && IS(c.user, "root") && c.database.len == 0 && c.has_character_set == 0 && c.has_auth_plugin_name == 0 && c.has_attributes == 0);
}

void replica_checks(void)
{
    replicas();
    sids();
    texts();
    spelled();
    asked();
    served();
    executions();
    executions_with_attributes();
    named_parameters();
    bulks();
    bulk_rows();
    bulk_again();
    dumps();
    streams();
    changes();
}
