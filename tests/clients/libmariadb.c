/* What a server answers, as libmariadb reads it: a line of each value, in hexadecimal digits. libmariadb PORT USER PASSWORD SCHEMA */
#include <mysql.h>
#include <stdio.h>
#include <stdlib.h>
#include <string.h>

enum { COLUMNS = 64, SIZE = 1 << 17 };
static MYSQL *db;

static void show(const char *what, const char *name, const void *bytes, unsigned long len, int is_null)
{
    printf("%s %s ", what, name);
    if (is_null)
        printf("NULL");
    else
        printf("x");
    for (unsigned long i = 0; i < len && !is_null; i++)
        printf("%02x", ((const unsigned char *)bytes)[i]);
    puts("");
}

static void fail(const char *what, unsigned code, const char *state, const char *message)
{
    printf("%s error %u %s %s\n", what, code, state, message);
}

static void text(const char *sql)
{
    if (mysql_query(db, sql)) {
        fail("text", mysql_errno(db), mysql_sqlstate(db), mysql_error(db));
        return;
    }
    MYSQL_RES *result = mysql_store_result(db);
    MYSQL_ROW row;
    while ((row = mysql_fetch_row(result))) {
        unsigned long *lengths = mysql_fetch_lengths(result);
        for (unsigned i = 0; i < mysql_num_fields(result); i++)
            show("text", mysql_fetch_field_direct(result, i)->name, row[i], row[i] ? lengths[i] : 0, !row[i]);
    }
    mysql_free_result(result);
}

/* each value of the rows, turned into text by libmariadb */
static void fetched(MYSQL_STMT *stmt, const char *what)
{
    static char buffers[COLUMNS][SIZE];
    static unsigned long lengths[COLUMNS];
    static my_bool nulls[COLUMNS], cut[COLUMNS];
    MYSQL_BIND binds[COLUMNS];
    MYSQL_RES *columns = mysql_stmt_result_metadata(stmt);
    unsigned n = mysql_num_fields(columns);
    memset(binds, 0, sizeof binds);
    for (unsigned i = 0; i < n; i++) {
        binds[i].buffer_type = mysql_fetch_field_direct(columns, i)->charsetnr == 63 && mysql_fetch_field_direct(columns, i)->type == MYSQL_TYPE_BLOB
            ? MYSQL_TYPE_BLOB : MYSQL_TYPE_STRING;
        binds[i].buffer = buffers[i], binds[i].buffer_length = SIZE, binds[i].length = &lengths[i], binds[i].is_null = &nulls[i], binds[i].error = &cut[i];
    }
    mysql_stmt_bind_result(stmt, binds);
    for (int code; (code = mysql_stmt_fetch(stmt)) != MYSQL_NO_DATA;) {
        if (code) {
            printf("%s fetch %d %s", what, code, mysql_stmt_error(stmt));
            for (unsigned i = 0; i < n; i++)
                if (cut[i])
                    printf(" %s is cut", mysql_fetch_field_direct(columns, i)->name);
            puts("");
            if (code != MYSQL_DATA_TRUNCATED)
                break;
        }
        for (unsigned i = 0; i < n; i++)
            show(what, mysql_fetch_field_direct(columns, i)->name, buffers[i], lengths[i], nulls[i]);
    }
    mysql_free_result(columns);
}

static void prepared(const char *sql, MYSQL_BIND *binds, const char *what, int ahead)
{
    MYSQL_STMT *stmt = mysql_stmt_init(db);
    if (mysql_stmt_prepare(stmt, sql, strlen(sql))) {
        fail(what, mysql_stmt_errno(stmt), mysql_stmt_sqlstate(stmt), mysql_stmt_error(stmt));
    } else {
        if (binds)
            mysql_stmt_bind_param(stmt, binds);
        if (ahead >= 0 && (mysql_stmt_send_long_data(stmt, (unsigned)ahead, "sent ", 5) || mysql_stmt_send_long_data(stmt, (unsigned)ahead, "ahead", 5)))
            fail(what, mysql_stmt_errno(stmt), mysql_stmt_sqlstate(stmt), mysql_stmt_error(stmt));
        /* (the second execution sends no types) */
        for (int again = 0; again < (binds ? 2 : 1); again++) {
            if (mysql_stmt_execute(stmt) || mysql_stmt_store_result(stmt))
                fail(what, mysql_stmt_errno(stmt), mysql_stmt_sqlstate(stmt), mysql_stmt_error(stmt));
            else
                fetched(stmt, what);
            mysql_stmt_free_result(stmt);
        }
    }
    mysql_stmt_close(stmt);
}

/* values of each kind as parameters */
static void parameters(void)
{
    static signed char tiny = -5;
    static unsigned short small = 65535;
    static int whole = -70000;
    static unsigned long long big = 18446744073709551615ull;
    static float single = -1.5f;
    static double twice = 0.25;
    static MYSQL_TIME day = { .year = 2024, .month = 2, .day = 29, .time_type = MYSQL_TIMESTAMP_DATE };
    static MYSQL_TIME moment = { .year = 2024, .month = 2, .day = 29, .hour = 23, .minute = 59, .second = 58, .time_type = MYSQL_TIMESTAMP_DATETIME };
    static MYSQL_TIME span = { .neg = 1, .hour = 26, .minute = 3, .second = 4, .time_type = MYSQL_TIMESTAMP_TIME };
    static char content[] = "a\0b";
    static unsigned long length = 3;
    static my_bool is_null = 1;
    MYSQL_BIND binds[12];
    memset(binds, 0, sizeof binds);
    binds[0].buffer_type = MYSQL_TYPE_TINY, binds[0].buffer = &tiny;
    binds[1].buffer_type = MYSQL_TYPE_SHORT, binds[1].buffer = &small, binds[1].is_unsigned = 1;
    binds[2].buffer_type = MYSQL_TYPE_LONG, binds[2].buffer = &whole;
    binds[3].buffer_type = MYSQL_TYPE_LONGLONG, binds[3].buffer = &big, binds[3].is_unsigned = 1;
    binds[4].buffer_type = MYSQL_TYPE_FLOAT, binds[4].buffer = &single;
    binds[5].buffer_type = MYSQL_TYPE_DOUBLE, binds[5].buffer = &twice;
    binds[6].buffer_type = MYSQL_TYPE_DATE, binds[6].buffer = &day;
    binds[7].buffer_type = MYSQL_TYPE_DATETIME, binds[7].buffer = &moment;
    binds[8].buffer_type = MYSQL_TYPE_TIME, binds[8].buffer = &span;
    binds[9].buffer_type = MYSQL_TYPE_STRING, binds[9].buffer = content, binds[9].buffer_length = 3, binds[9].length = &length;
    binds[10].buffer_type = MYSQL_TYPE_LONG, binds[10].is_null = &is_null;
    binds[11].buffer_type = MYSQL_TYPE_BLOB;
    prepared("SELECT ?, ?, ?, ?, ?, ?, ?, ?, ?, ?, ?, ?", binds, "sent", 11);
}

static void done(void)
{
    const char *change;
    size_t len;
    if (mysql_query(db, "UPDATE cells"))
        fail("done", mysql_errno(db), mysql_sqlstate(db), mysql_error(db));
    printf("done %llu %llu %u %s\n", (unsigned long long)mysql_affected_rows(db), (unsigned long long)mysql_insert_id(db), mysql_warning_count(db), mysql_info(db));
    for (int type = SESSION_TRACK_SYSTEM_VARIABLES; type <= SESSION_TRACK_SCHEMA; type++)
        for (int more = mysql_session_track_get_first(db, type, &change, &len); !more; more = mysql_session_track_get_next(db, type, &change, &len))
            printf("change %d %.*s\n", type, (int)len, change);
}

int main(int argc, char **argv)
{
    if (argc < 5)
        return 2;
    db = mysql_init(NULL);
    if (!mysql_real_connect(db, "127.0.0.1", argv[2], argv[3], argv[4], (unsigned)atoi(argv[1]), NULL, 0)) {
        fail("login", mysql_errno(db), mysql_sqlstate(db), mysql_error(db));
        return 1;
    }
    text("SELECT cells");
    text("SELECT nothing_here");
    prepared("SELECT cells", NULL, "binary", -1);
    prepared("SELECT nothing_here", NULL, "binary", -1);
    parameters();
    done();
    mysql_close(db);
    return 0;
}
