/* libmariadb's own calls over rows of a server, for valgrind to count: what bench/c/packets.c has for the library.
 *
 * libmariadb NAME COUNT PORT USER PASSWORD SCHEMA */
#include <mysql.h>
#include <stdio.h>
#include <stdlib.h>
#include <string.h>

enum { COLUMNS = 10 };
static MYSQL *db;

static void check(int failed, const char *what)
{
    if (failed) {
        fprintf(stderr, "libmariadb: %s: %s\n", what, mysql_error(db));
        exit(1);
    }
}

struct bulk_row {
    long long number;
    char text[24], null;
    unsigned long len;
};

static void insert(size_t count, const char *table, const char *sql, int columns)
{
    MYSQL_STMT *stmt = mysql_stmt_init(db);
    MYSQL_BIND binds[COLUMNS];
    struct bulk_row *rows = calloc(count, sizeof *rows);
    unsigned array = (unsigned)count;
    size_t size = sizeof *rows;
    check(!rows || mysql_query(db, table), "table");
    for (size_t i = 0; i < count; i++) {
        rows[i].number = (long long)(i * 0x9e3779b97f4a7c15u), rows[i].null = STMT_INDICATOR_NULL;
        rows[i].len = columns == 3 ? 20 : 1 + i * 7 % 20;
        memset(rows[i].text, 'a' + (int)(i % 26), 20);
    }
    memset(binds, 0, sizeof binds);
    for (int i = 0; i < columns; i++) {
        binds[i].buffer_type = MYSQL_TYPE_LONGLONG, binds[i].buffer = &rows->number;
        if (columns == 3 ? i == 1 : i >= 5)
            binds[i].buffer_type = MYSQL_TYPE_STRING, binds[i].buffer = rows->text, binds[i].length = &rows->len;
        if (columns == 3 && i == 2)
            binds[i].buffer_type = MYSQL_TYPE_LONG, binds[i].u.indicator = &rows->null;
    }
    check(mysql_stmt_prepare(stmt, sql, strlen(sql)), "prepare");
    check(mysql_stmt_attr_set(stmt, STMT_ATTR_ARRAY_SIZE, &array) || mysql_stmt_attr_set(stmt, STMT_ATTR_ROW_SIZE, &size)
          || mysql_stmt_bind_param(stmt, binds), "bind");
    check(mysql_stmt_execute(stmt), mysql_stmt_error(stmt));
    mysql_stmt_close(stmt);
    free(rows);
}

/* rows that were received before, into the caller's places */
static unsigned long long binary(const char *sql)
{
    static long long numbers[5];
    static char texts[5][24];
    static unsigned long lengths[5];
    unsigned long long sum = 0;
    MYSQL_STMT *stmt = mysql_stmt_init(db);
    MYSQL_BIND binds[COLUMNS];
    memset(binds, 0, sizeof binds);
    check(mysql_stmt_prepare(stmt, sql, strlen(sql)) || mysql_stmt_execute(stmt), "execute");
    for (int i = 0; i < 5; i++) {
        binds[i].buffer_type = MYSQL_TYPE_LONGLONG, binds[i].buffer = &numbers[i];
        binds[5 + i].buffer_type = MYSQL_TYPE_STRING, binds[5 + i].buffer = texts[i], binds[5 + i].buffer_length = sizeof texts[i], binds[5 + i].length = &lengths[i];
    }
    check(mysql_stmt_bind_result(stmt, binds) || mysql_stmt_store_result(stmt), "bind");
    while (!mysql_stmt_fetch(stmt))
        sum += (unsigned long long)numbers[0] + lengths[4];
    mysql_stmt_close(stmt);
    return sum;
}

/* rows that are read from the socket, and not looked at */
static unsigned long long skipped(const char *sql)
{
    check(mysql_query(db, sql), "query");
    MYSQL_RES *result = mysql_use_result(db);
    check(!result, "result");
    mysql_free_result(result);
    return 1;
}

static unsigned long long text(const char *sql)
{
    unsigned long long sum = 0;
    check(mysql_query(db, sql), "query");
    MYSQL_RES *result = mysql_use_result(db);
    while (mysql_fetch_row(result))
        sum += mysql_fetch_lengths(result)[9];
    mysql_free_result(result);
    return sum;
}

int main(int argc, char **argv)
{
    static const char ten[] = "CREATE OR REPLACE TABLE ten (a BIGINT, b BIGINT, c BIGINT, d BIGINT, e BIGINT, f VARCHAR(24), g VARCHAR(24), h VARCHAR(24), i VARCHAR(24), j VARCHAR(24)) ENGINE=MyISAM";
    if (argc != 7)
        return 2;
    size_t count = strtoul(argv[2], NULL, 10);
    unsigned long long sum = 1;
    db = mysql_init(NULL);
    check(!mysql_real_connect(db, "127.0.0.1", argv[4], argv[5], argv[6], (unsigned)atoi(argv[3]), NULL, 0), "connect");
    if (!strncmp(argv[1], "bulk", 4)) {
        insert(count, "CREATE OR REPLACE TABLE three (a BIGINT, b VARCHAR(24), c INT) ENGINE=MyISAM", "INSERT INTO three VALUES (?, ?, ?)", 3);
    } else {
        insert(count, ten, "INSERT INTO ten VALUES (?, ?, ?, ?, ?, ?, ?, ?, ?, ?)", COLUMNS);
        static const char rows[] = "SELECT * FROM ten";
        sum = !strcmp(argv[1], "text_row_skipped") ? skipped(rows) : !strcmp(argv[1], "text_row") ? text(rows) : binary(rows);
    }
    printf("%llu\n", sum);
    mysql_close(db);
    return sum == 0;
}
