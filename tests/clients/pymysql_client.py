"""What a server answers, as PyMySQL reads it: a line of each value. pymysql_client.py PORT USER PASSWORD SCHEMA"""
import sys

import pymysql


def shown(value):
    return "NULL" if value is None else "x" + (value if isinstance(value, bytes) else str(value).encode()).hex()


def main(port, user, password, schema):
    db = pymysql.connect(host="127.0.0.1", port=int(port), user=user, password=password, database=schema, charset="utf8mb4")
    with db.cursor() as cursor:
        cursor.execute("SELECT cells")
        for column, value in zip(cursor.description, cursor.fetchone()):
            print("text", column[0], shown(value))
        try:
            cursor.execute("SELECT nothing_here")
        except pymysql.err.ProgrammingError as error:
            print("text error", *error.args)
        count = cursor.execute("UPDATE cells")
        # (PyMySQL takes the length of the info for its first character)
        print("done", count, cursor.lastrowid, db._result.warning_count, db._result.message.decode()[1:])
    db.close()


main(*sys.argv[1:])
