#!/usr/bin/env python3
"""Sessions with a MariaDB server, and with MySQL 8.4 or 9, where they are installed: logins, both protocols, executions, bulk requests,
attributes, metadata that is left out, cursors, tracking, replicas, and the recipes of crates/examples_driver.

live.py [NAME ..]: the sessions of these names, else all. It starts a server of its own, on the loopback address. Each packet is
read and written by the probes that rt ci leaves. The kinds of a session's packets, as this client knows them, are those that the
library's conversations answer. The last line is 'N passed, N failed'.
"""
import random
import socket
import struct
import sys
import time
from pathlib import Path

sys.path[:0] = [str(Path(__file__).resolve().parent), str(Path(__file__).resolve().parent.parent / "probe")]
import mysql_server
import server
from conversations import other_kind, request
from lines import answers, built
from mysql import MysqlSessions
from recipes import Recipes
from wire import BULK_OPERATIONS, EXTENDED_METADATA, Connection, Probe, Refused, data

TYPES = {
    "tinyint": ["-128", "127", "0"], "tinyint unsigned": ["255", "0"], "smallint": ["-32768", "32767"], "smallint unsigned": ["65535", "0"],
    "mediumint": ["-8388608", "8388607"], "mediumint unsigned": ["16777215"], "int": ["-2147483648", "2147483647"], "int unsigned": ["4294967295"],
    "bigint": ["-9223372036854775808", "9223372036854775807"], "bigint unsigned": ["18446744073709551615", "0"], "float": ["1.5", "-0.25"],
    "double": ["1.5", "-2.25e-300"], "decimal(30,10)": ["12345678901234567890.0123456789", "-1"], "date": ["'2024-02-29'", "'0001-01-01'"],
    "datetime(6)": ["'2024-02-29 23:59:59.999999'", "'2024-01-01'"], "time(6)": ["'-838:59:58.999999'", "'838:59:59'", "'00:00:00'"], "year": ["1901", "0"],
    "char(20)": ["'abc'", "''"], "varchar(300)": ["repeat('v',251)", "'é'"], "binary(5)": ["x'00ff'"], "text": ["repeat('t',65535)", "''"],
    "longtext": ["repeat('l',70000)"], "blob": ["repeat(x'fc',65535)", "x'00'"], "enum('a','bb')": ["'bb'"], "set('x','y')": ["'x,y'", "''"],
    "bit(13)": ["b'1000000000001'"], "json": ["'[1, null]'"], "uuid": ["'123e4567-e89b-12d3-a456-426655440000'"], "inet6": ["'::1'"],
}


def text_of(word):
    """The text that the text protocol has for a value of the binary one, or a number that equals it."""
    kind, rest = word[0], word[1:]
    if kind in "iu":
        return rest.encode()
    if kind == "x":
        return bytes.fromhex(rest)
    if kind in "fd":
        size = {"f": ("<I", "<f"), "d": ("<Q", "<d")}[kind]
        return struct.unpack(size[1], struct.pack(size[0], int(rest)))[0]
    numbers = [int(it) for it in rest.split("-")]
    if kind == "D":
        return numbers
    sign, days, hours, minutes, seconds, micros = numbers
    return [sign, days * 24 + hours, minutes, seconds, micros]


def is_same(text, word):
    """Whether a value is the same in both protocols."""
    if "N" in (text, word):
        return text == word
    text, value = bytes.fromhex(text[1:]), text_of(word)
    if isinstance(value, float):
        return abs(float(text) - value) <= abs(value) * 1e-5
    if isinstance(value, list):
        shown = text.decode().lstrip("-")
        micros = int((shown.split(".") + ["0"])[1].ljust(6, "0"))
        parts = [int(it) for it in shown.split(".")[0].replace("-", " ").replace(":", " ").split()]
        if word[0] == "T":
            return value == [int(text.startswith(b"-")), *parts, micros]
        return value == (parts + [0] * 6)[:6] + [micros]
    return text == value or text.isdigit() and value.isdigit() and int(text) == int(value)


class Sessions(MysqlSessions, Recipes):
    def __init__(self, port):
        self.port, self.passed, self.failures = port, 0, []
        self.probes = Probe("connections"), Probe("replies"), Probe("statements")

    def check(self, what, holds, seen=""):
        if holds:
            self.passed += 1
        else:
            self.failures.append(f"{what}: {str(seen)[:300]}")

    def refused(self, what, code, call):
        try:
            self.check(what, False, call())
        except Refused as it:
            self.check(what, it.args[0] == code, it)

    def conversations(self):
        """Holds the packets of what was opened to their kinds, and each closed session to its end."""
        opened, Connection.opened = Connection.opened, []
        for program in built("program"):
            for it, line in zip(opened, answers(program, [request(it.packets) for it in opened])):
                other = other_kind(it.packets, it.kinds, line)
                self.check("kinds of packets", not other, other)
                self.check("a session that was closed is over", not it.is_closed or "at_rest=yes" in line.split(), line[-100:])

    def connect(self, user="native", password=b"secret", **how):
        it = Connection(self.port, *self.probes)
        it.login(user, password, **how)
        return it

    # sessions

    def logins(self):
        for user, password, how in (("root", b"", {}), ("native", b"secret", {"database": "live"}), ("ed", b"secret", {"attributes": {"program": "live", "of": ""}}),
                                    ("native", b"secret", {"plugin": "client_ed25519"})):
            it = self.connect(user, password, **how)
            row = it.texts("select current_user(), database(), connection_id()")[0]
            wanted = f"{user}@".encode(), how.get("database", "").encode(), int(it.greeting["connection_id"])
            self.check(f"login of {user}", row[0].startswith(wanted[0]) and (row[1] or b"") == wanted[1] and int(row[2]) == wanted[2], row)
            it.close()
        self.refused("a wrong password", 1045, lambda: self.connect("native", b"wrong"))
        self.refused("no such schema", 1049, lambda: self.connect("native", database="none_such"))

    def scrambles(self):
        """client_ed25519 signs the whole scramble, also where it ends in a zero: one of 256 does"""
        for number in range(800):
            it = self.connect("ed")
            it.close()
            self.passed += 1

    def change_of_user(self):
        it = self.connect("root", b"")
        it.query("set @kept=1")
        it.change_user("native", b"secret", "other")
        row = it.texts("select current_user(), database(), @kept")[0]
        self.check("change of user", row[0].startswith(b"native@") and row[1:] == [b"other", None], row)
        self.refused("change of user with a wrong password", 1045, lambda: it.change_user("native", b"wrong", "other"))

    def greeting_error(self):
        """an error in place of the greeting has no SQL state"""
        it = self.connect("root", b"")
        it.query("set global max_connections=10")
        held = []
        try:
            for _ in range(14):
                held.append(Connection(self.port, *self.probes))
            self.check("too many connections", False, len(held))
        except Refused as error:
            self.check("too many connections", error.args == (1040, "Too many connections"), error)
        for one in held:
            one.socket.close()
        time.sleep(0.3)
        it.query("set global max_connections=151")
        it.close()

    def types(self):
        """each column type, in the text and the binary protocol"""
        it = self.connect(database="live")
        it.query("set sql_mode=''")
        it.query("create table types (id int, " + ", ".join(f"c{i} {name}" for i, name in enumerate(TYPES)) + ")")
        for row in range(3):
            values = [(texts + ["null"] * 3)[row] for texts in TYPES.values()]
            it.query(f"insert into types values ({row}, {', '.join(values)})")
        texts = it.query("select * from types order by id")
        statement = it.prepare("select * from types order by id")
        values = it.execute(statement, [])
        for text_row, row in zip(texts, values):
            for name, text, word in zip(["id", *TYPES], text_row, row):
                self.check(f"a {name}", is_same(text, word), (text[:60], word[:60]))
        it.close()

    def extended_metadata(self):
        """columns with MariaDB's extended metadata, in both protocols"""
        it = self.connect(database="live", mariadb=BULK_OPERATIONS | EXTENDED_METADATA)
        self.check("extended metadata is agreed to", it.mariadb & EXTENDED_METADATA, it.mariadb)
        it.query("create table kinds (n int, j json, i inet6, u uuid, p point)")
        it.query("insert into kinds values (1, '{}', '::1', '00000000-0000-0000-0000-000000000001', point(1, 2))")
        wanted = [(None, None), ("FormatName", b"json"), ("TypeName", b"inet6"), ("TypeName", b"uuid"), ("TypeName", b"point")]
        texts = it.query("select * from kinds")
        columns = it.columns
        values = it.execute(it.prepare("select * from kinds"), [])
        for protocol, seen, rows in (("text", columns, texts), ("binary", it.columns, values)):
            kinds = [(one.get("kind"), data(one["text"]) if "text" in one else None) for one in seen]
            self.check(f"kinds of columns, {protocol}", kinds == wanted, kinds)
            self.check(f"columns are written as they were, {protocol}", all(one["written"] == "same" for one in seen), seen)
            self.check(f"a row under extended metadata, {protocol}", len(rows) == 1 and len(rows[0]) == 5, rows)
        it.close()

    def executions(self):
        """values of each kind as parameters"""
        it = self.connect(database="live")
        statement = it.prepare("select ?, ?, ?, ?, ?, ?, ?, hex(?)")
        for values in (["i-5", "u18446744073709551615", f"d{struct.unpack('<Q', struct.pack('<d', 1.5))[0]}", "x616263", "N", "D2024-2-29-1-2-3-4", "T1-1-2-3-4-5", "x00ff"],
                       ["i9223372036854775807", "u0", f"d{struct.unpack('<Q', struct.pack('<d', -0.25))[0]}", "x", "N", "D2020-1-2-0-0-0-0", "T0-0-0-0-0-0", "x"]):
            row = it.execute(statement, values)[0]
            self.check("values that were sent", row[:5] == values[:5] and row[7] == "x" + values[7][1:].upper().encode().hex(), (values, row))
            self.check("dates and times that were sent", row[5] == values[5] and row[6] == values[6], (values, row))
        it.query("create or replace table floats (f float, content longblob)")
        statement = it.prepare("insert into floats values (?, ?)")
        it.execute(statement, [f"f{struct.unpack('<I', struct.pack('<f', -1.5))[0]}", "x6162"])
        it.close_statement(statement)
        row = it.execute(it.prepare("select f, content from floats"), [])[0]
        self.check("a float that was sent", row == [f"f{struct.unpack('<I', struct.pack('<f', -1.5))[0]}", "x6162"], row)
        it.close()

    def bulk(self):
        """10,000 rows in bulk requests, at three limits: read back, and then compared in the server"""
        it = self.connect(database="live")
        draw = random.Random(5)
        rows = [[draw.choice(["N", f"i{draw.randint(-2**63, 2**63 - 1)}"]), draw.choice(["N", f"u{draw.randint(0, 2**64 - 1)}"]),
                 draw.choice(["N", "x" + draw.randbytes(draw.choice([0, 1, 30])).hex()]), "N", draw.choice(["N", "D2024-2-29-0-0-0-0", "D2020-1-2-3-4-5-6"])]
                for _ in range(10000)]
        columns = "nubzd"
        # (after each request the server may leave numbers of its own out)
        in_order = "select row_number() over (order by id) place, n, u, b, z, d from bulk"
        for limit in (1 << 24, 1 << 20, 16384):
            it.query("create or replace table bulk (id int auto_increment primary key, n bigint, u bigint unsigned, b varbinary(40), z bigint, d datetime(6))")
            statement = it.prepare("insert into bulk (n, u, b, z, d) values (?, ?, ?, ?, ?)")
            sizes = it.bulk(statement, f"{limit},types", rows)
            if limit == 1 << 24:
                got = it.execute(it.prepare("select n, u, b, z, d from bulk order by id"), [])
                self.check("rows that are read back", got == rows, next(((a, b) for a, b in zip(got, rows) if a != b), len(got)))
                it.query(f"create or replace table bulk_first (primary key (place)) {in_order}")
            same = " and ".join(f"bulk_now.{name} <=> bulk_first.{name}" for name in columns)
            count = it.texts(f"select count(*), sum({same}) from ({in_order}) bulk_now join bulk_first using (place)")[0]
            self.check(f"rows by {limit}", count == [b"10000", b"10000"] and max(sizes) <= limit - 4, (count, sizes[:3]))
        it.close()

    def tracking(self):
        """changes of the session, with the state change in the layout that servers send"""
        it = self.connect(database="live")
        it.query("set session session_track_schema=1, session_track_state_change=1, session_track_system_variables='*'")
        it.query("set autocommit=0")
        name = f"name=x{b'autocommit'.hex()}"
        self.check("a variable and a state change", name in it.changes and "is_tracked=yes" in it.changes, it.changes)
        it.query("use other")
        self.check("a schema and a state change", f"schema=x{b'other'.hex()}" in it.changes and "is_tracked=yes" in it.changes, it.changes)
        it.close()

    def local_infile(self):
        it = self.connect(database="live")
        it.query("create table file_lines (a int, b varchar(20))")
        it.infile = b"".join(b"%d\tline %d\n" % (k, k) for k in range(1000))
        answer = it.query("load data local infile '/no/such/file' into table file_lines")
        self.check("a local file", it.infile_name == b"/no/such/file" and answer["affected_rows"] == "1000", answer)
        it.close()

    def replica(self):
        """a registration, and a dump whose first events are read off; one that does not block, to its end"""
        it = self.connect("root", b"")
        it.query("set @master_binlog_checksum='none'")
        registration = bytes.fromhex("15" + "07000000" + "00" * 3 + "ea0c" + "00" * 8)
        fields = self.probes[0].fields(f"register_slave {registration.hex()}")
        self.check("a registration is read", fields["server_id"] == "7", fields)
        it.command(registration)
        self.check("a registration is taken", it.result()["affected_rows"] == "0")
        it.command(self.probes[0].written("request position 7 0 4 bin.000001 none"))
        event = it.receive()
        it.known("binlog_event")
        self.check("a dump", event[0] == 0 and event[5] == 4, event[:20])
        it.socket.close()
        # all events so far, and the end, which is an EOF packet though it is deprecated in results
        it = self.connect("root", b"")
        it.query("set @master_binlog_checksum='none'")
        it.command(self.probes[0].written("request position 8 1 4 bin.000001 none"))
        packet = it.receive()
        while packet[0] == 0:
            it.known("binlog_event")
            packet = it.receive()
        it.known("eof")
        self.check("the end of a dump", len(packet) == 5 and packet[0] == 0xFE, packet[:20])
        # (the server closes the connection)
        it.socket.close()


MARIADB = ("logins", "scrambles", "change_of_user", "greeting_error", "types", "extended_metadata", "executions", "bulk", "tracking", "local_infile", "replica",
           "recipes")
MYSQL = ("mysql_logins", "mysql_recipes", "mysql_attributes", "mysql_metadata", "mysql_cursor", "mysql_types", "mysql_tracking", "mysql_dump")


def play(running, names):
    """Plays sessions with a server: how many passed, and what failed."""
    with running() as port:
        it = Sessions(port)
        for name in names:
            begun = time.time()
            try:
                getattr(it, name)()
                it.conversations()
            except (Refused, ConnectionError, socket.timeout, KeyError, ValueError) as error:
                it.failures.append(f"{name}: {type(error).__name__} {str(error)[:300]}")
            print(f"live: {name}, {time.time() - begun:.0f} s")
    return it.passed, it.failures


def main(*names):
    passed, failures, skipped = 0, [], 0
    missing = ", ".join(server.missing())
    missing = missing and f"{missing} is not installed (Debian: apt-get install mariadb-server)"
    for running, why, sessions in ((server.running, missing, MARIADB), (mysql_server.running, mysql_server.missing(), MYSQL)):
        chosen = [it for it in sessions if not names or it in names]
        if why and chosen:
            print(f"live: {len(chosen)} sessions are skipped: {why}")
            skipped += len(chosen)
        elif chosen:
            count, wrong = play(running, chosen)
            passed, failures = passed + count, failures + wrong
    for line in failures[:30]:
        print(f"live: {line}")
    print(f"live: {skipped} sessions skipped")
    print(f"{passed} passed, {len(failures)} failed")
    return 1 if failures else 0


if __name__ == "__main__":
    sys.exit(main(*sys.argv[1:]))
