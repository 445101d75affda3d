"""Sessions with a MySQL server, 8.4 or 9."""
import struct

import passwords
import sha2
from recipes import built
from wire import (CONNECT_ATTRS, CONNECT_WITH_DB, DEPRECATE_EOF, FLAGS, Connection, data)

LONG_PASSWORD, OPTIONAL_METADATA, QUERY_ATTRIBUTES = 1, 1 << 25, 1 << 27
MORE_DATA, FAST, FULL = 1, 3, 4
CURSOR_EXISTS, LAST_ROW_SENT = 64, 128
PLACEHOLDER = b"A" * 32


class MysqlConnection(Connection):
    """A client of MySQL: it logs in by caching_sha2_password, and agrees on what is passed."""

    def login(self, user, password=b"secret", database=None, flags=0, without=0, attributes=None):
        wanted = (FLAGS & ~without) | LONG_PASSWORD | flags | (CONNECT_WITH_DB if database else 0) | (CONNECT_ATTRS if attributes else 0)
        pairs = ",".join(f"{k}={v}" for k, v in attributes.items()) if attributes else "none"
        answer = PLACEHOLDER.decode() if password else "none"
        request = f"make_response 9.0.0 {wanted} 0 67108864 {answer} {user} {database or 'none'} caching_sha2_password {pairs}"
        self.flags, self.mariadb = wanted & int(self.greeting["capabilities"]), 0
        self.password, self.ways = password, []
        self.send(self.connections.written(request).replace(PLACEHOLDER, passwords.sha2(password, self.nonce)), "login")
        return self.authenticate()

    def authenticate(self):
        """Answers what the server asks for until it is satisfied: `ways` says by which way."""
        while True:
            packet = self.receive()
            if packet[0] == 0xFF:
                self.raise_error(packet)
            if packet[0] == 0:
                return self.ok("ok", packet)
            if packet[0] == MORE_DATA:
                self.known("auth_more_data")
                self.more_data(data(self.connections.fields(f"auth_more_data {packet.hex()}")["data"]))
            else:
                self.known("auth_switch")
                switch = self.connections.fields(f"auth_switch {packet.hex()}")
                self.nonce = data(switch["plugin_data"])
                self.send(passwords.sha2(self.password, self.nonce), "auth_data")

    def more_data(self, said):
        if said == bytes([FAST]):
            self.ways.append("fast")
        elif said == bytes([FULL]):
            self.ways.append("full")
            self.send(b"\x02", "auth_data")
        else:
            self.send(sha2.encrypted(self.password, said, self.nonce), "auth_data")

    # results: the count of columns, and whether definitions follow

    def counted(self):
        packet = self.receive()
        if packet[0] == 0xFF:
            self.raise_error(packet)
        if packet[0] == 0:
            self.columns = None
            return self.ok("ok", packet)
        self.known("column_count")
        words = self.replies.fields(f"column_count {self.flags} {self.mariadb} {packet.hex()}")
        if words["metadata_follows"] == "yes":
            self.columns = [self.column() for _ in range(int(words["count"]))]
        self.width = int(words["count"])
        if not self.flags & DEPRECATE_EOF:
            self.eof()
        return None

    def eof(self):
        """The status flags of an EOF packet."""
        packet = self.receive()
        self.known("eof")
        return int(self.replies.fields(f"ok_eof {self.flags} {packet.hex()}")["status_flags"])

    def types(self):
        return ",".join(it["column_type"] + "u" * bool(int(it["flags"]) & 32) for it in self.columns)

    def is_end(self, packet):
        return packet[0] == 0xFE and len(packet) < (0xFFFFFF if self.flags & DEPRECATE_EOF else 9)

    def rows(self, binary):
        """Rows up to their end, and the status flags of that."""
        rows = []
        while True:
            packet = self.receive()
            if packet[0] == 0xFF:
                self.raise_error(packet)
            if self.is_end(packet):
                if self.flags & DEPRECATE_EOF:
                    return rows, int(self.ok("ok_end", packet)["status_flags"])
                self.known("eof")
                return rows, int(self.replies.fields(f"ok_eof {self.flags} {packet.hex()}")["status_flags"])
            self.known("binary_row" if binary else "text_row")
            columns = self.types() if binary or self.columns else ",".join(["254"] * self.width)
            words = self.statements.ask(f"{'row' if binary else 'row_text'} {columns} {packet.hex()}")
            rows.append([it for it in words[1:] if "=" not in it])

    def result(self, binary=False):
        ended = self.counted()
        return ended if ended is not None else self.rows(binary)[0]

    def query(self, sql, attributes=None):
        if not self.flags & QUERY_ATTRIBUTES:
            return super().query(sql)
        listed = "/".join(f"{name.encode().hex()}={value}" for name, value in (attributes or {}).items()) or "()"
        self.command(self.statements.written(f"make_query {listed} {sql.encode().hex()}"))
        return self.result()

    def prepare(self, sql):
        self.command(b"\x16" + sql.encode())
        packet = self.receive()
        if packet[0] == 0xFF:
            self.raise_error(packet)
        self.known("prepare_ok")
        statement = self.statements.fields(f"stmt_metadata {self.flags} {packet.hex()}")
        for count in (int(statement["num_params"]), int(statement["num_columns"])):
            if count and statement["metadata"] != "0":
                for _ in range(count):
                    self.column()
            if count and not self.flags & DEPRECATE_EOF:
                self.eof()
        return int(statement["statement_id"])

    def execute_with(self, statement, values, attributes=None, cursor="-"):
        listed = "-"
        if self.flags & QUERY_ATTRIBUTES:
            listed = "/".join(f"{name.encode().hex()}={value}" for name, value in (attributes or {}).items()) or "()"
        self.command(self.statements.written(f"execute_with {statement} {cursor} {listed} {','.join(values) or '()'}"))

    def fetch(self, statement, count):
        self.command(b"\x1c" + statement.to_bytes(4, "little") + count.to_bytes(4, "little"))
        return self.rows(True)


class MysqlSessions:
    """The sessions of live.py with MySQL. Who has them has `port`, `probes`, `check` and `refused`."""

    def mysql(self, user="sha", password=b"secret", **how):
        it = MysqlConnection(self.port, *self.probes)
        it.login(user, password, **how)
        return it

    def forget_passwords(self):
        """The server keeps no password, so that the next login is a full one."""
        it = self.mysql("root", b"")
        it.query("flush privileges")
        it.close()

    def mysql_logins(self):
        """caching_sha2_password: by the server's key at first, and then by what the server keeps"""
        self.forget_passwords()
        for way in ("full", "fast"):
            it = self.mysql(database="live", attributes={"program": "live", "of": ""})
            row = it.texts("select current_user(), database(), connection_id()")[0]
            self.check(f"caching_sha2_password, {way}", it.ways == [way] and row == [b"sha@%", b"live", it.greeting["connection_id"].encode()], (it.ways, row))
            it.close()
        it = self.mysql("root", b"")
        self.check("no password", it.ways == [] and it.texts("select current_user()")[0][0].startswith(b"root@"), it.ways)
        it.close()
        self.refused("a wrong password", 1045, lambda: self.mysql(password=b"wrong"))
        self.refused("no such schema", 1049, lambda: self.mysql(database="none_such"))

    def mysql_recipes(self):
        """the recipes of a driver that logs in by caching_sha2_password, queries, executes, and asks for a dump"""
        for program in built():
            self.program = program
            self.forget_passwords()
            for full in (True, False):
                it = self.played("query", "select current_user(), 7", user="sha", answers=sha2.encrypted)
                self.check(f"the recipe's login, full: {full}", it.of("row") == ["x" + b"sha@%".hex() + " x37"] and bool(it.of("answer")) == full, it.lines)
            it = self.played("execute", "select ?, ?", "i-5", "x00ff", user="sha")
            self.check("the recipe's execution", it.of("row") == ["i-5 x00ff"], it.lines)
            it = self.mysql()
            executed = it.texts("select @@global.gtid_executed")[0][0].decode().replace("\n", "")
            it.query(f"create table live.dumped_{program.name.replace('.', '_').replace('-', '_')} (n int)")
            it.close()
            got = self.played("replica", "9", executed, user="sha")
            kinds = [bytes.fromhex(one)[4] for one in got.of("event")]
            self.check("the recipe's dump by GTID", kinds[:3] == [4, 15, 35] and sum(one in (33, 42) for one in kinds) == 1 and got.status == 0, (kinds, got.lines[-2:]))

    def mysql_attributes(self):
        """attributes of queries and of executions, as the server's component gives them"""
        it = self.mysql(flags=QUERY_ATTRIBUTES)
        self.check("attributes are agreed to", it.flags & QUERY_ATTRIBUTES, it.flags)
        ask = "select mysql_query_attribute_string('a'), mysql_query_attribute_string('b')"
        for attributes, wanted in (({}, [None, None]), ({"a": "x7a"}, [b"z", None]), ({"a": "i-5", "b": "x" + b"yes".hex()}, [b"-5", b"yes"]), ({"b": "N"}, [None, None])):
            row = it.query(ask, attributes)[0]
            self.check("attributes of a query", [None if one == "N" else bytes.fromhex(one[1:]) for one in row] == wanted, (attributes, row))
        text = lambda word: "N" if word is None else "x" + word.encode().hex()
        statement = it.prepare(ask + ", ?, ?")
        for attributes, wanted in (({}, [None, None]), ({"a": "x7a"}, ["z", None]), ({"b": "u7", "a": "x" + b"long".hex()}, ["long", "7"])):
            it.execute_with(statement, ["i42", "x6162"], attributes)
            row = it.result(binary=True)[0]
            self.check("attributes of an execution", row == [*map(text, wanted), "i42", "x6162"], (attributes, row))
        statement = it.prepare(ask)
        for attributes, wanted in (({}, [None, None]), ({"a": "x" + b"alone".hex()}, ["alone", None])):
            it.execute_with(statement, [], attributes)
            row = it.result(binary=True)[0]
            self.check("attributes of an execution without parameters", row == [*map(text, wanted)], (attributes, row))
        it.close()

    def mysql_metadata(self):
        """results and statements without definitions, with EOF packets and without"""
        for without in (0, DEPRECATE_EOF):
            it = self.mysql(flags=OPTIONAL_METADATA, without=without)
            self.check("optional metadata is agreed to", it.flags & OPTIONAL_METADATA and bool(it.flags & DEPRECATE_EOF) != bool(without), it.flags)
            rows = it.query("select 1, 'two'")
            self.check("a result with definitions", rows == [["x31", "x" + b"two".hex()]] and len(it.columns) == 2, rows)
            it.query("set resultset_metadata=none")
            it.columns = []
            rows = it.query("select 1, 'two'")
            self.check("a result without definitions", rows == [["x31", "x" + b"two".hex()]] and it.columns == [], rows)
            statement = it.prepare("select ?, 7")
            it.query("set resultset_metadata=full")
            it.execute_with(statement, ["i5"])
            rows = it.result(binary=True)
            self.check("an execution of a statement without definitions", rows == [["i5", "i7"]], rows)
            it.close()

    def mysql_cursor(self):
        """a cursor, whose rows are fetched, and its flags"""
        it = self.mysql(database="live")
        it.query("create table if not exists few (id int primary key)")
        it.query("replace into few values (1), (2), (3)")
        statement = it.prepare("select id from few where id > ? order by id")
        it.execute_with(statement, ["i0"], cursor="read_only")
        ended = it.counted()
        # (without EOF packets the rows of a cursor end at once)
        rows, status = it.rows(True)
        self.check("a cursor is opened", ended is None and rows == [] and status & CURSOR_EXISTS, (rows, status))
        for count, wanted, last in ((2, [["i1"], ["i2"]], False), (5, [["i3"]], True)):
            rows, status = it.fetch(statement, count)
            self.check("rows that are fetched", rows == wanted and bool(status & LAST_ROW_SENT) == last, (rows, status))
        it.close()

    def mysql_types(self):
        """values of each kind as parameters, and read back"""
        it = self.mysql()
        statement = it.prepare("select ?, ?, ?, ?, ?, ?, ?, hex(?)")
        for values in (["i-5", "u18446744073709551615", f"d{struct.unpack('<Q', struct.pack('<d', 1.5))[0]}", "x616263", "N", "D2024-2-29-1-2-3-4", "T1-1-2-3-4-5", "x00ff"],
                       ["i9223372036854775807", "u0", f"d{struct.unpack('<Q', struct.pack('<d', -0.25))[0]}", "x", "N", "D2020-1-2-0-0-0-0", "T0-0-0-0-0-0", "x"]):
            it.execute_with(statement, values)
            row = it.result(binary=True)[0]
            self.check("values that MySQL gives back", row[:7] == values[:7] and row[7] == "x" + values[7][1:].upper().encode().hex(), (values, row))
        it.close()

    def mysql_tracking(self):
        """changes of the session: a schema, a variable, the state, GTIDs"""
        it = self.mysql(database="live")
        it.query("set session session_track_schema=1, session_track_state_change=1, session_track_system_variables='*', session_track_gtids=OWN_GTID")
        it.query("set autocommit=0")
        self.check("a variable and a state change", f"name=x{b'autocommit'.hex()}" in it.changes and "is_tracked=yes" in it.changes, it.changes)
        it.query("set autocommit=1")
        it.query("use other")
        self.check("a schema", f"schema=x{b'other'.hex()}" in it.changes, it.changes)
        it.query("create table if not exists live.tracked (n int)")
        seen = [bytes.fromhex(one.split("=x")[1]) for one in it.changes if one.startswith("gtids=")]
        done = it.texts("select @@global.gtid_executed")[0][0]
        # (the last is read as servers send it, after the byte of its encoding)
        self.check("GTIDs", seen and seen[-1].split(b":")[0] == done.split(b":")[0], (seen, done))
        it.close()

    def mysql_dump(self):
        """a dump by a GTID set with tags"""
        it = self.mysql("root", b"")
        it.query("set gtid_next='AUTOMATIC:app'")
        it.query("create table if not exists live.tagged (n int)")
        it.query("set gtid_next='AUTOMATIC'")
        executed = it.texts("select @@global.gtid_executed")[0][0].decode()
        self.check("a tag in the server's set", ":app:" in executed, executed)
        it.query("insert into live.tagged values (7)")
        it.query("set @source_binlog_checksum='none', @master_binlog_checksum='none'")
        dump = self.probes[0].written(f"gtid_of_set {executed.replace(chr(10), '')}")
        # (BINLOG_DUMP_NON_BLOCK, so that it ends)
        it.command(dump[:1] + bytes([dump[1] | 1]) + dump[2:])
        events = []
        packet = it.receive()
        while packet[0] == 0:
            it.known("binlog_event")
            events.append(packet[5])
            packet = it.receive()
        it.known("eof")
        # (a rotation, the description, the set before the file, and the one transaction that the set lacks: a GTID event of either kind, a query, a table, rows, a commit)
        self.check("a dump by GTID", packet[0] == 0xFE and events[:3] == [4, 15, 35] and events[-1] == 16 and sum(one in (33, 42) for one in events) == 1, events)
        it.socket.close()
