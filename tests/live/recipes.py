"""The recipes of crates/examples_driver, each played by the program with a socket as its standard input and output."""
import hashlib
import os
import select
import socket
import struct
import subprocess
import tempfile
import threading
import time
from pathlib import Path

import passwords
import sha2
from lines import TOP

CRATE = TOP / "crates/examples_driver/out"


def built():
    """The builds of the program that rt ci leaves, by each compiler."""
    return [it for it in (CRATE / "examples_driver", CRATE / "examples_driver.by-rattle") if it.exists()]


class Played:
    """What a run wrote: the lines of a name, each without it."""

    def __init__(self, status, lines):
        self.status, self.lines = status, lines

    def of(self, name):
        return [it[len(name) + 1:].strip() for it in self.lines if it.startswith(f"{name}:")]


def played(program, port, recipe, *arguments, user="native", password="secret", database="live", answers=None):
    """Plays a recipe. `answers` computes what the program asks for: of the plugin's name or the public key, and the scramble."""
    with tempfile.TemporaryDirectory() as folder, socket.create_connection(("127.0.0.1", port), 60) as it:
        # (a timeout would leave the socket unblocking, for the program too)
        it.settimeout(None)
        pipe = Path(folder) / "answer"
        os.mkfifo(pipe)
        words = [program, recipe, user, password, pipe, database, *arguments]
        process = subprocess.Popen(words, stdin=it, stdout=it, stderr=subprocess.PIPE, text=True)
        lines = []
        for line in process.stderr:
            lines.append(line.rstrip("\n"))
            if line.startswith("answer: "):
                of, scramble = map(bytes.fromhex, line.split()[1:])
                pipe.write_text((answers or answered)(password.encode(), of, scramble).hex())
        return Played(process.wait(), lines)


def answered(password, of, scramble):
    if of != b"client_ed25519":
        raise ValueError(f"an answer by {of}")
    return passwords.ed25519(password, scramble)


class Recipes:
    """The sessions of live.py that the recipes play."""

    def recipes(self):
        """each recipe, by each build of the program"""
        self.check("the program of the recipes is built", built())
        for program in built():
            self.program = program
            for recipe in ("login", "sha2", "query", "execute", "changes", "bulk", "errors", "infile", "replica", "proxy"):
                getattr(self, f"recipe_{recipe}")()

    def played(self, recipe, *arguments, **how):
        return played(self.program, self.port, recipe, *arguments, **how)

    def recipe_login(self):
        for user, password in (("native", "secret"), ("ed", "secret"), ("root", "")):
            it = self.played("query", "select current_user()", user=user, password=password)
            name = bytes.fromhex(it.of("row")[0][1:]) if it.of("row") else b""
            self.check(f"the recipe's login of {user}", it.status == 0 and name.startswith(f"{user}@".encode()), it.lines)
        it = self.played("login", password="wrong")
        self.check("the recipe's wrong password", it.status == 1 and it.of("error")[0].startswith("ERROR 1045 (28000)"), it.lines)

    def recipe_sha2(self):
        """a server as MySQL's pages have it: both ways of caching_sha2_password, and a dump by GTID set"""
        if sha2.missing():
            print("live: caching_sha2_password is left out, since openssl is not installed")
            return
        for is_known in (True, False):
            server = sha2.Server(b"secret", is_known)
            it = played(self.program, server.port, "login", user="sha", answers=sha2.encrypted)
            self.check(f"caching_sha2_password, known: {is_known}", it.lines[-1:] == ["logged in"] and server.is_in and len(it.of("answer")) == (not is_known), it.lines)
        server = sha2.Server(b"other", True)
        it = played(self.program, server.port, "login", user="sha")
        self.check("caching_sha2_password of another", it.of("error") == ["ERROR 1045 (28000): Access denied"], it.lines)
        server = sha2.Server(b"secret", True)
        it = played(self.program, server.port, "replica", "9", "3E11FA47-71CA-11E1-9E33-C80AA9429562:1-5:7", user="sha")
        # flags 1 (no wait) and 4 (by GTID), the replica's number, no file, a position; 72 bytes: one uuid, 1 to 5 and 7 to 7, each last number and one
        wanted = "1e" + "0500" + "09000000" + "00000000" + "0400000000000000" + "40000000" + "0100000000000000" + "3e11fa4771ca11e19e33c80aa9429562" + \
            "".join(f"{number:02x}" + "00" * 7 for number in (2, 1, 6, 7, 8))
        self.check("a dump by GTID set", it.of("event") == [b"event".hex()] and server.commands[-1].hex() == wanted, (it.lines, server.commands[-1:], wanted))
        self.check("a registration", [one[0] for one in server.commands] == [0x15, 3, 0x1E] and server.commands[0][1:5] == b"\x09\0\0\0", server.commands)

    def recipe_query(self):
        it = self.played("query", "select 1, 'a', null union select 22, '', 'z'")
        self.check("the recipe's query", it.of("row") == ["x31 x61 N", "x3232 x x7a"], it.lines)

    def recipe_execute(self):
        for values in (["i-5", "u18446744073709551615", f"d{bits('d', 1.5)}", "x00ff", "N", "D2024-2-29-1-2-3-4", "T1-1-2-3-4-5"],
                       ["i9223372036854775807", "u0", f"d{bits('d', -0.25)}", "x", "N", "D2020-1-2-0-0-0-0", "T0-0-0-0-0-0"]):
            it = self.played("execute", "select ?, ?, ?, ?, ?, ?, ?", *values)
            self.check("the recipe's execution", it.of("row") == [" ".join(values)], it.lines)
        # frames of 16 MiB, both ways, and byte strings that are sent ahead of their execution
        it = self.played("execute", "select length(?), md5(?)", "r9000000", "r8000000")
        digest = hashlib.md5(b"r" * 8000000).hexdigest()
        self.check("the recipe's long data", it.of("row") == [f"i9000000 x{digest.encode().hex()}"], it.lines)
        # (a row of 16,777,211 bytes is a payload of 16,777,215, after which an empty frame comes)
        for size in (0xFFFFFF - 5, 0xFFFFFF - 4, 0xFFFFFF + 100):
            it = self.played("query", f"select repeat('r', {size})")
            self.check(f"the recipe's row of {size} bytes", it.of("row") == [f"r{size}"], [one[:80] for one in it.lines])

    def recipe_changes(self):
        it = self.played("session_changes", "set session session_track_schema=1, session_track_state_change=1, session_track_system_variables='*'",
                         "use other", "set autocommit=0")
        self.check("the recipe's changes", it.lines[-4:] == ["schema: other", "tracked: true", "variable: autocommit=OFF", "tracked: true"], it.lines)

    def recipe_bulk(self):
        # (signed and unsigned numbers in one column, under the type that is declared for it)
        rows = [["N" if k < 100 else f"u{k}" if k % 7 == 0 else f"i{k - 500}", f"i{k}" if k % 5 == 0 else f"u{2**64 - 1 - k}", f"x{k:06x}" if k % 3 else "N", "D2024-2-29-0-0-0-0"] for k in range(10000)]
        with tempfile.TemporaryDirectory() as folder:
            file = Path(folder) / "rows"
            file.write_text("".join(" ".join(row) + "\n" for row in rows))
            it = self.connect(database="live")
            it.query("create or replace table streamed (id int auto_increment primary key, n bigint, u bigint unsigned, b varbinary(40), d datetime)")
            sql = "insert into live.streamed (n, u, b, d) values (?, ?, ?, ?)"
            sent = self.played("bulk", sql, str(1 << 20), "8,8u,253,12", file)
            got = it.texts("select ifnull(n, 'N'), u, ifnull(hex(b), 'N'), date(d) from streamed order by id")
            wanted = [[row[0].lstrip("iu").encode(), row[1][1:].encode(), row[2].lstrip("x").upper().encode(), b"2024-02-29"] for row in rows]
            self.check("the recipe's bulk insert", got == wanted and sent.of("requests") == ["1"], (sent.lines, got[:2]))
            it.query("truncate streamed")
            sent = self.played("bulk", sql, "16384", "8,8u,253,12", file)
            count = it.texts("select count(*), sum(n is null) from streamed")[0]
            # (an indicator a value, and the values that are not NULL, byte strings with their length)
            sizes = [4 + sum({"N": 0, "i": 8, "u": 8, "x": 1 + len(word) // 2, "D": 5}[word[0]] for word in row) for row in rows]
            self.check("the recipe's bulk requests", count == [b"10000", b"100"] and sent.of("requests") == [str(fewest(sizes, 16384, 4))], sent.lines)
            file.write_text("i1 u1 N N\n" * 5 + "x61 u1 N N\n")
            it.query("truncate streamed")
            sent = self.played("bulk", sql, str(1 << 20), "8,8u,253,12", file)
            count = it.texts("select count(*) from streamed")[0]
            self.check("a row that its types don't spell", sent.of("error") == ["rows: value does not fit the declared type of its column"] and count == [b"0"],
                       (sent.lines, count))
            it.close()

    def recipe_errors(self):
        it = self.played("query", "select no_such_column")
        self.check("the recipe's error", it.of("error") == ["ERROR 1054 (42S22): Unknown column 'no_such_column' in 'SELECT'"], it.lines)
        other = self.connect("root", b"", database="live")
        other.query("create or replace table live.copied (n int)")
        other.query("insert into live.copied select seq from seq_1_to_20000")
        it = self.played("query", "alter table live.copied engine=aria, algorithm=copy")
        self.check("the recipe's reports", it.status == 0 and it.of("report")[0].startswith("Stage: 1 of 2 'copy to tmp table'"), it.lines)
        other.query("set global max_connections=10")
        held = [self.connect() for _ in range(9)]
        time.sleep(0.1)
        for _ in range(3):
            held.append(socket.create_connection(("127.0.0.1", self.port)))
        it = self.played("query", "select 1")
        self.check("the recipe's error in place of the greeting", it.of("error") == ["ERROR 1040: Too many connections"], it.lines)
        for one in held:
            one.close()
        time.sleep(0.3)
        other.query("set global max_connections=151")
        other.close()

    def recipe_infile(self):
        it = self.connect(database="live")
        it.query("create or replace table loaded (a int, b varchar(20))")
        with tempfile.TemporaryDirectory() as folder:
            file = Path(folder) / "content"
            file.write_text("".join(f"{k}\tline {k}\n" for k in range(5000)))
            sql = "load data local infile '/no/such/file' into table live.loaded"
            sent = self.played("infile", sql, "/no/such/file", file)
            count = it.texts("select count(*), sum(a), max(b) from loaded")[0]
            self.check("the recipe's local file", sent.of("loaded") == ["5000"] and count == [b"5000", b"12497500", b"line 999"], (sent.lines, count))
            sent = self.played("infile", sql, "/another/file", file)
            self.check("a file that was not meant", sent.of("error") == ["unknown: a file that was not meant"], sent.lines)
        it.close()

    def recipe_replica(self):
        """the events after a position, of which the last is of a row that was inserted then"""
        it = self.connect("root", b"")
        # (each build's driver is played, so the last one's table may stand)
        it.query("drop table if exists live.replicated")
        it.query("create or replace table live.copied (n int)")
        position = it.texts("select @@gtid_binlog_pos")[0][0].decode()
        it.query("create table live.replicated (n int)")
        it.query("insert into live.replicated values (12345)")
        got = self.played("replica", "9", position, user="root", password="")
        events = [bytes.fromhex(one) for one in got.of("event")]
        kinds = [event[4] for event in events]
        statements = [event for event in events if event[4] == 2]
        # a rotation and the format, and of what was logged since then a query event of each statement
        self.check("the recipe's dump", kinds[:2] == [4, 15] and got.status == 0 and len(statements) == 2
                   and b"create table live.replicated (n int)" in statements[0] and b"insert into live.replicated values (12345)" in statements[1],
                   (kinds, got.lines[-2:]))
        it.close()

    def recipe_proxy(self):
        """recorded sessions of the other recipes: what goes on is what came, whichever pieces a side sends, and each value of a row or an execution is read"""
        file = Path(__file__)
        local = ["load data local infile '/x' into table live.loaded lines starting by 'no such'", "/x", file]
        # (what goes on as it came: rows, the parts of a file and its end, reports of progress)
        for recipe, arguments, as_sent, values in (("query", ["select 1, 'a', null union select 22, '', 'z'"], 2, 6), ("query", ["select no_such_column"], 0, 0),
                                           ("infile", local, -(-file.stat().st_size // 8192) + 1, 0), ("execute", ["select ?, ? union select 'z', null", "i-5", "x616263"], 2, 6),
                                           ("query", [f"select repeat('r', {0xFFFFFF + 100})"], 1, 1)):
            lines = []
            with socket.create_server(("127.0.0.1", 0)) as listener:
                relay = threading.Thread(target=relayed, args=(listener, self.port, lines))
                relay.start()
                as_sent += len(played(self.program, listener.getsockname()[1], recipe, *arguments).of("report"))
                relay.join()
            for size in (1 << 30, 3, 1000):
                if size == 3 and len(lines) > 100:
                    continue
                came = [f"{side} {digits[k:k + 2 * size]}" for side, digits in lines for k in range(0, len(digits), 2 * size)]
                it = subprocess.run([self.program, "proxy"], input="\n".join(came) + "\n", capture_output=True, text=True)
                self.check(f"the proxy of {recipe}, in pieces of {size}", len(came) >= 5 and it.returncode == 0 and joined(it.stdout) == joined("\n".join(came))
                           and it.stderr.endswith(f", as sent: {as_sent}\n") and f"values: {values}," in it.stderr, (len(came), it.stderr[-300:]))


def relayed(listener, port, lines):
    """Passes one connection on to the server, and keeps each piece of a side."""
    client, _ = listener.accept()
    with client, socket.create_connection(("127.0.0.1", port), 60) as server:
        sides = {client: ("client", server), server: ("server", client)}
        while True:
            for it in select.select(list(sides), [], [])[0]:
                piece = it.recv(1 << 16)
                if not piece:
                    return
                name, other = sides[it]
                lines.append((name, piece.hex()))
                other.sendall(piece)


def joined(text):
    """What each side sent in all."""
    sides = {"client": [], "server": []}
    for line in text.splitlines():
        side, digits = line.split(" ")
        sides[side].append(digits)
    return {side: "".join(them) for side, them in sides.items()}


def bits(kind, number):
    """The bits of a float, as a number."""
    return int.from_bytes(struct.pack(f"<{kind}", number), "little")


def fewest(sizes, most, columns):
    """How many requests rows of these sizes take at least: the head of a packet, that of a request, and types in the first."""
    requests, left = 0, 0
    for size in sizes:
        if size > left:
            left = most - 4 - 7 - (0 if requests else 2 * columns)
            requests += 1
        left -= size
    return requests
