#!/usr/bin/env python3
"""Real clients and a server whose packets the library for C reads and writes: the mariadb command line, libmariadb and PyMySQL.

clients.py [NAME ..]: the clients of these names, else all. The library is the one that tests/c/run.sh installs. A client that is not installed is
skipped (Debian: apt-get install mariadb-client libmariadb-dev python3-pymysql). The kinds of all packets, as this server knows them, are those
that the library's conversations answer. The last line is 'N passed, N failed'."""
import datetime
import shutil
import subprocess
import sys
import tempfile
import threading
from pathlib import Path

HERE = Path(__file__).resolve().parent
sys.path[:0] = [str(HERE), str(HERE.parent.parent / "examples/python"), str(HERE.parent / "probe")]
from conversations import other_kind, request
from lines import answers, built
from mysql_packets import Library
from served import CELLS, ERROR, PASSWORD, PARAMETERS, SCHEMA, UPDATED, USER
from server import Server

LOGIN = [it.decode() for it in (USER, PASSWORD, SCHEMA)]
DONE = f"{UPDATED['affected_rows']} {UPDATED['last_insert_id']} {UPDATED['warnings']} {UPDATED['info'].decode()}"


def shown(content):
    return "NULL" if content is None else "x" + content.hex()


class Clients:
    def __init__(self, port, server):
        self.port, self.server, self.passed, self.failures = str(port), server, 0, []

    def check(self, what, is_so, seen=""):
        if is_so:
            self.passed += 1
        else:
            self.failures.append(f"{what}: {str(seen)[:400]}")

    def same(self, client, wanted, lines):
        """Each wanted line stands among those that the client printed, in this order, and none beside them."""
        for number, line in enumerate(wanted):
            found = lines[number] if number < len(lines) else "nothing"
            self.check(f"{client}, line {number + 1}", found == line, f"{found} is not {line}")
        self.check(f"{client}: nothing else", len(lines) == len(wanted), lines[len(wanted):])

    def conversations(self):
        """Holds the packets of each conversation to their kinds, and to its end."""
        # (a client's last packet may still be coming)
        held = [tuple(zip(*list(it))) for it in self.server.conversations if it]
        for program in built("program"):
            for (packets, kinds), line in zip(held, answers(program, [request(packets) for packets, _ in held])):
                other = other_kind(packets, kinds, line)
                self.check("kinds of packets", not other and "at_rest=yes" in line.split(), other or line[-100:])

    # the clients

    def mariadb(self):
        """The command line: values as text, an error by its status and its line, info and warnings; a password that is wrong."""
        client = shutil.which("mariadb")
        if not client:
            return "mariadb-client"

        def run(sql, *flags, password=LOGIN[1]):
            return subprocess.run([client, "--no-defaults", "--protocol=tcp", "-h127.0.0.1", f"-P{self.port}", f"-u{LOGIN[0]}", f"-p{password}", "--skip-ssl",
                                   *flags, LOGIN[2], "-e", sql], capture_output=True, timeout=60)
        ran = run("SELECT cells", "--batch", "--raw")
        names, _, row = ran.stdout.partition(b"\n")
        self.check("mariadb: names", names.split(b"\t") == [it.name.encode() for it in CELLS], (names, ran.stderr))
        values = row.removesuffix(b"\n").split(b"\t")
        for cell, value in zip(CELLS, values):
            self.check(f"mariadb: {cell.name}", value == (b"NULL" if cell.text is None else cell.text), value)
        self.check("mariadb: a row", len(values) == len(CELLS), len(values))
        ran = run("SELECT nothing_here")
        wanted = f"ERROR {ERROR['code']} ({ERROR['sql_state'].decode()}) at line 1: {ERROR['message'].decode()}\n"
        self.check("mariadb: an error", ran.returncode == 1 and ran.stderr.decode().endswith(wanted), ran.stderr)
        ran = run("UPDATE cells", "-vv")
        self.check("mariadb: done", f"Query OK, {UPDATED['affected_rows']} rows affected, {UPDATED['warnings']} warnings" in ran.stdout.decode()
                   and UPDATED["info"] in ran.stdout, ran.stdout)
        ran = run("SELECT cells", password="wrong")
        self.check("mariadb: a wrong password", b"ERROR 1045 (28000): Access denied for user 'tester'" in ran.stderr, ran.stderr)
        return ""

    def libmariadb(self):
        """Both protocols, parameters of each kind, executions that send no types, long data, and changes of the session."""
        config = shutil.which("mariadb_config")
        if not config:
            return "libmariadb-dev"
        flags = {it: subprocess.run([config, it], capture_output=True, text=True).stdout.split() for it in ("--cflags", "--libs")}
        with tempfile.TemporaryDirectory() as folder:
            program = Path(folder) / "libmariadb"
            subprocess.run(["cc", *flags["--cflags"], "-o", program, HERE / "libmariadb.c", *flags["--libs"]], check=True)
            ran = subprocess.run([program, self.port, *LOGIN], capture_output=True, text=True, timeout=60)
        error = f"error {ERROR['code']} {ERROR['sql_state'].decode()} {ERROR['message'].decode()}"
        wanted = [f"text {it.name} {shown(it.text)}" for it in CELLS] + [f"text {error}"]
        wanted += [f"binary {it.name} {shown(it.text)}" for it in CELLS] + [f"binary {error}"]
        wanted += [f"sent p{place} {shown(it)}" for _ in range(2) for place, it in enumerate(PARAMETERS)]
        wanted += [f"done {DONE}", "change 0 autocommit", "change 0 OFF", "change 1 other"]
        self.same("libmariadb", wanted, ran.stdout.splitlines())
        return ""

    def pymysql(self):
        """Values as Python's."""
        python = next((it for it in (sys.executable, "/usr/bin/python3") if subprocess.run([it, "-c", "import pymysql"], capture_output=True).returncode == 0), None)
        if not python:
            return "python3-pymysql"
        ran = subprocess.run([python, HERE / "pymysql_client.py", self.port, *LOGIN], capture_output=True, text=True, timeout=60)

        def text(cell):
            if cell.type != "MYP_TYPE_TIME":
                return cell.text
            it = cell.value
            span = datetime.timedelta(it["days"], hours=it["hour"], minutes=it["minute"], seconds=it["second"])
            return str(-span if it["is_negative"] else span).encode()
        wanted = [f"text {it.name} {shown(text(it))}" for it in CELLS]
        wanted += [f"text error {ERROR['code']} {ERROR['message'].decode()}", f"done {DONE}"]
        self.same("PyMySQL", wanted, ran.stdout.splitlines() + ran.stderr.splitlines()[-1:])
        return ""


def main(*names):
    packets = Library(HERE.parent.parent / "target/c")
    with Server(("127.0.0.1", 0), packets) as server:
        threading.Thread(target=server.serve_forever, daemon=True).start()
        it = Clients(server.server_address[1], server)
        for name in names or ("mariadb", "libmariadb", "pymysql"):
            missing = getattr(it, name)()
            if missing:
                print(f"clients: {name} is skipped, since it is not installed (Debian: apt-get install {missing})")
        it.conversations()
        it.check("the server met no fault", not server.faults, server.faults)
        server.shutdown()
    for line in it.failures[-1:] + it.failures[:30]:
        print(f"clients: {line}")
    print(f"{it.passed} passed, {len(it.failures)} failed")
    return 1 if it.failures else 0


if __name__ == "__main__":
    sys.exit(main(*sys.argv[1:]))
