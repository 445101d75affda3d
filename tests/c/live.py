#!/usr/bin/env python3
"""The examples in C and Python against a MariaDB server, where one is installed. live.py PREFIX, where the library is installed.

The last line is 'N passed, N failed'."""
import os
import re
import subprocess
import sys
import tempfile
from pathlib import Path

TOP = Path(__file__).resolve().parent.parent.parent
sys.path[:0] = [str(TOP / "tests/live"), str(TOP / "tests/probe")]
import server
from lines import summary

ROWS = [f"row {n} 'odd' '{n / 2:.4f}' 2024-02-29 01:02:03" for n in range(99991, 100000, 2)]
BROKEN = ["row '1' 'a row'", "row '2' 'a row'", "error 1242 (21000): Subquery returns more than 1 row"]
WANTED = ["row '2' 'text' NULL", *BROKEN, *ROWS, "error 1146 (42S02): Table 'live.nothing_here' doesn't exist"]


# what the clients ask through the recorder, and what must be among the lines of it: of each client the same
ASKED = ["select 1, 'a' union all select 2, null", "create temporary table t (a int)", "insert into t values (1), (2), (3)", "select * from nothing_here"]
RECORDED = {
    "login native": 1, "command code=3 select 1, 'a' union all select 2, null": 1, "column_count columns=2": 1, "text_row 1 a": 1, "text_row 2 NULL": 1,
    "command code=3 insert into t values (1), (2), (3)": 1, "ok affected_rows=3": 1, "error 1146 Table 'live.nothing_here' doesn't exist": 1, "command code=1": 1,
}


def built(name, prefix, folder):
    """An example in C, built as a user builds it, and what it runs under."""
    environment = {**os.environ, "PKG_CONFIG_PATH": str(prefix / "lib/pkgconfig"), "LD_LIBRARY_PATH": str(prefix / "lib")}
    flags = subprocess.run(["pkg-config", "--cflags", "--libs", "mysql_packets"], env=environment, capture_output=True, text=True, check=True).stdout.split()
    program = Path(folder) / name
    subprocess.run(["cc", "-std=gnu11", "-Wall", "-Wextra", "-Werror", TOP / f"examples/c/{name}.c", *flags, "-o", program], check=True)
    return program, environment


def driver(prefix, folder, port):
    """What the driver in C prints."""
    program, environment = built("driver", prefix, folder)
    ran = subprocess.run([program, "127.0.0.1", str(port), "native", "secret", "live"], env=environment, capture_output=True, text=True, timeout=120)
    return ran.stdout.splitlines() + ran.stderr.splitlines()


def clients(port):
    """The commands that ask through this port, by the name of the client."""
    asks = "import sys, pymysql\nc = pymysql.connect(host='127.0.0.1', port=int(sys.argv[1]), user='native', password='secret', database='live').cursor()\n"
    for it in ASKED:
        asks += f"try: c.execute({it!r}); print(c.fetchall())\nexcept pymysql.err.ProgrammingError as error: print(error)\n"
    asks += "c.connection.close()"
    yield "mariadb", [server.found("mariadb"), "--no-defaults", "-h127.0.0.1", f"-P{port}", "-unative", "-psecret", "--skip-ssl", "--force", "live", "-e", "; ".join(ASKED)]
    python = next((it for it in (sys.executable, "/usr/bin/python3") if subprocess.run([it, "-c", "import pymysql"], capture_output=True).returncode == 0), None)
    if python:
        yield "pymysql", [python, "-c", asks, str(port)]


def recorded(prefix, folder, port):
    """What the recorder prints of each client's connection, up to its end."""
    program, environment = built("recorder", prefix, folder)
    own = server.free_port()
    with subprocess.Popen([program, str(own), "127.0.0.1", str(port)], env=environment, stdout=subprocess.PIPE, text=True) as recorder:
        recorder.stdout.readline()
        for name, command in clients(own):
            subprocess.run(command, capture_output=True, timeout=60)
            lines = []
            for line in recorder.stdout:
                lines.append(line.rstrip())
                if line.startswith("closed"):
                    break
            yield name, lines
        recorder.kill()


def wrong_in(lines):
    """What lacks among the lines of a connection, and what must not be there."""
    found = [re.sub(r"^[<>] \d+ ", "", it) for it in lines]
    lacks = [f"{count} lines '{line}'" for line, count in RECORDED.items() if sum(it.startswith(line) for it in found) < count]
    refused = [it for it in lines if "refused" in it]
    return lacks + refused + ["an end at which all is answered"] * (lines[-1:] != ["closed, all is answered"])


def rows_in(lines):
    """How many rows the requests of the driver took, of 1 MiB each at most, and whether the server has as many."""
    asked = [it.split() for it in lines if it.startswith("a request of ")]
    return sum(int(it[3]) for it in asked), sum(int(it[5]) for it in asked), len(asked)


# rows with DEFAULT and IGNORE, by the Python package: what is inserted, what is updated, and what the table then holds
CELLS = """
import sys
from mysql_packets import Cell, Library, Session
from insert import Server
server = Server(Session(Library(sys.argv[1])), "127.0.0.1", int(sys.argv[2]), "native", "secret", "live")
server.query("CREATE OR REPLACE TABLE cells (id INT, name VARCHAR(20) DEFAULT 'none', n INT DEFAULT 9)")
server.insert("INSERT INTO cells VALUES (?, ?, ?)", [(1, "a", 1), (2, Cell.DEFAULT, Cell.DEFAULT), (3, None, Cell.DEFAULT), (4, "d", None)])
server.insert("UPDATE cells SET name = ?, n = ? WHERE id = ?", [("b", Cell.IGNORE, 1), (Cell.IGNORE, 7, 2), (Cell.DEFAULT, Cell.DEFAULT, 4)])
"""
STORED = ["1\tb\t1", "2\tnone\t7", "3\tNULL\t9", "4\tnone\t9"]


def cells(prefix, port, ask):
    """What is wrong with a table after such requests."""
    ran = subprocess.run([sys.executable, "-c", CELLS, prefix, str(port)], capture_output=True, text=True, timeout=120, cwd=TOP / "examples/python")
    stored = ask("select id, name, n from cells order by id")
    return [] if stored == STORED and ran.returncode == 0 else [f"cells: {ran.stderr}{stored}"]


def main(prefix):
    missing = server.missing()
    if missing:
        print(f"live in C: skipped, since {', '.join(missing)} is not installed (Debian: apt-get install mariadb-server)")
        return summary("live in C", 0, [])
    prefix, passed, wrong = Path(prefix), 0, []
    with tempfile.TemporaryDirectory() as folder, server.running() as port:
        lines = driver(prefix, folder, port)
        shown = [it for it in lines if it.startswith(("row", "error", "driver"))]
        for number, line in enumerate(WANTED):
            if number < len(shown) and shown[number] == line:
                passed += 1
            else:
                wrong.append(f"driver: {shown[number] if number < len(shown) else lines} is not {line}")
        taken, stored, requests = rows_in(lines)
        # (100,000 rows of at least 15 bytes fit no fewer than two requests of 1 MiB)
        if taken == stored == 100_000 and requests >= 2:
            passed += 1
        else:
            wrong.append(f"driver: {taken} rows in {requests} requests, of which {stored} are stored")
        for name, lines in recorded(prefix, folder, port):
            lacks = wrong_in(lines)
            passed, wrong = passed + (not lacks), wrong + [f"recorder, {name}: {lacks}"] * bool(lacks)
        ran = subprocess.run([sys.executable, TOP / "examples/python/insert.py", prefix, "127.0.0.1", str(port), "native", "secret", "live"],
                             capture_output=True, text=True, timeout=120)

        def ask(query):
            client = [server.found("mariadb"), "--no-defaults", "-h127.0.0.1", f"-P{port}", "-unative", "-psecret", "live", "-BNe", query]
            answer = subprocess.run(client, capture_output=True, text=True)
            return answer.stdout.splitlines() + answer.stderr.splitlines()

        count = ask("select count(*), sum(id), count(height), sum(name = concat('name ', id)), sum(height = id / 4) from people")
        if ran.stdout == "100000 rows in 1 request\n" and count == ["100000\t4999950000\t33334\t100000\t33334"]:
            passed += 1
        else:
            wrong.append(f"insert.py: {ran.stdout}{ran.stderr}{count}")
        faults = cells(prefix, port, ask)
        passed, wrong = passed + (not faults), wrong + faults
    return summary("live in C", passed, wrong)


if __name__ == "__main__":
    sys.exit(main(*sys.argv[1:]))
