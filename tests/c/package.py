#!/usr/bin/env python3
"""The Python package of examples/python, installed in an environment of its own, by pip where setuptools and wheel are: a session that a MariaDB
server recorded, packets of the protocol's pages, an exception a code, and where the library is found.

package.py PREFIX    PREFIX is where ./mypackets-c put the library
The last line is 'N passed, N failed'. Without venv it says that it is not run."""
import datetime
import decimal
import os
import shutil
import subprocess
import sys
import tempfile
from pathlib import Path

TOP = Path(__file__).resolve().parent.parent.parent
INSIDE = "--inside"


def installed(folder):
    """The Python of a new environment that has the package, or none."""
    python = Path(folder) / "venv/bin/python"
    source = Path(folder) / "source"
    shutil.copytree(TOP / "examples/python", source, ignore=shutil.ignore_patterns("__pycache__"))
    if subprocess.run([sys.executable, "-m", "venv", "--system-site-packages", python.parent.parent], capture_output=True).returncode:
        return None
    pip = [python, "-m", "pip", "install", "--quiet", "--no-index", "--no-deps", "--no-build-isolation", "--disable-pip-version-check", source]
    if subprocess.run([python, "-c", "import setuptools, wheel"], capture_output=True).returncode:
        print("package.py: pip can't build here, so the package is copied: it lacks setuptools or wheel")
        shutil.copytree(source / "mysql_packets", next(Path(folder).glob("venv/lib/*/site-packages")) / "mysql_packets")
    else:
        subprocess.run(pip, check=True)
    return python


def has_types():
    """Whether mypy --strict accepts the package and its example; none where mypy is not installed."""
    if shutil.which("mypy") is None:
        print("package.py: types are not checked: mypy is not installed")
        return None
    call = ["mypy", "--strict", "--cache-dir", os.devnull, "mysql_packets", "insert.py"]
    ran = subprocess.run(call, cwd=TOP / "examples/python", capture_output=True, text=True)
    print(ran.stdout if ran.returncode else "package.py: mypy --strict finds nothing")
    return ran.returncode == 0


def main(prefix):
    prefix = Path(prefix).resolve()
    with tempfile.TemporaryDirectory() as folder:
        python = installed(folder)
        if python is None:
            print("package.py: not run: there is no venv\n0 passed, 0 failed")
            return 0
        bare = {name: it for name, it in os.environ.items() if name not in ("MYSQL_PACKETS_PREFIX", "PYTHONPATH", "LD_LIBRARY_PATH")}
        named = {**bare, "MYSQL_PACKETS_PREFIX": str(prefix)}
        run = subprocess.run([python, __file__, INSIDE], cwd=folder, env=named, capture_output=True, text=True)
        *said, last = run.stdout.splitlines() or ["0 passed, 1 failed"]
        print("\n".join([*said, run.stderr]).strip())
        passed, failed = (int(it) for it in last.split() if it.isdigit())
        # (where no prefix is named and none is beside the package, that is said)
        finds = [python, "-c", "import mysql_packets; mysql_packets.Library()"]
        lost = subprocess.run(finds, cwd=folder, env=bare, capture_output=True, text=True)
        here = next(Path(folder).glob("venv/lib/*/site-packages/mysql_packets"))
        shutil.copy(prefix / "include/mysql_packets.h", here)
        shutil.copy(prefix / "lib/libmysql_packets.so", here)
        beside = subprocess.run(finds, cwd=folder, env=bare, capture_output=True, text=True)
        checks = {"a library that is not found is said": "mypackets-c" in lost.stderr, "the library beside it": not beside.returncode, "types": has_types()}
        for name, holds in checks.items():
            passed, failed = passed + (holds is True), failed + (holds is False)
            if holds is False:
                print(f"  FAILED: {name}: {lost.stderr}{beside.stderr}")
    print(f"{passed} passed, {failed} failed")
    return 1 if failed else 0


def frames(stream):
    """The payloads of a stream."""
    while stream:
        length = int.from_bytes(stream[:3], "little")
        yield stream[4 : 4 + length]
        stream = stream[4 + length :]


def inside():
    import mysql_packets as my

    passed = failed = 0

    def expect(name, got, want):
        nonlocal passed, failed
        passed, failed = passed + (got == want), failed + (got != want)
        if got != want:
            print(f"  FAILED: {name}: {got!r} is not {want!r}")

    def refused(name, kind, call, *arguments):
        try:
            expect(name, call(*arguments), kind)
        except my.PacketError as error:
            expect(name, type(error), kind)

    def invalid(name, row, column, call, *arguments):
        try:
            expect(name, call(*arguments), my.InvalidValue)
        except my.InvalidValue as error:
            expect(name, (error.row, error.column), (row, column))

    session, p = my.Session(), my.Library()
    # what a MariaDB 10.11 sent to a client that prepares and executes
    greeting, ok, prepared, *rest = frames((TOP / "crates/examples_driver/stdin").read_bytes())
    hello = session.read_handshake(greeting)
    expect("greeting", (hello.server_version, hello.connection_id, hello.auth_plugin), ("5.5.5-10.11.19-MariaDB-0+deb12u1-log", 6, "mysql_native_password"))
    expect("version", session.server_version(hello), (10, 11, 19))
    expect("another server's version", session.server_version(hello._replace(server_version="8.4.3")), (8, 4, 3))
    expect("nonce", (hello.nonce[:8], len(hello.nonce)), (b"H.Mv,t)k", 20))
    session.agree(hello, session.wanted() | p.MYP_CLIENT_SESSION_TRACK)
    login = session.write_login(hello, "me", "secret", "live")
    read = p.read("myp_read_login", login, into="myp_login")
    expect("login", (p.text(read.user), p.text(read.database), read.capabilities), (b"me", b"live", session.capabilities))
    # (by hashlib)
    expect("sha2", session.auth_response("caching_sha2_password", "password", b"abcdefghijklmnopqrst").hex(),
           "6584c404bc44a3d014cacc4fc823edc02991a53d5ae825ea0f91c7a0f1f26653")
    expect("no password", session.auth_response("caching_sha2_password", "", b"abcdefghijklmnopqrst"), b"")
    done = session.read_ok(ok)
    expect("login's OK packet", (done.status & 2, done.changes), (2, (my.Change(1, b"live", ()),)))
    statement = session.read_statement(prepared)
    expect("statement", statement, my.Statement(1, 2, 2, 0))
    params, columns, answer = rest[:2], [session.read_column(it) for it in rest[2:4]], rest[4:]
    expect("parameters", [session.read_column(it).name for it in params], ["?", "?"])
    expect("columns", [(it.name, it.column_type, it.is_unsigned) for it in columns], [("?", p.MYP_TYPE_VAR_STRING, False), ("?", p.MYP_TYPE_STRING, False)])
    count = session.read_column_count(answer[0])
    columns = [session.read_column(it) for it in answer[1 : 1 + count]]
    rows = [session.read_binary_row(it, columns) for it in answer[1 + count : -1]]
    expect("rows", rows, [(b"-5", b"abc"), (b"z", None)])
    expect("end", session.read_ok(answer[-1], "TERMINATOR").warnings, 0)

    # the same connection as an observer sees it, in pieces of 7 bytes
    watching = my.Session()

    def observed(side, *payloads):
        stream = b"".join(len(it).to_bytes(3, "little") + b"\0" + it for it in payloads)
        return [it for at in range(0, len(stream), 7) for it in watching.observe(side, stream[at : at + 7])]

    expect("observed greeting", [it[:2] + it[3:] for it in observed("server", greeting)], [("server", "handshake", hello, 0)])
    it = observed("client", login)[0]
    expect("observed login", (it.kind, it.record[:3], it.payload), ("login", ("me", "live", "mysql_native_password"), login))
    expect("agreed", watching.capabilities, session.capabilities)
    expect("observed OK packet", [it.record for it in observed("server", ok)], [done])
    expect("observed command", [it.record for it in observed("client", b"\x16select ?, ?")], [my.Command(22, "select ?, ?", 0)])
    it = observed("server", prepared, *rest[:4])
    expect("observed statement", ([it.kind for it in it], it[0].record), (["prepare_ok"] + ["column"] * 4, statement))
    execution = session.write_execution(statement, ["abc", 7])
    expect("observed execution", [it.record for it in observed("client", *execution)], [my.Execution(1, (b"abc", 7), ())])
    expect("observed rows", [it.record for it in observed("server", *answer) if it.kind == "binary_row"], rows)
    refused("a reply without a command", my.InvalidData, observed, "server", ok)
    # two executions at once, then a query, a reset and an execution of a statement that it removed; and the answers to the first three
    it = observed("client", *execution, *execution, b"\x03select 1", b"\x1f", *execution)
    expect("pipelined commands", [(one.exchange, one.record) for one in it],
           [(3, my.Execution(1, (b"abc", 7), ())), (4, my.Execution(1, (b"abc", 7), ())), (5, my.Command(3, "select 1", 0)), (6, my.Command(31, "", 0)), (7, my.Execution(1, None, ()))])
    it = observed("server", *answer, *answer)
    expect("rows of pipelined executions", [(one.exchange, one.record) for one in it if one.kind == "binary_row"], [(3, rows[0]), (3, rows[1]), (4, rows[0]), (4, rows[1])])
    it = observed("client", *[b"\x0e"] * 6)
    expect("eight wait", [one.exchange for one in it], [8, 9, 10, 11, 12, 13])
    refused("a ninth", my.TooManyCommands, observed, "client", b"\x0e")

    # packets of the protocol's pages
    error = bytes.fromhex("ff48042348593030304e6f207461626c65732075736564")
    expect("is an error", (session.is_error(error), session.is_error(ok)), (True, False))
    said = session.read_error(error)
    expect("error", (said.code, said.state, said.message, str(said)), (1096, "HY000", "No tables used", "1096 (HY000): No tables used"))
    expect("text row", session.read_text_row(b"\x011\xfb", columns), (b"1", None))
    kinds = {"LONG": b"\x01\0\0\0", "LONGLONG": b"\xff" * 8, "FLOAT": b"\x33\x33\x23\x41", "DOUBLE": b"\x66\x66\x66\x66\x66\x66\x24\x40",
             "DATETIME": bytes.fromhex("0bda070a11131b1e01000000"), "DATE": bytes.fromhex("04da070a11"), "TIME": bytes.fromhex("0c0178000000131b1e01000000")}
    types = [my.Column("", "", "", "", "", 63, 0, getattr(p, f"MYP_TYPE_{it}"), 0, 0) for it in kinds]
    row = session.read_binary_row(b"\0" + bytes(2) + b"".join(kinds.values()), types)
    whole, single = row[:2], row[2]
    expect("whole numbers", whole, (1, -1))
    expect("a float and a double", (abs(single - 10.2) < 1e-6, row[3]), (True, 10.2))
    expect("a date with its time", row[4], datetime.datetime(2010, 10, 17, 19, 27, 30, 1))
    expect("a date", row[5], datetime.datetime(2010, 10, 17))
    expect("a time", row[6], -datetime.timedelta(120, hours=19, minutes=27, seconds=30, microseconds=1))
    expect("an unsigned number", session.read_binary_row(b"\0\0" + b"\xff" * 8, [types[1]._replace(flags=32)]), (2**64 - 1,))
    expect("no date", session.read_binary_row(b"\0\0\0", [types[4]]), ("0000-00-00 00:00:00.000000",))

    # commands
    expect("query", session.write_query("select 1"), b"\x03select 1")
    expect("close", session.write_close(statement), b"\x19\x01\0\0\0")
    expect("execution", session.write_execution(statement, ["foobar"]), [bytes.fromhex("170100000000010000000001fd0006666f6f626172")])
    expect("long data", session.write_long_data(statement, 1, b"ab"), b"\x18\x01\0\0\0\x01\0ab")
    large = session.write_execution(statement, [b"x" * (1 << 24), 1])
    expect("an execution that is too large", [(it[0], len(it) > 1 << 24) for it in large], [(0x18, True), (0x17, False)])
    expect("bulk", [len(it) <= 1000 for it in session.write_bulk(statement, [(n, "x" * 100) for n in range(20)], 1004)], [True] * 3)
    expect("header", (session.write_header(5, 7), session.read_header(b"\5\0\0\7")), (b"\5\0\0\7", (5, 7)))

    # a server reads what a client writes, and a client what a server writes
    client, server = my.Session(), my.Session()
    flags = p.MYP_CLIENT_PROTOCOL_41 | p.MYP_CLIENT_SECURE_CONNECTION | p.MYP_CLIENT_PLUGIN_AUTH | p.MYP_CLIENT_CONNECT_WITH_DB | p.MYP_CLIENT_DEPRECATE_EOF
    offered = my.Handshake("8.4.3", 7, flags, 0, 2, b"abcdefghijklmnopqrst", "caching_sha2_password")
    hello = client.read_handshake(server.write_handshake(offered))
    expect("a server's greeting", hello, offered)
    client.agree(hello, client.wanted())
    it = server.read_login(client.write_login(hello, "me", "password", "live", plugin="caching_sha2_password"))
    expect("a client's login", (it.user, it.database, it.auth_plugin, it.auth_response.hex()),
           ("me", "live", "caching_sha2_password", "6584c404bc44a3d014cacc4fc823edc02991a53d5ae825ea0f91c7a0f1f26653"))
    server.agree(offered, it.capabilities, it.mariadb_capabilities)
    expect("agreed by both", server.capabilities, client.capabilities)
    said = my.OkPacket(3, 4, 2, 1, "", ())
    expect("a server's OK packet", (server.write_ok(said), client.read_ok(server.write_ok(said))), (bytes.fromhex("000304" "0200" "0100"), said))
    expect("a server's error", server.write_error(my.ServerError(1096, "HY000", "No tables used")), error)
    expect("a server's statement", client.read_statement(server.write_statement(statement)), statement)
    expect("a count of columns", client.read_column_count(server.write_column_count(300)), 300)
    column = my.Column("test", "t", "t", "a", "a", 63, 11, p.MYP_TYPE_LONG, 32, 0)
    expect("a server's column", client.read_column(server.write_column(column)), column)
    expect("a text row", server.write_text_row(["ab", None, 5]), b"\2ab\xfb\0015")
    expect("a binary row", client.read_binary_row(server.write_binary_row([7, None], [column, column]), [column, column]), (7, None))
    refused("a number past its column", my.InvalidInput, server.write_binary_row, [2**32], [column])
    expect("a command", server.read_command(b"\x03select 1"), my.Command(3, "select 1", 0))
    sent = client.write_execution(statement, ["abc", 7])[0]
    expect("an execution", server.read_execution(sent, [None, None]), (my.Execution(1, (b"abc", 7), ()), [(p.MYP_TYPE_VAR_STRING, 0), (p.MYP_TYPE_LONGLONG, 0)]))
    known = [(p.MYP_TYPE_TINY, 0), (p.MYP_TYPE_SHORT, 1)]
    expect("of types that are known", server.read_execution(bytes.fromhex("17010000000001000000" "00" "00" "fe" "ffff"), known), (my.Execution(1, (-2, 65535), ()), known))

    # replication
    gtids = "3e11fa47-71ca-11e1-9e33-c80aa9429562:1-8:_x9:4-5,\na0b1c2d3-e4f5-6789-abcd-ef0123456789:10-11"
    dump = session.write_dump(7, gtids)
    asked = p.read("myp_read_gtid_dump", dump, into="myp_gtid_dump")
    expect("dump by GTID set", (asked.server_id, asked.n_sids, asked.position, asked.flags), (7, 3, 4, p.MYP_DUMP_THROUGH_GTID))
    expect("its set", session.read_gtid_set(dump), gtids)
    refused("no GTID set", my.InvalidData, session.write_dump, 7, "3e11fa47:1")

    # an exception a code
    refused("no version", my.InvalidData, session.server_version, hello._replace(server_version="none"))
    refused("a cut packet", my.UnexpectedEof, session.read_ok, ok[:5])
    refused("another first byte", my.InvalidData, session.read_ok, b"\1" + ok[1:])
    refused("a length that no header has", my.InvalidInput, session.write_header, 1 << 24, 0)

    # what can't be sent is named by its place
    invalid("a row of fewer values", 1, 2, session.write_bulk, statement, [(1, 2, 3), (4, 5)])
    invalid("a row of more values", 2, 1, session.write_bulk, statement, [(1,), (2,), (3, 4)])
    invalid("an int outside 64 bits", 1, 0, session.write_bulk, statement, [(1, "a"), (2**64, "b")])
    invalid("a list is no bytes", 0, 1, session.write_bulk, statement, [(1, [1, 2])])
    invalid("an int and a text in one column", 1, 0, session.write_bulk, statement, [(1,), ("a",)])
    invalid("an int outside 64 bits as a parameter", None, 1, session.write_execution, statement, [1, -(2**63) - 1])
    aware = datetime.datetime(2024, 1, 1, tzinfo=datetime.timezone.utc)
    invalid("an aware datetime", None, 0, session.write_execution, statement, [aware])
    expect("ints and floats in one column", b"".join(session.write_bulk(statement, [(1,), (2.5,)])),
           bytes.fromhex("fa01000000" "8000" "0500" "00" "000000000000f03f" "00" "0000000000000440"))
    expect("types and a cursor", session.write_execution(statement, [-2, 65535], ["TINY", "SHORT UNSIGNED"], "READ_ONLY"),
           [bytes.fromhex("17010000000101000000" "00" "01" "01000280" "fe" "ffff")])
    invalid("no type", None, 0, session.write_execution, statement, [1], ["TINY SIGNED"])
    refused("a number past its type", my.InvalidInput, session.write_execution, statement, [128], ["TINY"])
    asked = my.Session()
    asked.capabilities = p.MYP_CLIENT_QUERY_ATTRIBUTES
    expect("an attribute", asked.write_execution(statement, [5], attributes={"d": "x"}),
           [bytes.fromhex("17010000000801000000" "02" "00" "01" "080000" "fd000164" "0500000000000000" "0178")])
    expect("DEFAULT and IGNORE", b"".join(session.write_bulk(statement, [(1, my.Cell.DEFAULT), (my.Cell.IGNORE, "a"), (None, my.Cell.IGNORE)])),
           bytes.fromhex("fa01000000" "8000" "0800" "fd00" "00" "0100000000000000" "02" "03" "00" "0161" "01" "03"))
    invalid("DEFAULT as a parameter", None, 0, session.write_execution, statement, [my.Cell.DEFAULT])
    expect("a decimal is its text", session.write_execution(statement, [decimal.Decimal("1.50")]), [bytes.fromhex("170100000000010000000001fd0004312e3530")])
    expect("a date", session.write_execution(statement, [datetime.date(2010, 10, 17)]), [bytes.fromhex("170100000000010000000001" "0c00" "04da070a11")])
    refused("a row past the limit", my.RowTooLarge, list, session.write_bulk(statement, [("x" * 2000,)], 1004))
    print(f"{passed} passed, {failed} failed")
    return 1 if failed else 0


if __name__ == "__main__":
    sys.exit(inside() if sys.argv[1:] == [INSIDE] else main(*sys.argv[1:]))
