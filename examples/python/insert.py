"""Inserts a list of tuples into a table of a MariaDB server, in the fewest requests that its packet limit allows.

insert.py PREFIX HOST PORT USER PASSWORD SCHEMA    PREFIX is where ./mypackets-c put the library; without arguments it says so

The socket is this file's own; each packet is read and written by the library."""
import socket
import sys
from collections.abc import Iterable, Sequence

from mysql_packets import Library, OkPacket, PacketError, ServerError, Session, Statement, Value


class Server:
    """A connection to a server, logged in by mysql_native_password."""

    def __init__(self, session: Session, host: str, port: int, user: str, password: str, schema: str) -> None:
        self.session, self.socket = session, socket.create_connection((host, port))
        greeting = session.read_handshake(self.receive())
        session.agree(greeting, session.wanted(), session.library.MYP_MARIADB_CLIENT_STMT_BULK_OPERATIONS)
        self.send(session.write_login(greeting, user, password, schema))
        self.answer()

    def exactly(self, count: int) -> bytes:
        got = b""
        while len(got) < count:
            got += self.socket.recv(count - len(got)) or sys.exit("the server closed the connection")
        return got

    def receive(self) -> bytes:
        length, sequence = self.session.read_header(self.exactly(4))
        self.sequence = (sequence + 1) % 256
        return self.exactly(length)

    def send(self, payload: bytes) -> None:
        self.socket.sendall(self.session.write_header(len(payload), self.sequence) + payload)

    def command(self, payload: bytes) -> None:
        self.sequence = 0
        self.send(payload)

    def answer(self) -> bytes:
        """The next packet, which is no error."""
        payload = self.receive()
        if self.session.is_error(payload):
            raise self.session.read_error(payload)
        return payload

    def query(self, sql: str) -> OkPacket:
        self.command(self.session.write_query(sql))
        return self.session.read_ok(self.answer())

    def prepare(self, sql: str) -> Statement:
        self.command(self.session.write_prepare(sql))
        statement = self.session.read_statement(self.answer())
        is_deprecated = self.session.capabilities & self.session.library.MYP_CLIENT_DEPRECATE_EOF
        ends = 0 if is_deprecated else (statement.params > 0) + (statement.columns > 0)
        for _ in range(statement.params + statement.columns + ends):
            self.receive()
        return statement

    def insert(self, sql: str, rows: Iterable[Sequence[Value]]) -> int:
        """Inserts tuples of one length, and answers how many requests that took."""
        statement, requests = self.prepare(sql), 0
        for payload in self.session.write_bulk(statement, rows):
            self.command(payload)
            self.session.read_ok(self.answer())
            requests += 1
        return requests


def main(prefix: str, host: str, port: str, user: str, password: str, schema: str) -> None:
    server = Server(Session(Library(prefix)), host, int(port), user, password, schema)
    server.query("CREATE OR REPLACE TABLE people (id BIGINT, name VARCHAR(40), height DOUBLE)")
    rows: list[Sequence[Value]] = [(number, f"name {number}", None if number % 3 else number / 4) for number in range(100_000)]
    requests = server.insert("INSERT INTO people VALUES (?, ?, ?)", rows)
    print(f"{len(rows)} rows in {requests} request{'s' if requests > 1 else ''}")


if __name__ == "__main__":
    if len(sys.argv) != 7:
        sys.exit(__doc__)
    try:
        main(*sys.argv[1:])
    except (PacketError, ServerError, OSError) as error:
        sys.exit(f"insert: {error}")
