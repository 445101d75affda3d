#!/usr/bin/env python3
"""The table of docs/PROTOCOL.md that says from which servers each packet was recorded: how many of each kind, and of each command, the recorded
conversations have.

versions.py          prints the table
versions.py --check  compares the page with it"""
import sys
from collections import Counter
from pathlib import Path

TOP = Path(__file__).resolve().parent.parent.parent
sys.path[:0] = [str(TOP / "tests"), str(TOP / "tests/probe")]
from conversations import FOLDER, recorded  # noqa: E402
from reference_decoder.conversation import Refused, Session  # noqa: E402
from watcher import COMMANDS, KINDS  # noqa: E402

SERVERS = {b"9.7.4": "MySQL 9.7.4", b"11.8.9": "MariaDB 11.8.9", b"5.5.5-10.11.19": "MariaDB 10.11.19"}
PAGE = TOP / "docs/PROTOCOL.md"
HEAD = ["| Packet | " + " | ".join(SERVERS.values()) + " |", "|---|" + "---|" * len(SERVERS)]


def server_of(packets):
    """The server of a conversation, by the version in its greeting; that of another one has no greeting."""
    version = packets[0].payload[1:].split(b"\0")[0] if packets[0].payload[:1] == b"\x0a" else b"5.5.5-10.11.19"
    return next(name for start, name in SERVERS.items() if version.startswith(start))


def counted():
    """How many packets of each name each server's conversations have."""
    found = {name: Counter() for name in SERVERS.values()}
    for path in sorted(FOLDER.glob("*.xz")):
        packets, session = recorded(path), Session(4096)
        of = found[server_of(packets)]
        for packet in packets:
            try:
                kind = session.next(packet.side, packet.payload)[0].split(":")[0]
            except Refused:
                break
            if packet.begins_tls:
                session.tls_established()
            of[COMMANDS.get(packet.payload[0], "another command") if kind == "command" else kind] += 1
    return found


def table():
    found = counted()
    names = [it for it in KINDS if it != "command"] + [*dict.fromkeys(COMMANDS.values()), "another command"]
    rows = [(name, [of[name] for of in found.values()]) for name in names]
    return HEAD + [f"| {f'`{name}`' if name in KINDS else name} | " + " | ".join(f"{n:,}" if n else "" for n in counts) + " |" for name, counts in rows if any(counts)]


def main(*words):
    lines = table()
    if words != ("--check",):
        print("\n".join(lines))
        return 0
    page = PAGE.read_text().splitlines()
    at = page.index(HEAD[0]) if HEAD[0] in page else len(page)
    if page[at : at + len(lines)] == lines:
        return 0
    print("docs/PROTOCOL.md: the table of recorded packets is not what tests/captured/versions.py prints")
    return 1


if __name__ == "__main__":
    sys.exit(main(*sys.argv[1:]))
