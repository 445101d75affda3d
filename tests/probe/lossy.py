#!/usr/bin/env python3
"""`mypackets conversation` where something is lost: recorded conversations of which a line is missing, marked as missing, cut, doubled or
broken, held to a second tracker and a second decoder that take up the streams where docs/USING.md says.

lossy.py             asks the program that rt ci leaves
lossy.py --rounds N  the same, and N times as many recordings again, of which something is lost twice (84 rounds are 100,000)
lossy.py --unproved  asks the program without proof, of every tenth of them
The last line is 'N passed, N failed'."""
import random
import re
import subprocess
import sys
import tempfile
from pathlib import Path

from conversations import FOLDER, pieces_of
from lines import TOP
from recorder import CLIENT, LONGEST, PROGRAM, SERVER, as_followed, as_lines, differs, mark, recorded

# how many bytes of a conversation are taken, and how many of its lines are changed in each way
BYTES, CHANGED = 12_000, 4


def front(path):
    """The first lines of a recorded conversation."""
    lines, size = [], 0
    for side, line in pieces_of(path):
        size += len(line)
        if size > BYTES:
            break
        lines.append((side, line))
    return lines


def changed(lines, chance):
    """Recordings of which something is lost, each with its name."""
    places = range(len(lines))
    for at in chance.sample(places, min(CHANGED, len(lines))):
        side, line = lines[at]
        yield f"line {at} is missing", lines[:at] + lines[at + 1 :]
        yield f"line {at} is marked", lines[:at] + [(side, mark(len(line)))] + lines[at + 1 :]
        yield f"line {at} is marked in its middle", lines[:at] + [(side, line[:7]), (side, mark(3)), (side, line[10:])] + lines[at + 1 :]
        yield f"line {at} is cut", lines[:at] + [(side, line[: len(line) // 2])] + lines[at + 1 :]
        yield f"line {at} comes twice", lines[:at] + [(side, line)] + lines[at:]
        yield f"line {at} without its front", lines[:at] + [(side, line[5:])] + lines[at + 1 :]
        broken = bytearray(line)
        broken[min(len(line) - 1, chance.randrange(8))] ^= 1 << chance.randrange(8)
        yield f"line {at} is broken", lines[:at] + [(side, bytes(broken))] + lines[at + 1 :]
    in_bytes = [(side, line[at : at + 1]) for side, line in lines[:40] for at in range(len(line))]
    if len(in_bytes) > 400:
        yield "a byte a line, of which one is missing", in_bytes[:400] + in_bytes[401:]


def some_lines():
    """A query of two frames, and what a second frame out of order does. (a connection after its login)"""
    start = list(pieces_of(FOLDER / "cli_notrack_13.txt.xz"))[:4]
    ping, ok = b"\1\0\0\0\x0e", b"\7\0\0\1\0\0\0\2\0\0\0"
    # a text that is a command's answer in its own words: a mark in a query is no line of its own
    query = b"\x03select '" + mark(5) + b"'"
    query = len(query).to_bytes(3, "little") + b"\0" + query
    yield "a mark in a query", start + [(CLIENT, query), (SERVER, ok)]
    yield "a mark before the greeting", [(SERVER, mark(90)), *start]
    yield "two marks", start + [(CLIENT, mark(9)), (SERVER, mark(7)), (CLIENT, ping), (SERVER, ok)]
    yield "a mark of no number", start + [(CLIENT, b"[ bytes missing in capture file]\0"), (CLIENT, ping)]
    yield "a mark of 20 digits", start + [(CLIENT, b"[12345678901234567890 bytes missing in capture file]\0"), (CLIENT, ping)]
    yield "nothing after it", start + [(SERVER, b"\1\0\0\1\xff"), (SERVER, ok[:5])]
    yield "an answer of another number", start + [(CLIENT, mark(9)), (CLIENT, ping), (SERVER, ok[:3] + b"\3" + ok[4:]), (SERVER, ok), (CLIENT, ping), (SERVER, ok)]
    yield "no answer to a close", start + [(CLIENT, mark(9)), (CLIENT, b"\5\0\0\0\x19\1\0\0\0"), (SERVER, b"left over"), (CLIENT, ping), (SERVER, ok)]
    yield "the front of a command before a loss", start + [(CLIENT, ping * 2 + b"\5\0\0\0\3"), (SERVER, mark(11)), (SERVER, ok), (CLIENT, b"ping")]
    yield "commands that wait are lost", start + [(CLIENT, ping * 3), (SERVER, mark(11)), (SERVER, ok), (CLIENT, ping), (SERVER, ok)]


def changed_twice(lines, chance):
    """Recordings of which something is lost in two places."""
    for name, it in changed(lines, chance):
        more = [*changed([line for line in it if line[1]], chance)]
        if more:
            again, twice = chance.choice(more)
            yield f"{name}, and {again}", twice


def asked_again(number):
    """The recordings of another round."""
    for path in sorted(FOLDER.glob("*.xz")):
        chance = random.Random(f"{path.name} {number}")
        for name, it in changed_twice(front(path), chance):
            form = as_lines if chance.random() < 0.5 else as_followed
            yield f"{path.name}, round {number}: {name}", "--json", form(it), recorded(it)


def asked():
    """The recordings: a name, the words, the input, and what is wanted."""
    for path in sorted(FOLDER.glob("*.xz")):
        lines, chance = front(path), random.Random(path.name)
        for name, it in changed(lines, chance):
            form = as_lines if chance.random() < 0.5 else as_followed
            yield f"{path.name}: {name}", "--json", form(it), recorded(it)
        yield f"{path.name}: payloads of 100 bytes", "--json 100", as_lines(lines), recorded(lines, 100)
    for name, it in some_lines():
        yield name, "--json", as_followed(it), recorded(it)


def ran(words, inputs):
    """What the program writes of each input, and its status."""
    for it in inputs:
        run = subprocess.run([PROGRAM, *words.split()], input=it, capture_output=True)
        yield run.stdout.decode().splitlines(), run.returncode


def tried(words, inputs):
    """The same of the program without proof, which hands on at most 1 MiB, and a status for all."""
    for at in range(0, len(inputs), 20):
        with tempfile.TemporaryDirectory() as folder:
            for number, it in enumerate(inputs[at : at + 20]):
                (Path(folder) / f"{number:04}").write_bytes(it)
            command = ["rt", "try", "--steps", "1", "--cases", folder, "--", *words.split()]
            run = subprocess.run(command, cwd=TOP / "crates/mypackets_conversation", stdin=subprocess.DEVNULL, capture_output=True, text=True)
        parts = re.split(r"^== (\d{4})\n", run.stdout, flags=re.M)[1:]
        for text in parts[1::2]:
            yield [line for line in text.splitlines() if line[:1] == "{"], None


def compared(wanted, lines):
    """Where the lines aren't as wanted, or no text."""
    for at, (want, line) in enumerate(zip(wanted, lines)):
        wrong = differs(want, line)
        if wrong:
            return f"line {at}: {wrong}"
    return "" if len(lines) == len(wanted) else f"{len(lines)} lines, and {len(wanted)} are wanted"


def failures(rows, run):
    """What is wrong of these recordings, and how many streams are taken up."""
    wrong, resync = [], 0
    for words in sorted({it[1] for it in rows}):
        some = [it for it in rows if it[1] == words]
        for (name, _, _, (wanted, ends)), (lines, status) in zip(some, run(words, [it[2] for it in some]), strict=True):
            why = compared(wanted, lines) or (f"the status is {status}" if status not in (None, ends) else "")
            resync += sum(it.get("kind") == "resync" for it in wanted)
            if why:
                wrong.append(f"{name}: {why}")
    return wrong, resync


def main(how="", rounds="0"):
    count, failed, resync = 0, 0, 0
    for number in range(int(rounds) + 1):
        rows = list(asked_again(number) if number else asked())
        if how == "--unproved":
            rows = rows[::10] + rows[-9:]
        wrong, found = failures(rows, tried if how == "--unproved" else ran)
        for it in wrong:
            print(it)
        count, failed, resync = count + len(rows), failed + len(wrong), resync + found
    print(f"lossy: {count} recordings, {resync} streams taken up")
    print(f"{count - failed} passed, {failed} failed")
    return 1 if failed else 0


if __name__ == "__main__":
    sys.exit(main(*sys.argv[1:]))
