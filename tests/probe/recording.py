#!/usr/bin/env python3
"""`mypackets conversation`: recorded conversations, and what the program shows of each packet, held to a second tracker and a second decoder
that are written from the protocol's pages.

recording.py   asks the program that rt ci leaves. The last line is 'N passed, N failed'."""
import json
import subprocess
import sys
import time
from pathlib import Path

from conversations import FOLDER, Packet, packets_of, pieces_of, recorded_end
from lines import TOP
from recorder import CLIENT, PROGRAM, SERVER, as_followed, as_lines, differs, recorded
from watcher import COMMANDS, Watcher

# conversations that were made by hand: what comes early, what isn't known, and what is sent in a semi-synchronous stream
MADE = TOP / "tests/captured/made"


def in_bytes(pieces):
    return "".join(f"{side} {byte:02X}\r\n" for side, piece in pieces for byte in piece).encode()


def summed(packets):
    """What packets come to, by what is wanted of each."""
    kinds, exchanges, errors, opened = {}, {}, {}, {}
    for it in packets:
        tally = kinds.setdefault((it["side"], it["kind"]), [0, 0])
        tally[0] += 1
        tally[1] += it["size"]
        payload = bytes.fromhex(it["payload"])
        if it["kind"] == "command":
            name = str(COMMANDS.get(payload[0], payload[0]))
            exchanges[name] = exchanges.get(name, 0) + 1
            if name in ("COM_CHANGE_USER", "COM_RESET_CONNECTION"):
                opened.clear()
            elif name == "COM_STMT_CLOSE":
                opened.pop(int.from_bytes(payload[1:5], "little"), None)
        if it["kind"] in ("error", "unsolicited_error"):
            code = str(int.from_bytes(payload[1:3], "little"))
            errors[code] = errors.get(code, 0) + 1
        if it["kind"] == "prepare_ok":
            opened[int.from_bytes(payload[1:5], "little")] = True
    return {
        "kind": "sum", "packets": len(packets), "rows": sum(it["kind"] in ("text_row", "binary_row") for it in packets),
        "exchanges": exchanges, "errors": errors, "open_statements": sorted(opened),
        "kinds": [{"side": side, "kind": kind, "packets": n, "bytes": size} for (side, kind), (n, size) in kinds.items()],
    }


def sums_differ(name, words, pieces, wanted):
    """What is wrong with the sums of a conversation, or no text."""
    run = subprocess.run([PROGRAM, "--json", "--sum", *words], input=as_lines(pieces), capture_output=True)
    came = [it for it in wanted if "sequence" in it and it["kind"] != "refused"]
    wrong = differs(summed(came), run.stdout.splitlines()[-1])
    largest = sorted((it["size"] for it in came), reverse=True)[:5]
    if not wrong and [it["size"] for it in json.loads(run.stdout.splitlines()[-1])["largest"]] != largest:
        wrong = f"the largest are not {largest}"
    return wrong and f"{name}: sums: {wrong}"


def compared(name, wanted, output, is_status):
    """What is wrong with what the program wrote of a conversation, or no text."""
    lines = output.decode().splitlines()
    if len(lines) != len(wanted):
        return f"{name}: {len(lines)} packets, and by the pages {len(wanted)}"
    for at, (want, line) in enumerate(zip(wanted, lines)):
        wrong = differs(want, line)
        if wrong:
            return f"{name}: packet {at}: {wrong}"
    return "" if is_status else f"{name}: another status"


def resync(packets, limit=4):
    """Places at which a connection is taken up, each with what both sides agreed on and what is wanted from there on."""
    watcher, wanted, places = Watcher(any(it.begins_tls for it in packets)), [], []
    for at, packet in enumerate(packets):
        is_between = not watcher.session.before and watcher.session.is_idle()
        it, comes = watcher.wanted(packet)
        if not comes:
            break
        if is_between and it["kind"] == "command":
            places.append(at)
        wanted.append({name: it[name] for name in ("side", "sequence", "kind", "size")})
    step = max(1, len(places) // limit)
    for at in places[::step][:limit]:
        # (an answer that came before is passed over)
        front = 1 if at and packets[at - 1].side == SERVER else 0
        yield packets[at - front : len(wanted)], (watcher.session.flags, watcher.session.own), wanted[at:]


def wrong_amid(name, packets):
    """How many places a connection was taken up at, and what was wrong at them."""
    wrong, places = [], list(resync(packets))
    for rest, (flags, own), wanted in places:
        words = ["--json", f"caps={flags:x}", f"mariadb={own:x}"]
        run = subprocess.run([PROGRAM, *words], input=as_lines([(it.side, it.bytes()) for it in rest if len(it.payload) < 0xFFFFFF]), capture_output=True)
        lines = run.stdout.splitlines(keepends=True)
        passed = [json.loads(it)["skipped_bytes"] for it in lines if b'"resync"' in it or b'"no_resync"' in it]
        shown_ones = b"".join(it for it in lines if b'"skipped_bytes"' not in it)
        wrong += [it for it in [compared(f"{name}: taken up", wanted, shown_ones, not run.returncode)] if it]
        front = len(rest[0].bytes()) if rest[0].side == SERVER else 0
        if sum(passed) != front:
            wrong.append(f"{name}: {passed} bytes are passed over, of {front}")
    return len(places), wrong


def bounded():
    """100 MB of a recording in bounded memory: what is wrong, or no text."""
    pieces = list(pieces_of(FOLDER / "cli_notrack_13.txt.xz"))[:3]
    query = Packet(CLIENT, 0, b"\x03" + b"insert into t values (" + b"7," * 4000 + b"7)").bytes()
    answer = Packet(SERVER, 1, bytes.fromhex("00000002000000")).bytes()
    exchange = as_lines([(CLIENT, query), (SERVER, answer)])
    began = time.time()
    count = 100_000_000 // len(exchange) + 1
    run = subprocess.Popen([PROGRAM, "--sum"], stdin=subprocess.PIPE, stdout=subprocess.PIPE)
    tail = subprocess.Popen(["tail", "-n", "40"], stdin=run.stdout, stdout=subprocess.PIPE, text=True)
    run.stdin.write(as_lines(pieces))
    for _ in range(count):
        run.stdin.write(exchange)
    run.stdin.flush()
    status = Path(f"/proc/{run.pid}/status").read_text()
    run.stdin.close()
    run.stdout.close()
    said, ended = tail.communicate()[0], run.wait()
    used = int(next(line.split()[1] for line in status.splitlines() if line.startswith("VmHWM")))
    print(f"recording: 100 MB in {time.time() - began:.1f} s, at most {used // 1024} MiB of memory")
    if ended or f"packets: > command {count}, {count * (len(query) - 4)} bytes" not in said:
        return f"100 MB: the status is {ended}, and it says {said!r}"
    return "" if used < 32 * 1024 else f"100 MB take {used} KiB of memory"


def wrong_made():
    """What is wrong with what is shown of each made recording, or no text."""
    for path in sorted(MADE.glob("*.xz")):
        wanted, status = recorded(list(pieces_of(path)))
        run = subprocess.run([PROGRAM, "--json"], input=as_lines(pieces_of(path)), capture_output=True)
        yield compared(path.name, wanted, run.stdout, run.returncode == status)


def main():
    passed = failed = 0
    for path in sorted(FOLDER.glob("*.xz")):
        pieces = list(pieces_of(path))
        words = ["--deciphered"] if "deciphered" in recorded_end(path.name) else []
        wanted, status = recorded(pieces, is_deciphered=bool(words))
        # (of a loss in a line of one byte nothing is taken up)
        is_short = sum(len(it) for _, it in pieces) < 50_000 and not status
        forms = [("lines", as_lines), ("followed", as_followed)] + ([("bytes", in_bytes)] if is_short else [])
        for form, written in forms:
            data = written(pieces)
            run = subprocess.run([PROGRAM, "--json", *words], input=data, capture_output=True)
            wrong = compared(f"{path.name}: {form}", wanted, run.stdout, run.returncode == status)
            passed, failed = passed + (not wrong), failed + bool(wrong)
            if wrong:
                print(wrong)
        run = subprocess.run([PROGRAM, *words], input=as_lines(pieces), capture_output=True)
        heads = [it for it in run.stdout.decode().splitlines() if it[:2] in ("> ", "< ")]
        want = [f"{'>' if it['side'] == 'client' else '<'} {it.get('sequence', '')} {it['kind']}".replace("  ", " ") for it in wanted]
        right = heads == want
        passed, failed = passed + right, failed + (not right)
        if not right:
            print(f"{path.name}: the lines of its packets differ")
        packets = packets_of(pieces, bool(words))
        places, faults = wrong_amid(path.name, packets) if all(len(it.payload) < 0xFFFFFF for it in packets) else (0, [])
        passed, failed = passed + places - len(faults), failed + len(faults)
        for wrong in faults:
            print(wrong)
        wrong = sums_differ(path.name, words, pieces, wanted)
        passed, failed = passed + (not wrong), failed + bool(wrong)
        if wrong:
            print(wrong)
    for wrong in [*wrong_made(), bounded()]:
        passed, failed = passed + (not wrong), failed + bool(wrong)
        if wrong:
            print(wrong)
    print(f"{passed} passed, {failed} failed")
    return 1 if failed else 0


if __name__ == "__main__":
    sys.exit(main())
