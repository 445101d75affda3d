#!/usr/bin/env python3
"""From a capture to packets in one line: a real client and a real server are captured, and the capture is read by the line that
docs/USING.md has; and again with a segment of either side taken out of it.

capture.py               by the program that rt ci leaves
capture.py --unproved    by the program without proof
Where mariadb-server or tshark is not installed nothing is tested, and it says so. The last line is 'N passed, N failed'."""
import json
import shutil
import subprocess
import sys
import tempfile
import time
from pathlib import Path

TOP = Path(__file__).resolve().parents[2]
sys.path.insert(0, str(TOP / "tests/live"))
import server  # noqa: E402

PROGRAM = TOP / "crates/mypackets_conversation/out/mypackets_conversation"
# what the client asks, and what is known of the packets: of which kinds they are, and what one of each says
ASKED = "select 1 as one, 'zwei' as two, null as three; select 'ä'; select nothing from nowhere"
KINDS = (
    "handshake login ok command".split()
    + "column_count column column column eof text_row eof command column_count column eof text_row eof command error command".split()
)


def known(packets):
    """What is wrong with the packets of the session, or no text."""
    own = [it for it in packets if it.get("command") != "COM_QUERY" or "@@" not in it["query"]]
    first = next((at for at, it in enumerate(own) if it.get("query", "").startswith("select 1 as one")), None)
    if first is None:
        return "the query is not among the packets"
    kinds = [it["kind"] for it in own[first:]]
    if kinds != KINDS[3:]:
        return f"the kinds are {kinds}"
    if [it["kind"] for it in packets[:3]] != KINDS[:3]:
        return f"the first kinds are {[it['kind'] for it in packets[:3]]}"
    row = next(it for it in own[first:] if it["kind"] == "text_row")
    if row["value"] != ["1", "zwei", None]:
        return f"the row is {row['value']}"
    error = next(it for it in own[first:] if it["kind"] == "error")
    if (error["error"], error["sql_state"]) != (1046, "3D000"):
        return f"the error is {error}"
    if own[-1].get("command") != "COM_QUIT":
        return f"the last packet is {own[-1]}"
    return ""


def captured(port, path):
    """A session of the mariadb client, as tshark saves it."""
    tshark = subprocess.Popen(["tshark", "-q", "-i", "lo", "-f", f"tcp port {port}", "-w", path], stdout=subprocess.DEVNULL, stderr=subprocess.PIPE, text=True)
    for line in tshark.stderr:
        if "Capturing" in line:
            break
    time.sleep(1)
    client = [server.found("mariadb"), "--no-defaults", "--skip-ssl", "--force", "-h127.0.0.1", f"-P{port}", "-unative", "-psecret", "--batch", "-e", ASKED]
    subprocess.run(client, capture_output=True)
    time.sleep(1.5)
    tshark.terminate()
    tshark.wait()


def segments(path):
    """The segments of a capture that have bytes: number of the frame, whether it is the client's, and how many bytes."""
    fields = "-e frame.number -e tcp.dstport -e tcp.len -e tcp.payload".split()
    run = subprocess.run(["tshark", "-r", path, "-Y", "tcp.len > 0", "-T", "fields", *fields], capture_output=True, text=True)
    return [line.split("\t") for line in run.stdout.splitlines()]


def shown(path, program):
    """The packets of a capture, and the status."""
    run = subprocess.run(f"tshark -r {path} -q -z follow,tcp,raw,0 | {program} --json", shell=True, capture_output=True, text=True)
    return [json.loads(line) for line in run.stdout.splitlines()], run.returncode


def without(path, program, port, is_client):
    """What is wrong where a segment of the exchange of the second query is not in the capture, or no text."""
    found = segments(path)
    asked = next(at for at, it in enumerate(found) if "select 'ä'".encode().hex() in it[3])
    number, _, size, _ = found[asked] if is_client else next(it for it in found[asked:] if it[1] != str(port))
    subprocess.run(["editcap", path, f"{path}.less", number], capture_output=True)
    packets, status = shown(f"{path}.less", program)
    lost = [at for at, it in enumerate(packets) if it["kind"] == "lost"]
    if status != 1 or not lost:
        return f"the status is {status}, and {len(lost)} segments are lost"
    side = "client" if is_client else "server"
    if (packets[lost[0]]["side"], packets[lost[0]]["missing"]) != (side, int(size)):
        return f"it is {packets[lost[0]]}, of {size} bytes of the {side}"
    kinds = [it["kind"] for it in packets[lost[0] :] if it["kind"] not in ("lost", "no_resync")]
    # (tshark has the mark of the server's segment after the third command, whose answer is the next)
    wanted = ["resync", "error", "command"]
    if kinds != (["resync", "command", *wanted] if is_client else wanted):
        return f"what follows are {kinds}"
    before = [it for it in packets[: lost[0]] if it["kind"] == "text_row"]
    error = next(it for it in packets[lost[0] :] if it["kind"] == "error")
    return "" if before[-1]["value"] == ["1", "zwei", None] and error["error"] == 1046 else f"{before[-1]}, {error}"


def main(*words):
    lacking = server.missing() + [it for it in ("tshark", "editcap") if not shutil.which(it)]
    if lacking:
        print(f"capture: not tested, there is no {lacking[0]}")
        print("0 passed, 0 failed")
        return 0
    program = f"{TOP}/mypackets --unproved conversation" if words[:1] == ("--unproved",) else str(PROGRAM)
    with tempfile.TemporaryDirectory() as folder, server.running() as port:
        Path(folder).chmod(0o777)
        path = f"{folder}/capture.pcap"
        captured(port, path)
        packets, status = shown(path, program)
        wrongs = [f"the program ended with {status}" if status else known(packets)]
        wrongs += [it and f"without a segment: {it}" for it in (without(path, program, port, side) for side in (True, False))]
    for wrong in filter(None, wrongs):
        print(f"capture: {wrong}")
    failed = sum(bool(it) for it in wrongs)
    print(f"{len(wrongs) - failed} passed, {failed} failed")
    return 1 if failed else 0


if __name__ == "__main__":
    sys.exit(main(*sys.argv[1:]))
