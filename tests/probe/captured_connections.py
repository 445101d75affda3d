"""The captured packets of authentication and replication: what the probe is asked of each, and what was reported beside the
fields that captured.py knows."""
import json

from lines import TOP
from malformed import Reading
from described import describer

KINDS = {"handshake": "handshake", "handshake_response": "response", "auth_switch_request": "auth_switch",
         "auth_switch_request_old": "old_switch", "auth_more_data": "auth_more_data", "ssl_request": "tls",
         "change_user": "change_user CAPS", "register_slave": "register_slave", "binlog_dump": "binlog_dump",
         "semi_sync_ack": "semi_sync_ack"}


def x(text):
    return "x" + text.encode().hex()


# what was reported, as what the probe shows: name, name there, and how it is written
REPORTED = {
    "server_version": ("server_version", x), "server_version_without_5.5.5_prefix": ("server_version", lambda it: x(f"5.5.5-{it}")),
    "scramble": ("nonce", lambda it: f"x{it}"), "auth_plugin": ("auth_plugin_name", x), "pos": ("pos", str), "file": ("filename", x),
    "data": ("data", lambda it: f"x{it}"), "client_attrs": ("attributes", lambda it: str(len(it))),
}


def dumped_file():
    """The file that the replica asked for."""
    with open(TOP / "tests/captured/packets.jsonl", encoding="utf-8") as it:
        return next(packet["expected"]["input"]["file"] for packet in map(json.loads, it) if packet["kind"] == "binlog_dump")


def further(packet, asked, words):
    """What else must be answered of a packet, as what it is, whether it is so; and what that depends on."""
    expected = {key: value for source in packet.get("expected", {}).values() for key, value in source.items()}
    kind = packet["kind"]
    if "server_version_id" in expected:
        number = expected["server_version_id"]
        parts = [f"maria_db={number // 10000}", f"minor={number // 100 % 100}", f"patch={number % 100}"]
        place = next(i for i, it in enumerate(words) if it.startswith("maria_db="))
        yield "the version's number", words[place:place + 3] == parts
    if "client_attrs" in expected:
        pairs = [word for key, value in expected["client_attrs"].items() for word in (f"key={x(key)}", f"value={x(value)}")]
        yield "the attributes", [it for it in words if it.startswith(("key=", "value="))] == pairs
    if kind == "handshake_response":
        yield "some attributes", "attributes=none" not in words and "attributes=0" not in words
    if kind == "ssl_request":
        yield "the flags of both sides", f"capabilities={int(packet['caps'], 16)}" in words
    if kind == "semi_sync_ack":
        yield "the file of the dump", f"filename={x(dumped_file())}" in words
    if kind == "change_user":
        # (the packet has no getters: what the reference decoder finds is what is written, and read again)
        (user, _data, database), _more = Reading(describer(asked), bytes.fromhex(packet["payload"])).words.record
        yield "the user and the database", (user.decode(), database.decode()) == (expected["user"], expected["db"])


def differing(packet, asked, answer):
    """What differs of that; and how many reports there are."""
    answered = list(further(packet, asked, answer.split(" ")))
    return len(answered), [f"{what} is another" for what, is_so in answered if not is_so]
