"""The captured replies, statements, rows and bulk executions: what is asked of each, and what differs from what was reported.

A report of None says nothing, except for the info of an OK packet."""
import json
from itertools import zip_longest

from captured_values import bound_rows, row_of
from lines import TOP

with open(TOP / "tests/captured/packets.jsonl", encoding="utf-8") as it:
    PACKETS = [json.loads(line) for line in it]

# how a request of each kind begins; of those that are read and written again, and of those that are read alone
WRITTEN_AGAIN = {"column": "column", "err": "err CAPS", "progress": "err CAPS", "stmt_prepare_ok": "stmt"}
READ_ALONE = {"ok_common": "ok CAPS", "ok_terminator": "ok_end CAPS", "eof_old": "ok_eof CAPS", "text_row": "row_text COLUMNS",
              "binary_row": "row COLUMNS", "stmt_bulk_execute": "bulk_rows COLUMNS"}
# of those that a client writes of what was handed in, the whole request
WRITTEN_ALONE = {"stmt_close": "close {stmt_id}", "stmt_send_long_data": "long_data {stmt_id} {param} {data}"}
KINDS = {*WRITTEN_AGAIN, *READ_ALONE, *WRITTEN_ALONE}

# names that an API gives, and those that the probe shows
TEXTS = {"db": "schema", "table": "table", "org_table": "org_table", "name": "name", "org_name": "org_name", "sqlstate": "sql_state", "message": "message"}
NUMBERS = {"charsetnr": "character_set", "length": "column_length", "type": "column_type", "flags": "flags", "decimals": "decimals",
           "errno": "error", "affected_rows": "affected_rows", "server_status": "status_flags", "warnings": "warnings",
           "stage": "stage", "max_stage": "max_stage", "stmt_id": "statement_id", "field_count": "num_columns", "param_count": "num_params"}
# what may change in a session, by its type: the name that an API gives, and the names of the words that describe it
CHANGES = {0: ("system_variables", ("name", "value")), 1: ("schema", ("schema",)), 2: ("state_change", ("data",)), 3: ("gtids", ("gtids",)),
           4: ("transaction_characteristics", ("characteristics",)), 5: ("transaction_state", ("state",))}


def capabilities(packet):
    """The flags of both sides. MariaDB's own flag for progress reports is that of older clients to a reader here."""
    return int(packet["caps"], 16) | (int(packet["ext_caps"], 16) & 1) << 29


def columns(packet):
    if packet["kind"] == "stmt_bulk_execute":
        return bound_rows(packet, PACKETS)[0]
    # ('columns' lacks some of a few text rows, so that they are as many as an API reported of the same bytes)
    same = [it for it in PACKETS if packet["kind"] == "text_row" and it["kind"] == "text_row" and it["payload"] == packet["payload"]]
    counts = [len(it["expected"]["api"]["values"]) for it in same if "expected" in it]
    if counts and counts[0] != len(packet["columns"]):
        return ",".join(["253"] * counts[0])
    return ",".join(f"{code}{'u' if flags & 32 else ''}" for code, flags in packet["columns"])


def request(packet):
    kind = packet["kind"]
    if kind in WRITTEN_ALONE:
        return WRITTEN_ALONE[kind].format(**packet["expected"]["input"])
    head = {**WRITTEN_AGAIN, **READ_ALONE}[kind]
    if kind == "column" and int(packet["ext_caps"], 16) & 8:
        head = f"extended_column {int(packet['ext_caps'], 16)}"
    if "COLUMNS" in head:
        head = head.replace("COLUMNS", columns(packet))
    return f"{head.replace('CAPS', str(capabilities(packet)))} {packet['payload']}"


def reported(packet):
    """The words that must be answered of a packet, by what was reported."""
    api = packet.get("expected", {}).get("api", {})
    words = [f"{TEXTS[name]}=x{value.encode().hex()}" for name, value in api.items() if name in TEXTS and value is not None]
    words += [f"{NUMBERS[name]}={int(value)}" for name, value in api.items() if name in NUMBERS and value is not None]
    if "last_insert_id" in api:
        words.append(f"last_insert_id={api['last_insert_id'] or 'none'}")
    if "info" in api:
        words.append("info=none" if api["info"] is None else f"info=x{api['info'].encode().hex()}")
    if packet["kind"] == "progress":
        words += [f"progress={round(1000 * api['progress_percent'])}", f"stage_info=x{api['proc_info']}"]
    if packet["kind"] == "stmt_prepare_ok":
        words = [it.replace("warnings=", "warning_count=") for it in words]
    return words


def changes(words):
    """What the words describe of a session, as an API reports it."""
    found, kind = {}, None
    for word in words:
        name, _, value = word.partition("=")
        if name == "data_type":
            kind = int(value)
        elif kind is not None and name in CHANGES[kind][1]:
            found.setdefault(CHANGES[kind][0], []).append(value.removeprefix("x"))
    return found


def differing_rows(packet, words):
    """The values of rows, and what was reported of them where something was."""
    if packet["kind"] == "stmt_bulk_execute":
        answered = [it.removeprefix("values=").split(",") for it in words if it.startswith("values=")]
        wanted = bound_rows(packet, PACKETS)[1]
    else:
        answered, wanted = [words[1:words.index("made=same")]], [row_of(packet, columns(packet).count(",") + 1)]
    if len(answered) != len(wanted):
        return 0, [f"{len(wanted)} rows were reported, and not {len(answered)}"]
    pairs = [pair for row in zip(answered, wanted) for pair in zip_longest(*row, fillvalue="nothing")]
    # (whether a number is one without a sign is not reported)
    wrong = [f"{right} was reported, and not {value}" for value, right in pairs if right not in ("-", value, "n" + value[1:])]
    return sum(right != "-" for _, right in pairs), wrong


def differing(packet, answer):
    """How many reports there are, and what of the answer differs from them."""
    words, kind = answer.split(" "), packet["kind"]
    if kind in WRITTEN_ALONE:
        return 1, [] if f"written=x{packet['payload']}" in words else ["it is written otherwise"]
    wrong = [] if "rest=0" in words else ["bytes are left"]
    if kind in WRITTEN_AGAIN and "written=same" not in words:
        wrong.append("it is written otherwise")
    if wrong:
        return 0, wrong
    if kind.endswith("_row") or kind == "stmt_bulk_execute":
        return differing_rows(packet, words)
    wanted = reported(packet)
    wrong = [f"{it} was reported" for it in wanted if it not in words]
    api = packet.get("expected", {}).get("api", {})
    # (Connector/C and mysqlnd set the flag 0x8000 themselves)
    if "flags_low15" in api:
        wanted.append("flags_low15")
        flags = next(int(it.partition("=")[2]) for it in words if it.startswith("flags="))
        wrong += [] if flags % 0x8000 == api["flags_low15"] else [f"flags {api['flags_low15']} were reported"]
    if "session_track" in api:
        wanted.append("session_track")
        answered = changes(words)
        wrong += [] if answered == {name: value for name, value in api["session_track"].items() if value} else [f"{api['session_track']} were reported, and not {answered}"]
    return len(wanted), wrong
