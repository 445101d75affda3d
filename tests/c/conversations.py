#!/usr/bin/env python3
"""Sessions by the library for C: recorded ones, and what becomes of them when packets are lost, doubled, swapped, turned round, cut or broken, or
commands come early, distinguished by `myp_next_packet` and by the second tracker: the kind and the exchange of each packet, and the capabilities
after the login.

conversations.py LIBRARY: each packet that the second tracker refuses is refused; after a refusal both structs are as they were. Of commands that
come early eight wait, and the next one is taken again once there is a place. The last line is 'N passed, N failed'."""
import ctypes
import random
import sys
from pathlib import Path

TOP = Path(__file__).resolve().parent.parent.parent
sys.path[:0] = [str(TOP / "tests/probe"), str(TOP / "tests"), str(TOP / "examples/python")]
from conversations import FOLDER, Packet, changed, recorded, shortened
from lines import summary
from mysql_packets import Library
from reference_decoder.conversation import CLIENT, SERVER, Refused, Session
from watcher import KINDS

# how many commands may wait
LIMIT = 8


class Ours:
    """A session of the library's."""

    def __init__(self, packets):
        self.packets = packets
        self.stands, self.out = packets.types["myp_conversation"](), packets.types["myp_packet"]()
        code = packets.dll.myp_begin_session(ctypes.byref(self.stands))
        assert code == packets.MYP_OK, code

    def agreed(self):
        """The capabilities of both sides, once the client has logged in."""
        return (self.stands.capabilities, self.stands.mariadb_capabilities) if self.stands.opening == self.packets.MYP_OPENING_AFTER_LOGIN else None

    def next(self, side, payload):
        """The kind and the exchange of a packet as the second tracker says them; 'full' where a command has no place, and none where it doesn't come."""
        given, before = self.packets.bytes(payload), (bytes(self.stands), bytes(self.out))
        of = self.packets.MYP_SIDE_CLIENT if side == CLIENT else self.packets.MYP_SIDE_SERVER
        code = self.packets.dll.myp_next_packet(ctypes.byref(self.stands), of, given.data, given.len, ctypes.byref(self.out))
        if code in (self.packets.MYP_ERROR_INVALID_DATA, self.packets.MYP_ERROR_COMPRESSED, self.packets.MYP_ERROR_TOO_MANY_COMMANDS):
            assert before == (bytes(self.stands), bytes(self.out)), "a refusal changed something"
            return "full" if code == self.packets.MYP_ERROR_TOO_MANY_COMMANDS else None
        assert code == self.packets.MYP_OK, code
        kind, out = KINDS[self.out.kind], self.out
        absent = "" if out.metadata_follows else ":absent"
        return {
            "command": f"command:{out.command}",
            "column_count": f"column_count:{out.columns}{absent}",
            "prepare_ok": f"prepare_ok:{out.columns}:{out.params}{absent}",
        }.get(kind, kind), out.exchange

    def is_idle(self):
        flag = ctypes.c_uint8(7)
        assert self.packets.dll.myp_is_idle(ctypes.byref(self.stands), ctypes.byref(flag)) == self.packets.MYP_OK
        return flag.value == 1


def wanted(session, packet):
    """What the second tracker says of a packet."""
    try:
        return session.next(packet.side, packet.payload)
    except Refused as refusal:
        return "full" if refusal.args == ("Full",) else None


def first_difference(packets, sent):
    """Where the library and the second tracker say something else of packets, up to the first that doesn't come. How often a command has no place."""
    session, ours, full = Session(LIMIT), Ours(packets), 0
    for at, packet in enumerate(sent):
        want, found = wanted(session, packet), ours.next(packet.side, packet.payload)
        if found != want:
            return f"packet {at} is {found}, and {want} by the second tracker", full
        if want is None:
            break
        full += want == "full"
        if want[0] == "ssl_request":
            session.tls_established()
        agreed = (session.flags, session.own) if not session.before else None
        if ours.agreed() != agreed:
            return f"packet {at}: the agreed capabilities are {ours.agreed()}, and {agreed} by the second tracker", full
    if ours.is_idle() != session.is_idle():
        return f"packet {at}: at rest is {ours.is_idle()}", full
    return None, full


def hurried(packets, chance):
    """The same conversation, in which commands come early: packets of the client are moved in front of those of the server before them, as far as
    the second tracker takes them. More commands may wait than the library has places for."""
    session, kept, late = Session(1000), [], list(packets)
    while late:
        early = next((at for at, it in enumerate(late) if it.side == CLIENT), None)
        order = [0] if early in (None, 0) or chance.randrange(3) == 0 else [early, 0]
        for at in order:
            before = dict(vars(session), waiting=list(session.waiting))
            if wanted(session, late[at]) is not None:
                kept.append(late.pop(at))
                if kept[-1].begins_tls:
                    session.tls_established()
                break
            vars(session).clear()
            vars(session).update(before)
        else:
            return kept
    return kept


def repeated(packets):
    """A conversation that ends at rest, and then 20 pings at once and their answers, as often as it takes for each to be taken."""
    session, answer = Session(LIMIT), b"\0\0\0\2\0\0\0"
    for packet in packets:
        if wanted(session, packet) is None:
            return None
        if packet.begins_tls:
            session.tls_established()
    if session.before or not session.place.is_rest:
        return None
    pings = [Packet(CLIENT, 0, b"\x0e") for _ in range(20)]
    return [*packets, *pings, Packet(SERVER, 1, answer), *pings[:3], *(Packet(SERVER, 1, answer) for _ in range(9))]


def main(library):
    packets, passed, failed, full = Library(library=library, header=TOP / "include/mysql_packets.h"), 0, [], 0
    for path in sorted(FOLDER.glob("*.xz")):
        whole, chance = recorded(path), random.Random(path.name)
        front = shortened(whole)
        asked = [("whole", whole), *((f"change {n}", it) for n, it in enumerate(changed(front, chance)))]
        asked += [(f"hurried {n}", hurried(front, chance)) for n in range(5)]
        asked += [("repeated", it) for it in [repeated(front)] if it]
        for name, sent in asked:
            wrong, times = first_difference(packets, sent)
            passed, failed, full = passed + (wrong is None), failed + [f"{path.name}: {name}: {wrong}"] * (wrong is not None), full + times
    failed += ["no command was without a place"] * (full == 0)
    conversation, zeroed = packets.types["myp_conversation"](opening=9), packets.types["myp_conversation"]()
    out, flag = packets.types["myp_packet"](), ctypes.c_uint8(7)
    calls = [packets.dll.myp_next_packet(ctypes.byref(conversation), packets.MYP_SIDE_CLIENT, None, 0, ctypes.byref(out)),
             packets.dll.myp_is_idle(ctypes.byref(conversation), ctypes.byref(flag)),
             packets.dll.myp_begin_conversation(0, 0, 3, ctypes.byref(conversation)),
             packets.dll.myp_next_packet(ctypes.byref(zeroed), packets.MYP_SIDE_CLIENT, None, 0, ctypes.byref(out)),
             packets.dll.myp_is_idle(ctypes.byref(zeroed), ctypes.byref(flag))]
    failed += [f"call {at} of no conversation answers {code}" for at, code in enumerate(calls) if code != packets.MYP_ERROR_INVALID_INPUT]
    passed += sum(code == packets.MYP_ERROR_INVALID_INPUT for code in calls)
    return summary("conversations", passed, failed)


if __name__ == "__main__":
    sys.exit(main(*sys.argv[1:]))
