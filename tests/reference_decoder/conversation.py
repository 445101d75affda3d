"""Which packet comes next in a session, by the protocol's pages: each place of it is a function from a packet to its kind and the place
following it."""
from . import authentication, replies, statements
from .buf import Buf, Eof, Invalid
from .codes import MULTI_FACTOR_AUTHENTICATION, PROGRESS_OBSOLETE

CLIENT, SERVER = ">", "<"
COMPRESS, SSL, LONG_PASSWORD, DEPRECATE_EOF, ZSTD = 1 << 5, 1 << 11, 1, 1 << 24, 1 << 26
MARIADB_PROGRESS = 1
MORE_RESULTS, CURSOR_EXISTS = 8, 64

# the commands that an OK packet answers, those that an OK packet or an end answers (my_eof in dispatch_command), and those that nothing answers
ACKNOWLEDGED = {0x02, 0x05, 0x06, 0x07, 0x0C, 0x0E, 0x15, 0x1A, 0x1F}
ENDED = {0x08, 0x0D, 0x1B}
UNANSWERED = {0x18, 0x19}
QUIT, CLONE = 0x01, 0x20


class Refused(Exception):
    """The packet doesn't come here."""


def read(reader, payload, *context):
    """What the front of a payload is read as, or that it is no such packet."""
    try:
        return reader(Buf(payload), *context)
    except (Eof, Invalid):
        raise Refused from None


class Place:
    """What may come: of the server, and of the client, if that is no command. A place without a client is one where commands may come
    early, but where the client is asked for something. Where it is shut, no command comes any more; an error in a login shuts it too."""

    def __init__(self, server=None, client=None, is_asked=False, is_rest=False, is_shut=False, is_login=False, is_quit=False):
        self.server, self.client, self.is_asked, self.is_rest = server, client, is_asked, is_rest
        self.is_shut, self.is_login, self.is_quit = is_shut, is_login, is_quit


class Session:
    """Takes packets in their order, and gives the kind of each and the number of its command."""

    def __init__(self, limit):
        self.limit, self.flags, self.own = limit, 0, 0
        self.waiting, self.number, self.last = [], 0, 0
        self.place, self.is_over = None, False
        self.before = self.greeting

    # ---- before the conversation

    def greeting(self, side, payload):
        if side != SERVER:
            raise Refused
        if payload[:1] == b"\xff":
            return self.over("unsolicited_error")
        packet = read(authentication.handshake, payload)
        self.server = packet[5], packet[8]
        self.before = lambda *it: self.login(False, *it)
        return "handshake"

    def nothing(self, _side, _payload):
        raise Refused

    def over(self, kind):
        self.before, self.is_over = self.nothing, True
        return kind

    def login(self, is_deciphered, side, payload):
        if side != CLIENT:
            # (the server waits for the login as long as connect_timeout says)
            if payload[:1] != b"\xff":
                raise Refused
            return self.over("unsolicited_error")
        try:
            (flags, _, _), own = read(authentication.ssl_request, payload)
        except Refused:
            self.before = self.no_login
            return "login"
        if flags & SSL and not is_deciphered:
            self.before = self.encrypted
            return "ssl_request"
        if 0 not in payload[32:]:
            self.before = self.no_login
            return "login"
        self.flags = flags & self.server[0]
        self.own = 0 if flags & LONG_PASSWORD else own & self.server[1]
        if self.flags & (COMPRESS | ZSTD):
            raise Refused("Compressed")
        self.before, self.place = None, self.authenticating(False, True)
        return "login"

    def no_login(self, side, payload):
        if side != SERVER or payload[:1] != b"\xff":
            raise Refused
        return self.over("error")

    def encrypted(self, side, payload):
        # (a server without TLS answers the request by an error with its state)
        if side == SERVER and payload[:1] == b"\xff" and payload[3:4] == b"#":
            return self.over("unsolicited_error")
        raise Refused("Encrypted")

    def tls_established(self):
        if self.before == self.encrypted:
            self.before = lambda *it: self.login(True, *it)

    # ---- packets by their bytes

    def is_deprecated(self):
        return bool(self.flags & DEPRECATE_EOF)

    def begins_ok(self, payload):
        return payload[:1] == b"\0"

    def ok_status(self, payload):
        return read(replies.ok_packet, payload, self.flags, b"\0", True)[1]

    def is_end(self, payload):
        return payload[:1] == b"\xfe" and len(payload) < (0xFFFFFF if self.is_deprecated() else 9)

    def end(self, payload):
        """The kind of an end, and whether more results come."""
        if self.is_deprecated():
            return "ok_terminator", read(replies.ok_packet, payload, self.flags, b"\xfe", False)[1] & MORE_RESULTS
        return "eof", self.eof_status(payload) & MORE_RESULTS

    def eof_status(self, payload):
        if payload[:1] != b"\xfe" or len(payload) >= 9:
            raise Refused
        return read(replies.old_eof, payload, self.flags)[1]

    def is_report(self, payload):
        return payload[:3] == b"\xff\xff\xff" and bool(self.flags & PROGRESS_OBSOLETE or self.own & MARIADB_PROGRESS)

    # ---- places

    def rest(self):
        return Place(is_rest=True)

    def ended(self):
        return Place(is_shut=True)

    def quit(self):
        """Nothing, or an error: a server may refuse COM_QUIT, out of order, say."""
        return Place(is_shut=True, is_quit=True)

    def authenticating(self, is_asked, is_login=False):
        def server(payload):
            if self.begins_ok(payload):
                return self.last_ok(payload, self.rest())
            if payload[:1] == b"\0":
                raise Refused
            first = payload[0] if payload else None
            kind = {0xFE: "auth_switch" if len(payload) > 1 else "old_auth_switch", 1: "auth_more_data"}.get(first, "auth_plugin_data")
            if first == 2 and self.flags & MULTI_FACTOR_AUTHENTICATION:
                kind = "auth_next_factor"
            return kind, self.authenticating(True, is_login)

        client = lambda _: ("auth_data", self.authenticating(False, is_login))
        return Place(server, client if is_asked else None, is_asked, is_login=is_login)

    def last_ok(self, payload, following):
        """An OK packet, following which no more results come."""
        if not self.begins_ok(payload) or self.ok_status(payload) & MORE_RESULTS:
            raise Refused
        return "ok", following

    def result(self, is_binary, has_cursor=False):
        after = lambda more: self.result(is_binary, has_cursor) if more else self.rest()

        def ok(payload):
            if not self.begins_ok(payload):
                raise Refused
            return "ok", after(self.ok_status(payload) & MORE_RESULTS)

        def content(payload):
            return ("infile_content", file) if payload else ("infile_end", Place(ok))

        def server(payload):
            if self.begins_ok(payload):
                return ok(payload)
            if payload[:1] == b"\xfb":
                return "local_infile", file
            count, follow = read(self.count, payload)
            if not count:
                raise Refused
            kind = f"column_count:{count}" + ("" if follow else ":absent")
            return kind, self.definitions(count if follow else 0, lambda: self.rows(is_binary, after), self.columns_end(is_binary, has_cursor, after))

        file = Place(None, content, True)
        return Place(server)

    def count(self, buf):
        number, follows = replies.column_count(buf, self.flags, self.own)
        return number, follows != 0

    def definitions(self, left, following, end):
        """Definitions, and the EOF packet where it isn't deprecated."""
        if left:
            return Place(lambda _: ("column", self.definitions(left - 1, following, end)))
        return following() if self.is_deprecated() else Place(end)

    def some_definitions(self, count, follow, following):
        """Definitions with their end, or their end alone where they are left out; nothing where there are none."""
        def end(payload):
            self.eof_status(payload)
            return "eof", following()

        return self.definitions(count if follow else 0, following, end) if count else following()

    def columns_end(self, is_binary, has_cursor, after):
        def server(payload):
            status = self.eof_status(payload)
            if has_cursor and status & CURSOR_EXISTS and not status & MORE_RESULTS:
                return "eof", self.rest()
            return "eof", self.rows(is_binary, after)

        return server

    def rows(self, is_binary, after):
        return self.until_end(("binary_row" if is_binary else "text_row"), is_binary, after)

    def until_end(self, kind, is_binary, after):
        """Packets of a kind, and an end."""
        def server(payload):
            if self.is_end(payload):
                name, more = self.end(payload)
                return name, after(more)
            if is_binary and payload[:1] != b"\0":
                raise Refused
            return kind, place

        place = Place(server)
        return place

    def prepared(self):
        def server(payload):
            ((_, columns, params), _), metadata = read(statements.stmt_packet_with_metadata, payload, self.flags)
            follow = metadata != 0
            of_columns = lambda: self.some_definitions(columns, follow, self.rest)
            return f"prepare_ok:{columns}:{params}" + ("" if follow else ":absent"), self.some_definitions(params, follow, of_columns)

        return Place(server)

    def acknowledged(self, may_end=False):
        def server(payload):
            if self.is_end(payload):
                kind, more = self.end(payload)
                if more or not may_end:
                    raise Refused
                return kind, self.rest()
            return self.last_ok(payload, self.rest())

        return Place(server)

    def cloning(self):
        """An OK packet, and then the clone plugin's own protocol."""
        any_packet = lambda _: ("clone", place)
        place = Place(any_packet, any_packet, is_shut=True)
        return Place(lambda payload: self.last_ok(payload, place))

    def stream(self):
        """Events, and acknowledgements. The end is an EOF packet, also where it is deprecated."""
        def server(payload):
            if payload[:1] == b"\0":
                return "binlog_event", place
            self.eof_status(payload)
            return "eof", self.rest()

        def client(payload):
            if payload[:1] != b"\xef":
                raise Refused
            return "semi_sync_ack", place

        place = Place(server, client)
        return place

    def refusal(self):
        def server(_payload):
            raise Refused

        return Place(server)

    def answer(self, payload):
        """The place following a command, or None where it is none."""
        # (a server takes an empty packet for COM_SLEEP)
        code = payload[0] if payload else 0
        if code == 0xEF:
            return None
        if code in (0x03, 0x0A):
            return self.result(False)
        if code in (0x17, 0xFA):
            return self.result(True, code == 0x17 and len(payload) > 5 and payload[5] & 7 != 0)
        if code == 0x16:
            return self.prepared()
        if code == 0x1C:
            return self.until_end("binary_row", True, lambda _: self.rest())
        if code == 0x09:
            return Place(lambda _: ("statistics", self.rest()))
        if code == 0x04:
            return self.until_end("field_list_column", False, lambda _: self.rest())
        if code == 0x11:
            return self.authenticating(False)
        if code in (0x12, 0x1E):
            return self.stream()
        if code in UNANSWERED:
            return self.rest()
        if code == QUIT:
            return self.quit()
        if code == CLONE:
            return self.cloning()
        if code in ENDED:
            return self.acknowledged(True)
        return self.acknowledged() if code in ACKNOWLEDGED else self.refusal()

    # ---- packets

    def next(self, side, payload):
        """The kind of a packet, and the number of its command. A refusal ends it, except for that of a command that has no place to wait."""
        if self.before:
            return self.before(side, payload), 0
        return self.of_client(payload) if side == CLIENT else self.of_server(payload)

    def of_client(self, payload):
        place = self.place
        if place.is_shut and not place.client:
            raise Refused
        if place.client and not self.waiting:
            try:
                kind, self.place = place.client(payload)
                return kind, self.number
            except Refused:
                if place.is_asked:
                    raise
        if place.is_asked:
            raise Refused
        following = self.answer(payload)
        if following is None or (self.waiting and self.waiting[-1][1][:1] == bytes([QUIT])):
            raise Refused
        if len(self.waiting) >= self.limit and not place.is_rest:
            raise Refused("Full")
        self.last += 1
        if place.is_rest:
            self.number, self.place = self.last, following
        else:
            self.waiting.append((self.last, payload))
        return f"command:{payload[0] if payload else 0}", self.last

    def of_server(self, payload):
        place, number = self.place, self.number
        if payload[:1] == b"\xff" and not (place.is_shut and place.server):
            if place.is_shut and not place.is_quit:
                raise Refused
            if self.is_report(payload):
                # (only a statement reports: `report_to_client` in MariaDB's `mysql_execute_command`)
                if place.is_rest or place.is_quit or place.is_asked or place.is_login:
                    raise Refused
                return "progress_report", number
            is_unasked = place.is_rest or place.is_quit
            kind, following = "unsolicited_error" if is_unasked else "error", self.ended() if is_unasked or place.is_login else self.rest()
        else:
            if place.server is None:
                raise Refused
            kind, following = place.server(payload)
        if (following.is_asked or following.is_shut) and self.waiting:
            raise Refused
        self.place = following
        while self.place.is_rest and self.waiting:
            self.number, early = self.waiting.pop(0)
            self.place = self.answer(early)
        return kind, number

    def is_idle(self):
        return self.is_over if self.before else (self.place.is_rest or self.place.is_shut) and not self.waiting
