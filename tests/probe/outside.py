#!/usr/bin/env python3
"""Counts, packet by packet, the packets of tests/captured/ that are read and written again: bytes that servers and clients sent. No proof ties
a grammar to the protocol; these do. docs/PROVED.md has the table, which must have these counts, and each packet that a server or a
client of today sends has two at the least."""
import re

import captured
from described import READS
from lines import TOP

# the requests of each packet of the table
PACKETS = {
    "Protocol::HandshakeV10": ["handshake"], "Protocol::SSLRequest": ["tls"], "Protocol::HandshakeResponse41": ["response"],
    "Protocol::AuthSwitchRequest": ["auth_switch"], "Protocol::OldAuthSwitchRequest": ["old_switch"], "Protocol::AuthMoreData": ["auth_more_data"],
    "answer before a login is done": ["auth_reply"], "Protocol::AuthNextFactorRequest": ["next_factor"],
    "request for the RSA key": ["key_request"], "RSA key": ["key"], "COM_CHANGE_USER": ["change_user"],
    "OK_Packet": ["ok"], "OK_Packet that ends a result": ["ok_end"], "EOF_Packet": ["ok_eof"], "EOF_Packet that ends a stream": ["ok_stream"],
    "ERR_Packet": ["err"], "progress report": ["progress"], "LOCAL INFILE request": ["local_infile"],
    "count of columns": ["column_count"], "Protocol::ColumnDefinition41": ["column"], "column definition with extended metadata": ["extended_column"],
    "column definition that answers COM_FIELD_LIST": ["field_list_column"], "ProtocolText::ResultsetRow": ["row_text", "row_text_client"],
    "ProtocolBinary::ResultsetRow": ["row", "row_client"], "COM_STMT_PREPARE_OK": ["stmt", "stmt_metadata"],
    "COM_STMT_EXECUTE": ["execute", "com_execute", "com_execute_attributes"], "COM_STMT_SEND_LONG_DATA": ["com_long_data", "long_data"], "COM_STMT_CLOSE": ["com_close", "close"],
    "COM_STMT_BULK_EXECUTE": ["bulk", "bulk_rows"], "COM_REGISTER_SLAVE": ["register_slave"], "COM_BINLOG_DUMP": ["binlog_dump"],
    "COM_BINLOG_DUMP_GTID": ["gtid"], "COM_TABLE_DUMP": ["table_dump"], "semi-synchronous acknowledgement": ["semi_sync_ack"],
    "packet of a stream": ["stream"],
    "COM_QUERY with attributes": ["com_query"], "a command, by its first byte": ["command"],
}
# what no server or client of today sends, or what was sent once in all recorded sessions: the pages' examples stand among the rows
SELDOM = {"EOF_Packet that ends a stream", "COM_TABLE_DUMP", "Protocol::SSLRequest", "request for the RSA key", "Protocol::AuthNextFactorRequest"}


def counts():
    """How many packets of each were sent."""
    heads = [captured.request(it).split(" ")[0] for it in captured.packets_of()]
    heads += [it.request.split(" ")[0] for probe in READS for it in captured.recorded_of(probe)]
    return {packet: sum(heads.count(it) for it in words) for packet, words in PACKETS.items()}


def wrong_counts():
    """Each packet whose count in docs/PROVED.md is another, and each with fewer than two that has more in the world."""
    text = (TOP / "docs/PROVED.md").read_text()
    for packet, count in counts().items():
        row = re.search(rf"^\| {re.escape(packet)} \| (\d+) \|", text, re.M)
        if not row or int(row[1]) != count:
            yield f"docs/PROVED.md: {packet}: {count} packets are read and written again, and not {row[1] if row else 'none'}"
        if count < 2 and packet not in SELDOM:
            yield f"tests/captured: {packet}: only {count} of it"


if __name__ == "__main__":
    for packet, count in counts().items():
        print(f"| {packet} | {count} |")
