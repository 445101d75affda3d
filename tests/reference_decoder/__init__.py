"""A reference decoder of the packets, by the protocol's pages: it shares nothing with the crates.

Each reading takes a Buf, and what the reader is answered; it gives the record, or raises Eof or Invalid.
"""
