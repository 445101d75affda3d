/* What reads packets that are cut and changed, right before a page that may not be touched. */
#ifndef HOSTILE_H
#define HOSTILE_H

#include "mysql_packets.h"
#include <stdio.h>
#include <stdlib.h>
#include <string.h>

extern const uint8_t *from, *to;                                /* the packet */
extern unsigned long bad, done, refused, changed, written;
extern const myp_column_type kinds[6];
extern const myp_bytes nothing;
extern uint32_t capabilities;                                   /* what the packet is read under */

uint64_t varied(void);                                          /* numbers at random */
void place(const char *what, myp_bytes bytes);                  /* the byte string lies in the packet */
void lost(const char *call, uint32_t code);                     /* an answer that no call is to give */

/* calls a reader with `out` as it was set before; after a refusal, by one of the first codes or of these bits, it is compared */
#define CALL_OR(others, out, call) do { __typeof__(out) before; memcpy(&before, &out, sizeof out); \
    uint32_t code = (call); done++; if (code) { refused++; \
        if (code > MYP_ERROR_INVALID_INPUT && !((others) >> code & 1)) lost(#call, code); \
        if (memcmp(&before, &out, sizeof out)) changed++; } } while (0)
#define CALL(out, call) CALL_OR(0u, out, call)

/* What a client reads one after another; what a replica says, and what a server reads; and what was read, written and read again. */
void read_client(const uint8_t *packet, size_t len);
void read_server(const uint8_t *packet, size_t len);
void read_again(const uint8_t *packet, size_t len, uint32_t capabilities);

/* Reads two buffers with equal bytes into one struct; at the end, how many reads there were. */
void read_twice(uint8_t *first, const uint8_t *second, size_t len, int is_seed);
unsigned long end_twice(void);

#endif
