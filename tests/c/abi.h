/* What the checks of the calls share: each line of a check that fails is shown. */
#ifndef ABI_H
#define ABI_H

#include "mysql_packets.h"
#include <stdio.h>
#include <string.h>

extern int passed, failed;

#define CHECK(x) do { if (x) passed++; else { printf("  FAILED: %s, line %d: %s\n", __FILE__, __LINE__, #x); failed++; } } while (0)
#define IS(b, text) ((b).len == sizeof(text) - 1 && !memcmp((b).data, text, sizeof(text) - 1))

/* whether these are the bytes of hexadecimal digits */
static inline int is_hex(const uint8_t *bytes, size_t n, const char *hex)
{
    if (strlen(hex) != 2 * n)
        return 0;
    for (size_t i = 0; i < n; i++) {
        char pair[3];
        snprintf(pair, sizeof pair, "%02x", bytes[i]);
        if (memcmp(pair, hex + 2 * i, 2))
            return 0;
    }
    return 1;
}

/* the bytes of hexadecimal digits, as rows of tests/vectors have them */
static inline size_t hex(uint8_t *out, const char *digits)
{
    size_t n = 0;
    for (unsigned x; sscanf(digits + 2 * n, "%2x", &x) == 1 && digits[2 * n + 1]; n++)
        out[n] = (uint8_t)x;
    return n;
}

/* The checks: of what a client says, of a replica and what a server reads, and of what a server writes. */
void client_checks(void);
void replica_checks(void);
void server_checks(void);

#endif
