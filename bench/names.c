/* The C baseline: reads and writes a million object names, and checks a million reference names. */
#include <stdint.h>
#include <stdio.h>
#include <stdlib.h>
#include <string.h>

#include "names.h"

static uint64_t state = 88172645463325252ull;
static uint64_t next(void)
{
    state ^= state << 13; state ^= state >> 7; state ^= state << 17;
    return state;
}

int main(int argc, char **argv)
{
    enum { NAMES = 1024 };
    static unsigned char oids[NAMES][40], refs[NAMES][64];
    static size_t ref_len[NAMES];
    static const char *heads[4] = { "refs/heads/", "refs/tags/v", "refs/remotes/origin/", "refs/pull/1/" };
    int what = argc > 1 ? atoi(argv[1]) : 3;
    for (int i = 0; i < NAMES; i++) {
        for (int k = 0; k < 40; k++)
            oids[i][k] = (unsigned char)"0123456789abcdef"[next() & 15];
        const char *head = heads[i & 3];
        size_t n = strlen(head), more = 4 + next() % 16;
        memcpy(refs[i], head, n);
        for (size_t k = 0; k < more; k++)
            refs[i][n + k] = (unsigned char)"abcdefghijklmnopqrstuvwxyz-_0123"[next() & 31];
        ref_len[i] = n + more;
    }
    uint64_t sum = 0;
    if (what & 1)
        for (int t = 0; t < 1000000; t++) {
            struct oid id;
            unsigned char out[64];
            if (!oid_read(0, oids[t & (NAMES - 1)], 40, &id)) {
                size_t n = oid_write(&id, out);
                sum = sum * 31 + out[(size_t)t * 7 % n];
            }
        }
    if (what & 2)
        for (int t = 0; t < 1000000; t++) {
            int i = t & (NAMES - 1);
            if (!ref_check(refs[i], ref_len[i]))
                sum = sum * 31 + ref_len[i];
        }
    printf("%llu\n", (unsigned long long)sum);
    return 0;
}
