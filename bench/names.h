/* Object names and reference names, as Git's own code reads them. */
#ifndef NAMES_H
#define NAMES_H

#include <stddef.h>
#include <string.h>

static const signed char hexval_table[256] = {
#define N16 -1,-1,-1,-1,-1,-1,-1,-1,-1,-1,-1,-1,-1,-1,-1,-1
    N16, N16, N16,
    0,1,2,3,4,5,6,7,8,9,-1,-1,-1,-1,-1,-1,
    -1,10,11,12,13,14,15,-1,-1,-1,-1,-1,-1,-1,-1,-1,
    N16,
    -1,10,11,12,13,14,15,-1,-1,-1,-1,-1,-1,-1,-1,-1,
    N16, N16, N16, N16, N16, N16, N16, N16, N16
};

struct oid { unsigned char format; unsigned char bytes[32]; };

__attribute__((noinline))
static int oid_read(int format, const unsigned char *text, size_t len, struct oid *out)
{
    size_t width = format ? 32 : 20;
    if (len != 2 * width)
        return -1;
    memset(out, 0, sizeof *out);
    out->format = (unsigned char)format;
    for (size_t i = 0; i < width; i++) {
        unsigned v = ((unsigned)hexval_table[text[2 * i]] << 4) | (unsigned)hexval_table[text[2 * i + 1]];
        if (v & ~0xffu)
            return -1;
        out->bytes[i] = (unsigned char)v;
    }
    return 0;
}

__attribute__((noinline))
static size_t oid_write(const struct oid *id, unsigned char *out)
{
    static const char hex[] = "0123456789abcdef";
    size_t width = id->format ? 32 : 20;
    for (size_t i = 0; i < width; i++) {
        out[2 * i] = (unsigned char)hex[id->bytes[i] >> 4];
        out[2 * i + 1] = (unsigned char)hex[id->bytes[i] & 15];
    }
    return 2 * width;
}

/* As in Git's refs.c: 0 an ordinary byte, 1 a slash, 2 a dot, 3 an open brace, 4 a forbidden byte. */
static const unsigned char kind_table[256] = {
    4,4,4,4,4,4,4,4,4,4,4,4,4,4,4,4,4,4,4,4,4,4,4,4,4,4,4,4,4,4,4,4,
    4,0,0,0,0,0,0,0,0,0,4,0,0,0,2,1,0,0,0,0,0,0,0,0,0,0,4,0,0,0,0,4,
    0,0,0,0,0,0,0,0,0,0,0,0,0,0,0,0,0,0,0,0,0,0,0,0,0,0,0,4,4,0,4,0,
    0,0,0,0,0,0,0,0,0,0,0,0,0,0,0,0,0,0,0,0,0,0,0,0,0,0,0,3,0,0,4,4
};

__attribute__((noinline))
static int ref_check(const unsigned char *text, size_t len)
{
    if (len == 4 && !memcmp(text, "HEAD", 4))
        return 0;
    if (len < 5 || len > 32000 || memcmp(text, "refs/", 5))
        return -1;
    unsigned char last = 0;
    for (size_t i = 0; i < len; i++) {
        unsigned char c = text[i];
        switch (kind_table[c]) {
        case 1:
            if (last == '/')
                return -1;
            if (i >= 5 && !memcmp(text + i - 5, ".lock", 5))
                return -1;
            break;
        case 2:
            if (last == '.' || last == '/')
                return -1;
            break;
        case 3:
            if (last == '@')
                return -1;
            break;
        case 4:
            return -1;
        }
        last = c;
    }
    if (last == '/' || last == '.')
        return -1;
    if (!memcmp(text + len - 5, ".lock", 5))
        return -1;
    return 0;
}

#endif
