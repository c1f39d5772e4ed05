/* LZ4_compress_generic in small: one hash table of places, greedy; the end's rules are kept */
#include <stdint.h>
#include <stddef.h>
extern void *memset(void *, int, size_t);
#define HASH_LOG 10
#define MFLIMIT 12
#define LASTLITERALS 5
static uint32_t read32(const uint8_t *p) { return p[0] | p[1] << 8 | p[2] << 16 | (uint32_t)p[3] << 24; }
static uint8_t *literals(uint8_t *op, const uint8_t *from, uint32_t length, uint32_t matched)
{
    uint8_t *token = op++;
    if (length >= 15) {
        uint32_t len = length - 15;
        *token = 15 << 4;
        for (; len >= 255; len -= 255) *op++ = 255;
        *op++ = (uint8_t)len;
    } else *token = length << 4;
    *token |= matched < 15 ? matched : 15;
    while (length--) *op++ = *from++;
    return op;
}
void KERNEL(uint8_t *dst, const uint8_t *src, uint32_t n, uint16_t *table, uint32_t *size)
{
    const uint8_t *ip = src, *anchor = src, *iend = src + n;
    uint8_t *op = dst;
    memset(table, 0, sizeof *table << HASH_LOG);
    if (n > MFLIMIT) {
        const uint8_t *mflimit = iend - MFLIMIT, *matchlimit = iend - LASTLITERALS;
        ip++;
        while (ip < mflimit) {
            uint32_t seq = read32(ip), h = seq * 2654435761u >> (32 - HASH_LOG);
            const uint8_t *match = src + table[h];
            table[h] = ip - src;
            if (match >= ip || read32(match) != seq) {
                ip++;
                continue;
            }
            while (ip > anchor && match > src && ip[-1] == match[-1]) { ip--; match--; }
            const uint8_t *p = ip + 4, *m = match + 4;
            while (p < matchlimit && *p == *m) { p++; m++; }
            uint32_t len = p - ip - 4, offset = ip - match;
            op = literals(op, anchor, ip - anchor, len);
            *op++ = offset;
            *op++ = offset >> 8;
            if (len >= 15) {
                for (len -= 15; len >= 255; len -= 255) *op++ = 255;
                *op++ = len;
            }
            ip = anchor = p;
        }
    }
    op = literals(op, anchor, iend - anchor, 0);
    *size = op - dst;
}
