#include <stdint.h>
#include <stddef.h>
#include <string.h>
/* LZ4 block decoder with the fast path of real ones: copies of 8 bytes where room is left, overlapping matches spread by a table, an external dictionary. */
#define MINMATCH 4
#define WILD 8
#define LAST_LITERALS 5
#define MFLIMIT 12

static const unsigned inc32[8] = {0, 1, 2, 1, 0, 4, 4, 4};
static const int dec64[8] = {0, 0, 0, -1, -4, 1, 2, 3};

static uint16_t read16(const uint8_t *p) { return (uint16_t)(p[0] | p[1] << 8); }

static void wild_copy(uint8_t *d, const uint8_t *s, uint8_t *end)
{
    do {
        memcpy(d, s, 8);
        d += 8;
        s += 8;
    } while (d < end);
}

static int length_of(const uint8_t **ip, const uint8_t *limit, size_t *length)
{
    unsigned s;
    do {
        if (*ip >= limit) return -1;
        s = *(*ip)++;
        *length += s;
    } while (s == 255);
    return 0;
}

static int decode(const uint8_t *src, size_t n, uint8_t *dst, size_t room, const uint8_t *dict, size_t dict_size)
{
    const uint8_t *ip = src, *const iend = src + n;
    uint8_t *op = dst, *const oend = dst + room;
    if (!n) return -1;
    for (;;) {
        size_t length, offset;
        const uint8_t *match;
        uint8_t *cpy;
        const unsigned token = *ip++;

        length = token >> 4;
        if (length == 15 && length_of(&ip, iend, &length)) goto error;
        cpy = op + length;
        if ((size_t)(oend - op) < length + MFLIMIT || (size_t)(iend - ip) < length + 2 + 1 + LAST_LITERALS) {
            if ((size_t)(iend - ip) != length || (size_t)(oend - op) < length) goto error;
            memmove(op, ip, length);
            op += length;
            break;
        }
        wild_copy(op, ip, cpy);
        ip += length;
        op = cpy;

        offset = read16(ip);
        ip += 2;
        match = op - offset;
        length = token & 15;
        if (length == 15 && length_of(&ip, iend - LAST_LITERALS + 1, &length)) goto error;
        length += MINMATCH;
        if ((size_t)(oend - op) < length + LAST_LITERALS) goto error;

        if (offset > (size_t)(op - dst)) {
            size_t back = offset - (size_t)(op - dst);
            if (back > dict_size) goto error;
            if (length <= back) {
                memcpy(op, dict + dict_size - back, length);
                op += length;
            } else {
                memcpy(op, dict + dict_size - back, back);
                op += back;
                length -= back;
                match = dst;
                while (length--) *op++ = *match++;
            }
            continue;
        }
        if (!offset) goto error;
        cpy = op + length;
        if (offset < 8) {
            op[0] = match[0];
            op[1] = match[1];
            op[2] = match[2];
            op[3] = match[3];
            match += inc32[offset];
            memcpy(op + 4, match, 4);
            match -= dec64[offset];
        } else {
            memcpy(op, match, 8);
            match += 8;
        }
        op += 8;
        if (cpy > oend - MFLIMIT) {
            while (op < cpy) *op++ = *match++;
        } else {
            memcpy(op, match, 8);
            if (length > 16) wild_copy(op + 8, match + 8, cpy);
        }
        op = cpy;
    }
    return (int)(op - dst);
error:
    return (int)(-(ip - src)) - 1;
}

void KERNEL(uint8_t *out, size_t room, const uint8_t *in, size_t n, const uint8_t *dict, size_t dict_size, int *result)
{
    *result = decode(in, n, out, room, dict, dict_size);
}
