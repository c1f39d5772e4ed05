#include <stdint.h>
#include <string.h>
/* Snappy: a varint with the length, then literals and copies with offsets of one, two or four bytes. */
typedef struct {
    uint8_t *base, *op, *limit;
} writer;

static const uint8_t *parse_varint(const uint8_t *p, const uint8_t *limit, uint32_t *value)
{
    uint32_t result = 0;
    for (uint32_t shift = 0; shift <= 28; shift += 7) {
        if (p >= limit) return NULL;
        uint32_t byte = *p++;
        result |= (byte & 127) << shift;
        if (byte < 128) {
            *value = result;
            return p;
        }
    }
    return NULL;
}

static int append(writer *w, const uint8_t *ip, uint32_t len)
{
    if ((uint32_t)(w->limit - w->op) < len) return 0;
    memcpy(w->op, ip, len);
    w->op += len;
    return 1;
}

static int append_from_self(writer *w, uint32_t offset, uint32_t len)
{
    const uint8_t *src;
    if ((uint32_t)(w->op - w->base) <= offset - 1u) return 0;
    if ((uint32_t)(w->limit - w->op) < len) return 0;
    src = w->op - offset;
    if (offset >= 8) {
        while (len >= 8) {
            memmove(w->op, src, 8);
            w->op += 8;
            src += 8;
            len -= 8;
        }
    }
    while (len-- > 0) *w->op++ = *src++;
    return 1;
}

void KERNEL(uint8_t *out, uint32_t room, const uint8_t *in, uint32_t n, int32_t *result)
{
    const uint8_t *ip = in, *end = in + n;
    uint32_t wanted;
    writer w;
    *result = -1;
    ip = parse_varint(ip, end, &wanted);
    if (!ip || wanted > room) return;
    w.base = w.op = out;
    w.limit = out + wanted;
    while (ip < end) {
        uint8_t tag = *ip++;
        uint32_t len, offset, more;
        switch (tag & 3) {
        case 0:
            len = (tag >> 2) + 1;
            if (len > 60) {
                more = len - 60;
                if ((uint32_t)(end - ip) < more) return;
                len = 0;
                for (uint32_t k = 0; k < more; k++) len |= (uint32_t)ip[k] << 8 * k;
                len++;
                ip += more;
            }
            if ((uint32_t)(end - ip) < len || !append(&w, ip, len)) return;
            ip += len;
            continue;
        case 1:
            if (ip >= end) return;
            len = (tag >> 2 & 7) + 4;
            offset = (uint32_t)(tag >> 5) << 8 | *ip++;
            break;
        case 2:
            if (end - ip < 2) return;
            len = (tag >> 2) + 1;
            offset = ip[0] | ip[1] << 8;
            ip += 2;
            break;
        default:
            if (end - ip < 4) return;
            len = (tag >> 2) + 1;
            offset = ip[0] | ip[1] << 8 | ip[2] << 16 | (uint32_t)ip[3] << 24;
            ip += 4;
            break;
        }
        if (!append_from_self(&w, offset, len)) return;
    }
    *result = w.op == w.limit ? (int32_t)wanted : -2;
}
