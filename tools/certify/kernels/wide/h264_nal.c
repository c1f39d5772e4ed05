#include <stdint.h>
#include <stddef.h>
/* start codes, emulation prevention and Exp-Golomb codes of a video stream */
typedef struct { const uint8_t *data; uint32_t bit, bits; } bits_t;
static uint32_t u(bits_t *b, unsigned n)
{
    uint32_t v = 0;
    while (n--) {
        if (b->bit >= b->bits) return 0;
        v = v << 1 | (b->data[b->bit >> 3] >> (7 - (b->bit & 7)) & 1);
        b->bit++;
    }
    return v;
}
static uint32_t ue(bits_t *b)
{
    unsigned zeros = 0;
    while (b->bit < b->bits && !u(b, 1)) if (++zeros > 31) return 0;
    return (1u << zeros) - 1 + u(b, zeros);
}
static int32_t se(bits_t *b)
{
    uint32_t v = ue(b);
    return v & 1 ? (int32_t)((v + 1) >> 1) : -(int32_t)(v >> 1);
}
static size_t unescape(uint8_t *to, const uint8_t *from, size_t n)
{
    size_t k = 0;
    for (size_t i = 0; i < n; i++) {
        if (i + 2 < n && from[i] == 0 && from[i + 1] == 0 && from[i + 2] == 3) {
            to[k++] = 0;
            to[k++] = 0;
            i += 2;
        } else to[k++] = from[i];
    }
    return k;
}
struct nal { uint32_t type, size, first, slice; int32_t qp; };
static const uint8_t *next_start(const uint8_t *p, const uint8_t *end)
{
    for (; end - p >= 3; p++) if (p[0] == 0 && p[1] == 0 && p[2] == 1) return p;
    return end;
}
void KERNEL(struct nal *out, uint32_t room, const uint8_t *data, size_t len, uint8_t *scratch, uint32_t *count)
{
    const uint8_t *end = data + len, *p = next_start(data, end);
    uint32_t n = 0;
    while (p != end && n < room) {
        p += 3;
        const uint8_t *next = next_start(p, end);
        size_t size = next - p;
        while (size && p[size - 1] == 0) size--;
        if (size > 1 && size <= 1024) {
            size_t got = unescape(scratch, p + 1, size - 1);
            bits_t b = { scratch, 0, got * 8 };
            struct nal *o = &out[n++];
            o->type = p[0] & 31;
            o->size = got;
            o->first = ue(&b);
            o->slice = ue(&b);
            o->qp = 26 + se(&b);
        }
        p = next;
    }
    *count = n;
}
