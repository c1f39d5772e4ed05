/* partitions of Rice codes, then a fixed predictor, as libFLAC restores a subframe */
#include <stdint.h>
struct bits { const uint8_t *p, *end; uint32_t acc; int n; int bad; };
static uint32_t get(struct bits *b, int n)
{
    while (b->n < n) {
        uint32_t byte = 0;
        if (b->p < b->end) byte = *b->p++;
        else b->bad = 1;
        b->acc = b->acc << 8 | byte;
        b->n += 8;
    }
    b->n -= n;
    return n ? b->acc >> b->n & ((1u << n) - 1) : 0;
}
static uint32_t unary(struct bits *b)
{
    uint32_t q = 0;
    while (!b->bad && get(b, 1) == 0) q++;
    return q;
}
void KERNEL(int32_t *out, const uint8_t *in, uint32_t size, uint32_t samples, uint32_t order, int32_t *status)
{
    struct bits b = { in, in + size, 0, 0, 0 };
    uint32_t i = 0;
    for (; i < order && i < samples; i++) out[i] = (int16_t)get(&b, 16);
    uint32_t k = 0;
    for (; i < samples; i++) {
        if ((i & 127) == order) k = get(&b, 4);
        uint32_t q = unary(&b), u = q << k | get(&b, k);
        if (b.bad) { *status = -(int32_t)i; return; }
        out[i] = (int32_t)(u >> 1) ^ -(int32_t)(u & 1);
    }
    switch (order) {
    case 0: break;
    case 1: for (i = 1; i < samples; i++) out[i] += out[i - 1]; break;
    case 2: for (i = 2; i < samples; i++) out[i] += 2 * out[i - 1] - out[i - 2]; break;
    case 3: for (i = 3; i < samples; i++) out[i] += 3 * (out[i - 1] - out[i - 2]) + out[i - 3]; break;
    case 4: for (i = 4; i < samples; i++) out[i] += 4 * (out[i - 1] + out[i - 3]) - 6 * out[i - 2] - out[i - 4]; break;
    }
    *status = samples;
}
