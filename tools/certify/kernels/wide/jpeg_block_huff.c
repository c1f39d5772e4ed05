#include <stdint.h>
#include <stddef.h>
/* blocks of a baseline picture: DC differences, runs of zeros, zigzag, dequantized */
static const uint8_t zigzag[64] = {
    0, 1, 8, 16, 9, 2, 3, 10, 17, 24, 32, 25, 18, 11, 4, 5, 12, 19, 26, 33, 40, 48, 41, 34, 27, 20, 13, 6, 7, 14, 21, 28,
    35, 42, 49, 56, 57, 50, 43, 36, 29, 22, 15, 23, 30, 37, 44, 51, 58, 59, 52, 45, 38, 31, 39, 46, 53, 60, 61, 54, 47, 55, 62, 63 };
static const uint8_t dc_counts[16] = { 0, 1, 5, 1, 1, 1, 1, 1, 1 };
static const uint8_t dc_values[12] = { 0, 1, 2, 3, 4, 5, 6, 7, 8, 9, 10, 11 };
static const uint8_t ac_counts[16] = { 0, 2, 1, 3, 3, 2, 4, 3, 5 };
static const uint8_t ac_values[32] = { 1, 2, 3, 0, 4, 0x11, 5, 0x12, 0x21, 0x31, 0x41, 6, 0x13, 0x51, 0x61, 7, 0x22, 0x71, 0x14, 0x32, 0x81, 0x91, 0xa1 };
struct table { int32_t maxcode[17]; int32_t offset[17]; const uint8_t *values; };
struct stream { const uint8_t *p, *end; uint32_t acc; int have, bad; };
static void build(struct table *t, const uint8_t *counts, const uint8_t *values)
{
    int32_t code = 0, k = 0;
    for (int n = 1; n <= 16; n++) {
        t->offset[n] = k - code;
        k += counts[n - 1];
        code += counts[n - 1];
        t->maxcode[n] = counts[n - 1] ? code - 1 : -1;
        code <<= 1;
    }
    t->values = values;
}
static int bit(struct stream *s)
{
    if (!s->have) {
        if (s->p == s->end) { s->bad = 1; return 0; }
        uint8_t b = *s->p++;
        if (b == 0xff && s->p != s->end && *s->p == 0) s->p++;
        s->acc = b;
        s->have = 8;
    }
    return s->acc >> --s->have & 1;
}
static int symbol(struct stream *s, const struct table *t)
{
    int32_t code = 0;
    for (int n = 1; n <= 16; n++) {
        code = code << 1 | bit(s);
        if (code <= t->maxcode[n]) return t->values[(t->offset[n] + code) & 31];
    }
    s->bad = 2;
    return 0;
}
static int receive(struct stream *s, int n)
{
    int v = 0;
    for (int i = 0; i < n; i++) v = v << 1 | bit(s);
    return n && v < 1 << (n - 1) ? v - (1 << n) + 1 : v;
}
void KERNEL(int16_t *out, size_t blocks, const uint8_t *data, size_t len, const uint16_t *quant, int32_t *result)
{
    struct table dc, ac;
    struct stream s = { data, data + len, 0, 0, 0 };
    int32_t pred = 0;
    size_t b;
    build(&dc, dc_counts, dc_values);
    build(&ac, ac_counts, ac_values);
    for (b = 0; b < blocks && !s.bad; b++, out += 64) {
        for (int i = 0; i < 64; i++) out[i] = 0;
        pred += receive(&s, symbol(&s, &dc));
        out[0] = pred * quant[0];
        for (int k = 1; k < 64 && !s.bad; k++) {
            int rs = symbol(&s, &ac), run = rs >> 4, size = rs & 15;
            if (!size) {
                if (run != 15) break;
                k += 15;
                continue;
            }
            k += run;
            if (k > 63) { s.bad = 3; break; }
            out[zigzag[k]] = receive(&s, size) * quant[k];
        }
    }
    result[0] = b;
    result[1] = s.bad;
}
