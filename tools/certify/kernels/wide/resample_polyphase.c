#include <stdint.h>
/* 8 taps of 32 phases; src has n samples; how many came out */
void KERNEL(int16_t *dst, const int16_t *src, const int16_t *filter, int n, int src_rate, int dst_rate, int32_t *count)
{
    int index = 0, frac = 0, out = 0;
    int incr = src_rate / dst_rate, rest = src_rate % dst_rate;
    while (index + 8 <= n && out < 2048) {
        const int16_t *f = filter + (frac * 32 / dst_rate) * 8;
        int64_t acc = 0;
        for (int k = 0; k < 8; k++) acc += (int32_t)src[index + k] * f[k];
        acc = (acc + (1 << 14)) >> 15;
        dst[out++] = acc > 32767 ? 32767 : acc < -32768 ? -32768 : (int16_t)acc;
        index += incr;
        frac += rest;
        if (frac >= dst_rate) {
            frac -= dst_rate;
            index++;
        }
    }
    *count = out;
}
