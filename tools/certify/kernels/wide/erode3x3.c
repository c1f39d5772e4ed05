#include <stdint.h>
#define MIN(a, b) ((a) < (b) ? (a) : (b))
static uint8_t column[64];
void KERNEL(uint8_t *out, const uint8_t *in, unsigned w, unsigned h)
{
    for (unsigned y = 0; y < h; y++) {
        const uint8_t *c = in + y * w, *u = y ? c - w : c, *d = y + 1 < h ? c + w : c;
        for (unsigned x = 0; x < w; x++) column[x] = MIN(MIN(u[x], d[x]), c[x]);
        for (unsigned x = 0; x < w; x++) {
            uint8_t m = column[x];
            if (x > 0) m = MIN(m, column[x - 1]);
            if (x + 1 < w) m = MIN(m, column[x + 1]);
            out[y * w + x] = m;
        }
    }
}
