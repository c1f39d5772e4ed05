#include <stdint.h>
static inline uint8_t clip(int v) { return v < 0 ? 0 : v > 255 ? 255 : v; }
void KERNEL(uint8_t *restrict rgb, const uint8_t *restrict yp, const uint8_t *restrict up, const uint8_t *restrict vp, unsigned w, unsigned h)
{
    unsigned cw = w / 2;
    for (unsigned j = 0; j < h; j++) {
        const uint8_t *y = yp + j * w, *u = up + (j >> 1) * cw, *v = vp + (j >> 1) * cw;
        for (unsigned i = 0; i < cw * 2; i++) {
            int c = 298 * (y[i] - 16) + 128, d = u[i >> 1] - 128, e = v[i >> 1] - 128;
            rgb[(j * w + i) * 3 + 0] = clip((c + 409 * e) >> 8);
            rgb[(j * w + i) * 3 + 1] = clip((c - 100 * d - 208 * e) >> 8);
            rgb[(j * w + i) * 3 + 2] = clip((c + 516 * d) >> 8);
        }
    }
}
