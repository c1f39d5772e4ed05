#include <stdint.h>
void KERNEL(uint8_t *restrict dst, const uint8_t *restrict src, int w, int h)
{
    for (int y = 2; y < h - 2; y++)
        for (int x = 0; x < w; x++) {
            const uint8_t *p = src + y * w + x;
            dst[y * w + x] = (p[-2 * w] + 4 * p[-w] + 6 * p[0] + 4 * p[w] + p[2 * w] + 8) >> 4;
        }
}
