#include <stdint.h>
/* running sum with edges repeated */
void KERNEL(uint8_t *dst, const uint8_t *src, int w, int h, int r)
{
    int div = 2 * r + 1;
    for (int y = 0; y < h; y++) {
        const uint8_t *row = src + y * w;
        uint32_t sum = row[0] * (r + 1);
        for (int i = 1; i <= r; i++) sum += row[i < w ? i : w - 1];
        for (int x = 0; x < w; x++) {
            dst[y * w + x] = (sum + div / 2) / div;
            int out = x - r < 0 ? 0 : x - r, in = x + r + 1 >= w ? w - 1 : x + r + 1;
            sum += row[in] - row[out];
        }
    }
}
