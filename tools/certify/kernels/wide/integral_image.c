#include <stdint.h>
void KERNEL(uint32_t *sum, const uint8_t *img, uint32_t w, uint32_t h)
{
    uint32_t pitch = w + 1;
    for (uint32_t x = 0; x <= w; x++) sum[x] = 0;
    for (uint32_t y = 0; y < h; y++) {
        uint32_t row = 0, *s = sum + (y + 1) * pitch, *above = s - pitch;
        s[0] = 0;
        for (uint32_t x = 0; x < w; x++) row += img[y * w + x], s[x + 1] = row;
        for (uint32_t x = 1; x <= w; x++) s[x] += above[x];
    }
}
