#include <stdint.h>
void KERNEL(uint8_t *dst, uint32_t dw, uint32_t dh, const uint8_t *src, uint32_t sw, uint32_t sh)
{
    uint32_t x_ratio = ((sw - 1) << 16) / dw, y_ratio = ((sh - 1) << 16) / dh, y = 0;
    for (uint32_t i = 0; i < dh; i++) {
        uint32_t yr = y >> 16, yf = y >> 8 & 0xff, x = 0;
        const uint8_t *row = src + yr * sw, *next = yr + 1 < sh ? row + sw : row;
        for (uint32_t j = 0; j < dw; j++) {
            uint32_t xr = x >> 16, xf = x >> 8 & 0xff, xn = xr + 1 < sw ? xr + 1 : xr;
            uint32_t top = row[xr] * (256 - xf) + row[xn] * xf, bottom = next[xr] * (256 - xf) + next[xn] * xf;
            *dst++ = (top * (256 - yf) + bottom * yf + 32768) >> 16;
            x += x_ratio;
        }
        y += y_ratio;
    }
}
