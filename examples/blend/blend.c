/* Mixes n bytes of a and b by a weight of alpha / 256, rounded to the nearest: clang makes vector instructions of it. */
#include <stdint.h>

void _start(uint8_t *restrict to, const uint8_t *restrict a, const uint8_t *restrict b, uint32_t n, uint32_t alpha)
{
    for (uint32_t i = 0; i < n; i++)
        to[i] = (uint8_t)((a[i] * (uint16_t)alpha + b[i] * (uint16_t)(256 - alpha) + 128) >> 8);
}
