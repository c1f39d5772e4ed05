#include <stdint.h>
#include <string.h>
/* Bit shuffle of 16-bit samples: bytes apart, 8 by 8 bit matrices turned in 64-bit words, planes written one behind another, and back. */
static uint64_t transpose8(uint64_t x)
{
    uint64_t t;
    t = (x ^ (x >> 7)) & 0x00AA00AA00AA00AAull;
    x ^= t ^ (t << 7);
    t = (x ^ (x >> 14)) & 0x0000CCCC0000CCCCull;
    x ^= t ^ (t << 14);
    t = (x ^ (x >> 28)) & 0x00000000F0F0F0F0ull;
    return x ^ t ^ (t << 28);
}

static void shuffle_block(const uint8_t *in, uint8_t *out, uint32_t count, uint32_t width)
{
    uint32_t rows = count / 8;
    for (uint32_t byte = 0; byte < width; byte++) {
        for (uint32_t row = 0; row < rows; row++) {
            uint64_t x = 0;
            for (int k = 7; k >= 0; k--) x = x << 8 | in[(row * 8 + k) * width + byte];
            x = transpose8(x);
            for (int bit = 0; bit < 8; bit++, x >>= 8) out[(byte * 8 + bit) * rows + row] = (uint8_t)x;
        }
    }
}

static void unshuffle_block(const uint8_t *in, uint8_t *out, uint32_t count, uint32_t width)
{
    uint32_t rows = count / 8;
    for (uint32_t byte = 0; byte < width; byte++) {
        const uint8_t *plane = in + byte * 8 * rows;
        for (uint32_t row = 0; row < rows; row++) {
            uint64_t x = 0;
            for (int bit = 7; bit >= 0; bit--) x = x << 8 | plane[bit * rows + row];
            x = transpose8(x);
            for (int k = 0; k < 8; k++, x >>= 8) out[(row * 8 + k) * width + byte] = (uint8_t)x;
        }
    }
}

void KERNEL(uint8_t *planes, uint8_t *back, const uint8_t *samples, uint32_t count, uint32_t width, uint32_t *zero_runs)
{
    uint32_t whole = count & ~7u, rest = (count & 7) * width, runs = 0;
    if (width == 0 || width > 4) {
        *zero_runs = ~0u;
        return;
    }
    shuffle_block(samples, planes, whole, width);
    memcpy(planes + whole * width, samples + whole * width, rest);
    for (uint32_t i = 0; i < whole * width; i++)
        if (planes[i] == 0 && (i == 0 || planes[i - 1] != 0)) runs++;
    unshuffle_block(planes, back, whole, width);
    memcpy(back + whole * width, planes + whole * width, rest);
    *zero_runs = runs;
}
