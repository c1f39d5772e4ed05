#include <stdint.h>
/* receive side scaling: 12 bytes of a tuple each, key of 40 bytes, then the queue by a table of 128 */
static uint32_t toeplitz_hash(const uint8_t *key, const uint8_t *data, int len)
{
    uint32_t hash = 0, v = (uint32_t)key[0] << 24 | (uint32_t)key[1] << 16 | (uint32_t)key[2] << 8 | key[3];
    for (int i = 0; i < len; i++) {
        for (int b = 0; b < 8; b++) {
            if (data[i] & (1 << (7 - b))) hash ^= v;
            v <<= 1;
            if (i + 4 < 40 && (key[i + 4] & (1 << (7 - b)))) v |= 1;
        }
    }
    return hash;
}
void KERNEL(const uint8_t *key, const uint8_t *tuples, uint32_t n, uint32_t *out, const uint8_t *reta)
{
    for (uint32_t i = 0; i < n; i++) {
        uint32_t h = toeplitz_hash(key, tuples + 12 * i, 12);
        out[i] = (h & ~0xffu) | reta[h & 127];
    }
}
