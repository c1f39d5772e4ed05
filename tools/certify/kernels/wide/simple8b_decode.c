#include <stdint.h>
/* a selector in the upper four bits of each word of 64 */
static const uint8_t bits_of[16] = { 0, 0, 1, 2, 3, 4, 5, 6, 7, 8, 10, 12, 15, 20, 30, 60 };
static const uint8_t count_of[16] = { 240, 120, 60, 30, 20, 15, 12, 10, 8, 7, 6, 5, 4, 3, 2, 1 };
void KERNEL(uint32_t *out, const uint64_t *in, uint32_t words, uint32_t max, uint32_t *got)
{
    uint32_t n = 0;
    for (uint32_t w = 0; w < words; w++) {
        uint64_t v = in[w];
        uint32_t sel = v >> 60, bits = bits_of[sel];
        uint64_t mask = ((uint64_t)1 << bits) - 1;
        for (uint32_t k = 0; k < count_of[sel]; k++) {
            if (n == max) goto done;
            out[n++] = bits ? (uint32_t)(v & mask) : 1;
            v >>= bits;
        }
    }
done:
    *got = n;
}
