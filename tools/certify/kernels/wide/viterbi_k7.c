#include <stdint.h>
/* rate 1/2, K = 7, soft decisions of 8 bits; decisions are kept, then traced back */
#define POLYA 0x4f
#define POLYB 0x6d
static uint32_t decisions[512][2];
static int parity(uint32_t x) { x ^= x >> 16; x ^= x >> 8; x ^= x >> 4; return 0x6996 >> (x & 15) & 1; }
void KERNEL(uint8_t *out, const uint8_t *symbols, uint32_t nbits)
{
    uint32_t m[2][64], *old = m[0], *neu = m[1];
    uint8_t branch[2][32];
    if (nbits > 512) return;
    for (int i = 0; i < 32; i++) {
        branch[0][i] = parity(2 * i & POLYA) ? 255 : 0;
        branch[1][i] = parity(2 * i & POLYB) ? 255 : 0;
    }
    for (int i = 0; i < 64; i++) old[i] = 63;
    old[0] = 0;
    for (uint32_t t = 0; t < nbits; t++) {
        uint32_t d[2] = { 0, 0 };
        for (int i = 0; i < 32; i++) {
            uint32_t metric = (branch[0][i] ^ symbols[2 * t]) + (branch[1][i] ^ symbols[2 * t + 1]);
            uint32_t m0 = old[i] + metric, m1 = old[i + 32] + (510 - metric);
            uint32_t m2 = old[i] + (510 - metric), m3 = old[i + 32] + metric;
            uint32_t decision0 = (int32_t)(m0 - m1) > 0, decision1 = (int32_t)(m2 - m3) > 0;
            neu[2 * i] = decision0 ? m1 : m0;
            neu[2 * i + 1] = decision1 ? m3 : m2;
            d[i / 16] |= (decision0 | decision1 << 1) << (2 * i & 31);
        }
        decisions[t][0] = d[0];
        decisions[t][1] = d[1];
        uint32_t *s = old; old = neu; neu = s;
    }
    uint32_t end = 0;
    for (int i = 1; i < 64; i++) if (old[i] < old[end]) end = i;
    for (uint32_t t = nbits; t-- > 0; ) {
        uint32_t k = decisions[t][end >> 5] >> (end & 31) & 1;
        uint32_t bit = end & 1;
        out[t >> 3] = (out[t >> 3] & ~(0x80 >> (t & 7))) | (bit ? 0x80 >> (t & 7) : 0);
        end = end >> 1 | k << 5;
    }
}
