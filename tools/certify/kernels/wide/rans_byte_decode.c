/* ryg_rans, rans_byte.h, with a table of slots */
#include <stdint.h>
#define RANS_BYTE_L (1u << 23)
#define PROB_BITS 12
typedef struct { uint16_t start, freq; } RansDecSymbol;
static uint8_t cum2sym[1 << PROB_BITS];
void KERNEL(uint8_t *out, const uint8_t *in, uint32_t n, const RansDecSymbol *syms, uint32_t *final)
{
    const uint8_t *ptr = in, *end = in + 2048;
    for (int s = 0; s < 256; s++)
        for (uint32_t i = syms[s].start; i < (uint32_t)syms[s].start + syms[s].freq && i < 1 << PROB_BITS; i++) cum2sym[i] = s;
    uint32_t x = ptr[0] | ptr[1] << 8 | ptr[2] << 16 | (uint32_t)ptr[3] << 24;
    ptr += 4;
    for (uint32_t i = 0; i < n; i++) {
        uint32_t cum = x & ((1u << PROB_BITS) - 1), s = cum2sym[cum];
        out[i] = s;
        x = syms[s].freq * (x >> PROB_BITS) + cum - syms[s].start;
        if (x < RANS_BYTE_L) {
            do {
                if (ptr == end) { *final = i; return; }
                x = (x << 8) | *ptr++;
            } while (x < RANS_BYTE_L);
        }
    }
    *final = x;
}
