#include <stdint.h>
/* bzip2's way: move to front undone, then the vector of places */
void KERNEL(uint8_t *out, const uint8_t *mtf, uint32_t n, uint32_t origin, uint32_t *tt)
{
    uint8_t yy[256];
    uint32_t cftab[257];
    int i;
    for (i = 0; i < 256; i++) yy[i] = i;
    for (i = 0; i <= 256; i++) cftab[i] = 0;
    for (uint32_t k = 0; k < n; k++) {
        uint32_t pos = mtf[k];
        uint8_t sym = yy[pos];
        while (pos > 0) {
            yy[pos] = yy[pos - 1];
            pos--;
        }
        yy[0] = sym;
        tt[k] = sym;
        cftab[sym + 1]++;
    }
    for (i = 1; i <= 256; i++) cftab[i] += cftab[i - 1];
    for (uint32_t k = 0; k < n; k++) {
        uint8_t uc = tt[k] & 0xff;
        tt[cftab[uc]] |= k << 8;
        cftab[uc]++;
    }
    if (origin >= n) return;
    uint32_t t_pos = tt[origin] >> 8;
    for (uint32_t k = 0; k < n; k++) {
        t_pos = tt[t_pos];
        out[k] = t_pos & 0xff;
        t_pos >>= 8;
    }
}
