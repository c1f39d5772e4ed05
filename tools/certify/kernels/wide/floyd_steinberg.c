#include <stdint.h>
#include <stddef.h>
extern void *memset(void *, int, size_t);
/* one bit a pixel, rows of whole bytes; two rows of errors */
void KERNEL(uint8_t *bits, const uint8_t *grey, int w, int h, int16_t *errors)
{
    int16_t *this_row = errors + 1, *next_row = errors + 66 + 1;
    int pitch = (w + 7) / 8;
    memset(errors, 0, 264);
    for (int y = 0; y < h; y++) {
        memset(bits + y * pitch, 0, pitch);
        for (int x = 0; x < w; x++) {
            int v = grey[y * w + x] + (this_row[x] >> 4);
            int q = v > 127;
            if (q) bits[y * pitch + (x >> 3)] |= 0x80 >> (x & 7);
            int e = v - (q ? 255 : 0);
            this_row[x + 1] += e * 7;
            next_row[x - 1] += e * 3;
            next_row[x] += e * 5;
            next_row[x + 1] += e;
        }
        int16_t *t = this_row;
        this_row = next_row;
        next_row = t;
        memset(next_row - 1, 0, (w + 2) * sizeof *next_row);
    }
}
