/* TIFF's PackBits, as libtiff's tif_packbits.c goes about it */
#include <stdint.h>
void KERNEL(uint8_t *op, const uint8_t *bp, int32_t cc, uint32_t *size)
{
    uint8_t *start = op, *lastliteral = 0;
    int n, b;
    enum { BASE, LITERAL, RUN, LITERAL_RUN } state = BASE;
    while (cc > 0) {
        b = *bp++; cc--; n = 1;
        for (; cc > 0 && b == *bp; cc--, bp++) n++;
    again:
        switch (state) {
        case BASE:
            if (n > 1) {
                state = RUN;
                if (n > 128) {
                    *op++ = (uint8_t)-127;
                    *op++ = (uint8_t)b;
                    n -= 128;
                    goto again;
                }
                *op++ = (uint8_t)(-(n - 1));
                *op++ = (uint8_t)b;
            } else {
                lastliteral = op;
                *op++ = 0;
                *op++ = (uint8_t)b;
                state = LITERAL;
            }
            break;
        case LITERAL:
            if (n > 1) {
                state = LITERAL_RUN;
                if (n > 128) {
                    *op++ = (uint8_t)-127;
                    *op++ = (uint8_t)b;
                    n -= 128;
                    goto again;
                }
                *op++ = (uint8_t)(-(n - 1));
                *op++ = (uint8_t)b;
            } else {
                if (++(*lastliteral) == 127) state = BASE;
                *op++ = (uint8_t)b;
            }
            break;
        case RUN:
            if (n > 1) {
                if (n > 128) {
                    *op++ = (uint8_t)-127;
                    *op++ = (uint8_t)b;
                    n -= 128;
                    goto again;
                }
                *op++ = (uint8_t)(-(n - 1));
                *op++ = (uint8_t)b;
            } else {
                lastliteral = op;
                *op++ = 0;
                *op++ = (uint8_t)b;
                state = LITERAL;
            }
            break;
        case LITERAL_RUN:
            if (n == 1 && op[-2] == (uint8_t)-1 && *lastliteral < 126) {
                state = (((*lastliteral) += 2) == 127 ? BASE : LITERAL);
                op[-2] = op[-1];
            } else
                state = RUN;
            goto again;
        }
    }
    *size = op - start;
}
