/* compress's hash of (prefix, byte), with 12-bit codes of fixed width */
#include <stdint.h>
#define HSIZE 5003
#define MAXCODES 4096
static int32_t htab[HSIZE];
static uint16_t codetab[HSIZE];

struct bitout { uint8_t *p; uint32_t acc; int n; };
static void put12(struct bitout *b, uint32_t code)
{
    b->acc |= code << b->n;
    b->n += 12;
    while (b->n >= 8) {
        *b->p++ = b->acc;
        b->acc >>= 8;
        b->n -= 8;
    }
}

void KERNEL(uint8_t *out, const uint8_t *in, uint32_t n, uint32_t *size)
{
    struct bitout b = { out, 0, 0 };
    if (n == 0) { *size = 0; return; }
    for (int32_t *h = htab + HSIZE; h-- > htab; ) *h = -1;
    uint32_t ent = in[0], free_ent = 257;
    for (uint32_t i = 1; i < n; i++) {
        uint32_t c = in[i];
        int32_t fcode = (int32_t)((c << 16) + ent);
        int32_t at = (c << 4) ^ ent;
        if (htab[at] == fcode) {
            ent = codetab[at];
            continue;
        }
        if (htab[at] >= 0) {
            int32_t disp = at == 0 ? 1 : HSIZE - at;
            int hit = 0;
            do {
                if ((at -= disp) < 0) at += HSIZE;
                if (htab[at] == fcode) { ent = codetab[at]; hit = 1; break; }
            } while (htab[at] >= 0);
            if (hit) continue;
        }
        put12(&b, ent);
        ent = c;
        if (free_ent < MAXCODES) {
            codetab[at] = free_ent++;
            htab[at] = fcode;
        }
    }
    put12(&b, ent);
    if (b.n) *b.p++ = b.acc;
    *size = b.p - out;
}
