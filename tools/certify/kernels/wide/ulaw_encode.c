/* g711.c of Sun Microsystems */
#include <stdint.h>
#define BIAS (0x84)
#define CLIP 8159
static short seg_uend[8] = {0x3F, 0x7F, 0xFF, 0x1FF, 0x3FF, 0x7FF, 0xFFF, 0x1FFF};

static short search(short val, short *table, short size)
{
    short i;
    for (i = 0; i < size; i++) {
        if (val <= *table++)
            return (i);
    }
    return (size);
}

static unsigned char linear2ulaw(short pcm_val)
{
    short mask;
    short seg;
    unsigned char uval;
    pcm_val = pcm_val >> 2;
    if (pcm_val < 0) {
        pcm_val = -pcm_val;
        mask = 0x7F;
    } else {
        mask = 0xFF;
    }
    if (pcm_val > CLIP) pcm_val = CLIP;
    pcm_val += (BIAS >> 2);
    seg = search(pcm_val, seg_uend, 8);
    if (seg >= 8)
        return (unsigned char) (0x7F ^ mask);
    else {
        uval = (unsigned char) (seg << 4) | ((pcm_val >> (seg + 1)) & 0xF);
        return (uval ^ mask);
    }
}

void KERNEL(uint8_t *out, const int16_t *pcm, uint32_t n)
{
    for (uint32_t i = 0; i < n; i++)
        out[i] = linear2ulaw(pcm[i]);
}
