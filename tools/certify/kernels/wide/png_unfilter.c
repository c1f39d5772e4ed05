/* rows with a filter byte before each; as lodepng's unfilter */
#include <stdint.h>
#include <stddef.h>
static uint8_t paethPredictor(int16_t a, int16_t b, int16_t c)
{
    int16_t pa = b - c, pb = a - c, pc = a + b - c - c;
    if (pa < 0) pa = -pa;
    if (pb < 0) pb = -pb;
    if (pc < 0) pc = -pc;
    if (pb < pa) { a = b; pa = pb; }
    return (pc < pa) ? c : a;
}
static unsigned unfilterScanline(uint8_t *recon, const uint8_t *scanline, const uint8_t *precon, size_t bytewidth, uint8_t filterType, size_t length)
{
    size_t i;
    switch (filterType) {
    case 0:
        for (i = 0; i != length; ++i) recon[i] = scanline[i];
        break;
    case 1:
        for (i = 0; i != bytewidth; ++i) recon[i] = scanline[i];
        for (i = bytewidth; i < length; ++i) recon[i] = scanline[i] + recon[i - bytewidth];
        break;
    case 2:
        if (precon)
            for (i = 0; i != length; ++i) recon[i] = scanline[i] + precon[i];
        else
            for (i = 0; i != length; ++i) recon[i] = scanline[i];
        break;
    case 3:
        if (precon) {
            for (i = 0; i != bytewidth; ++i) recon[i] = scanline[i] + (precon[i] >> 1u);
            for (i = bytewidth; i < length; ++i) recon[i] = scanline[i] + ((recon[i - bytewidth] + precon[i]) >> 1u);
        } else {
            for (i = 0; i != bytewidth; ++i) recon[i] = scanline[i];
            for (i = bytewidth; i < length; ++i) recon[i] = scanline[i] + (recon[i - bytewidth] >> 1u);
        }
        break;
    case 4:
        if (precon) {
            for (i = 0; i != bytewidth; ++i) recon[i] = (scanline[i] + precon[i]);
            for (i = bytewidth; i < length; ++i)
                recon[i] = (scanline[i] + paethPredictor(recon[i - bytewidth], precon[i], precon[i - bytewidth]));
        } else {
            for (i = 0; i != bytewidth; ++i) recon[i] = scanline[i];
            for (i = bytewidth; i < length; ++i) recon[i] = (scanline[i] + recon[i - bytewidth]);
        }
        break;
    default: return 36;
    }
    return 0;
}
void KERNEL(uint8_t *out, const uint8_t *in, unsigned w, unsigned h, unsigned bytewidth, uint32_t *error)
{
    uint8_t *prevline = 0;
    size_t linebytes = w * bytewidth;
    for (unsigned y = 0; y < h; ++y) {
        size_t outindex = linebytes * y, inindex = (1 + linebytes) * y;
        if (outindex + linebytes > 4096 || inindex + 1 + linebytes > 4096) break;
        uint8_t filterType = in[inindex];
        *error = unfilterScanline(&out[outindex], &in[inindex + 1], prevline, bytewidth, filterType, linebytes);
        if (*error) return;
        prevline = &out[outindex];
    }
}
