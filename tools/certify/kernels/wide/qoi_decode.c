/* qoi.h's decoder; the size stands in the header */
#include <stdint.h>
#define QOI_OP_INDEX 0x00
#define QOI_OP_DIFF 0x40
#define QOI_OP_LUMA 0x80
#define QOI_OP_RUN 0xc0
#define QOI_OP_RGB 0xfe
#define QOI_OP_RGBA 0xff
#define QOI_MASK_2 0xc0
#define QOI_COLOR_HASH(C) (C.rgba.r * 3 + C.rgba.g * 5 + C.rgba.b * 7 + C.rgba.a * 11)
typedef union { struct { unsigned char r, g, b, a; } rgba; unsigned int v; } qoi_rgba_t;
static unsigned int qoi_read_32(const unsigned char *bytes, int *p)
{
    unsigned int a = bytes[(*p)++], b = bytes[(*p)++], c = bytes[(*p)++], d = bytes[(*p)++];
    return a << 24 | b << 16 | c << 8 | d;
}
void KERNEL(unsigned char *pixels, const unsigned char *bytes, int size, uint32_t *desc)
{
    qoi_rgba_t index[64], px;
    int px_len, chunks_len, px_pos, p = 0, run = 0, channels;
    if (size < 14 + 8) return;
    unsigned int header_magic = qoi_read_32(bytes, &p);
    desc[0] = qoi_read_32(bytes, &p);
    desc[1] = qoi_read_32(bytes, &p);
    channels = bytes[p++];
    desc[2] = bytes[p++];
    if (desc[0] == 0 || desc[1] == 0 || desc[0] > 64 || desc[1] > 32 || desc[2] > 1 || channels < 3 || channels > 4 ||
        header_magic != 0x716f6966) return;
    px_len = desc[0] * desc[1] * channels;
    for (int i = 0; i < 64; i++) index[i].v = 0;
    px.rgba.r = 0; px.rgba.g = 0; px.rgba.b = 0; px.rgba.a = 255;
    chunks_len = size - 8;
    for (px_pos = 0; px_pos < px_len; px_pos += channels) {
        if (run > 0) {
            run--;
        } else if (p < chunks_len) {
            int b1 = bytes[p++];
            if (b1 == QOI_OP_RGB) {
                px.rgba.r = bytes[p++];
                px.rgba.g = bytes[p++];
                px.rgba.b = bytes[p++];
            } else if (b1 == QOI_OP_RGBA) {
                px.rgba.r = bytes[p++];
                px.rgba.g = bytes[p++];
                px.rgba.b = bytes[p++];
                px.rgba.a = bytes[p++];
            } else if ((b1 & QOI_MASK_2) == QOI_OP_INDEX) {
                px = index[b1];
            } else if ((b1 & QOI_MASK_2) == QOI_OP_DIFF) {
                px.rgba.r += ((b1 >> 4) & 0x03) - 2;
                px.rgba.g += ((b1 >> 2) & 0x03) - 2;
                px.rgba.b += (b1 & 0x03) - 2;
            } else if ((b1 & QOI_MASK_2) == QOI_OP_LUMA) {
                int b2 = bytes[p++];
                int vg = (b1 & 0x3f) - 32;
                px.rgba.r += vg - 8 + ((b2 >> 4) & 0x0f);
                px.rgba.g += vg;
                px.rgba.b += vg - 8 + (b2 & 0x0f);
            } else if ((b1 & QOI_MASK_2) == QOI_OP_RUN) {
                run = (b1 & 0x3f);
            }
            index[QOI_COLOR_HASH(px) & (64 - 1)] = px;
        }
        pixels[px_pos + 0] = px.rgba.r;
        pixels[px_pos + 1] = px.rgba.g;
        pixels[px_pos + 2] = px.rgba.b;
        if (channels == 4) pixels[px_pos + 3] = px.rgba.a;
    }
}
