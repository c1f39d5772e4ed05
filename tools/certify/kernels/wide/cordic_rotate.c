#include <stdint.h>
struct vec { int32_t cos, sin; };
static const int32_t atan_tab[16] = {
    0x20000000, 0x12E4051E, 0x09FB385B, 0x051111D4, 0x028B0D43, 0x0145D7E1, 0x00A2F61E, 0x00517C55,
    0x0028BE53, 0x00145F2F, 0x000A2F98, 0x000517CC, 0x00028BE6, 0x000145F3, 0x0000A2FA, 0x0000517D };
void KERNEL(struct vec *out, const int32_t *angles, unsigned n, unsigned rounds)
{
    for (unsigned i = 0; i < n; i++) {
        int32_t z = angles[i], x = 0x26DD3B6A, y = 0;
        int flip = 0;
        if (z > 0x3fffffff || z < -0x40000000) {
            z ^= 0x80000000;
            flip = 1;
        }
        for (unsigned k = 0; k < rounds; k++) {
            int32_t d = z >> 31;
            int32_t tx = x - (((y >> k) ^ d) - d), ty = y + (((x >> k) ^ d) - d);
            z -= (atan_tab[k] ^ d) - d;
            x = tx;
            y = ty;
        }
        out[i].cos = flip ? -x : x;
        out[i].sin = flip ? -y : y;
    }
}
