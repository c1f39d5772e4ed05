#include <stdint.h>
/* full search of a block of 16 by 16 around a place, as a video encoder does it */
static inline int iabs(int x) { return x < 0 ? -x : x; }
static uint32_t sad16(const uint8_t *restrict a, const uint8_t *restrict b, uint32_t stride)
{
    uint32_t sum = 0;
    for (int y = 0; y < 16; y++) {
        for (int x = 0; x < 16; x++) sum += iabs(a[x] - b[x]);
        a += stride;
        b += stride;
    }
    return sum;
}
void KERNEL(const uint8_t *cur, const uint8_t *ref, uint32_t stride, uint32_t bx, uint32_t by, uint32_t range, int32_t *out)
{
    uint32_t best = ~0u, h = 4096 / stride;
    out[0] = out[1] = 0;
    if (bx + 16 > stride || by + 16 > h) return;
    for (int dy = -(int)range; dy <= (int)range; dy++)
        for (int dx = -(int)range; dx <= (int)range; dx++) {
            int x = (int)bx + dx, y = (int)by + dy;
            if (x < 0 || y < 0 || x + 16 > (int)stride || y + 16 > (int)h) continue;
            uint32_t s = sad16(cur + by * stride + bx, ref + y * stride + x, stride);
            if (s < best) {
                best = s;
                out[0] = dx;
                out[1] = dy;
            }
        }
    out[2] = best;
}
