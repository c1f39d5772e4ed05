#include <stdint.h>
#include <stddef.h>
#ifdef __riscv_vector
#include <riscv_vector.h>
/* gradients of a picture by loads beside one another, absolute values, and a sum that saturates */
static inline vint16m4_t wide(const uint8_t *p, size_t vl)
{
    return __riscv_vreinterpret_v_u16m4_i16m4(__riscv_vwcvtu_x_x_v_u16m4(__riscv_vle8_v_u8m2(p, vl), vl));
}
static inline vint16m4_t absolute(vint16m4_t v, size_t vl)
{
    return __riscv_vmax_vv_i16m4(v, __riscv_vrsub_vx_i16m4(v, 0, vl), vl);
}
void KERNEL(uint8_t *dst, const uint8_t *src, size_t w, size_t h)
{
    if (w < 3 || h < 3) return;
    for (size_t y = 1; y + 1 < h; y++) {
        const uint8_t *a = src + (y - 1) * w, *b = a + w, *c = b + w;
        uint8_t *o = dst + y * w + 1;
        size_t n = w - 2;
        while (n) {
            size_t vl = __riscv_vsetvl_e8m2(n);
            vint16m4_t gx = __riscv_vsub_vv_i16m4(wide(a + 2, vl), wide(a, vl), vl);
            vint16m4_t mid = __riscv_vsub_vv_i16m4(wide(b + 2, vl), wide(b, vl), vl);
            gx = __riscv_vadd_vv_i16m4(gx, __riscv_vsll_vx_i16m4(mid, 1, vl), vl);
            gx = __riscv_vadd_vv_i16m4(gx, __riscv_vsub_vv_i16m4(wide(c + 2, vl), wide(c, vl), vl), vl);
            vint16m4_t gy = __riscv_vsub_vv_i16m4(wide(c, vl), wide(a, vl), vl);
            mid = __riscv_vsub_vv_i16m4(wide(c + 1, vl), wide(a + 1, vl), vl);
            gy = __riscv_vadd_vv_i16m4(gy, __riscv_vsll_vx_i16m4(mid, 1, vl), vl);
            gy = __riscv_vadd_vv_i16m4(gy, __riscv_vsub_vv_i16m4(wide(c + 2, vl), wide(a + 2, vl), vl), vl);
            vint16m4_t g = __riscv_vadd_vv_i16m4(absolute(gx, vl), absolute(gy, vl), vl);
            vuint16m4_t cut = __riscv_vminu_vx_u16m4(__riscv_vreinterpret_v_i16m4_u16m4(g), 255, vl);
            __riscv_vse8_v_u8m2(o, __riscv_vncvt_x_x_w_u8m2(cut, vl), vl);
            a += vl; b += vl; c += vl; o += vl; n -= vl;
        }
    }
}
#else
static int absolute(int v) { return v < 0 ? -v : v; }
void KERNEL(uint8_t *dst, const uint8_t *src, size_t w, size_t h)
{
    if (w < 3 || h < 3) return;
    for (size_t y = 1; y + 1 < h; y++)
        for (size_t x = 1; x + 1 < w; x++) {
            const uint8_t *p = src + y * w + x;
            int gx = p[1 - (long)w] - p[-1 - (long)w] + 2 * (p[1] - p[-1]) + p[w + 1] - p[w - 1];
            int gy = p[w - 1] - p[-1 - (long)w] + 2 * (p[w] - p[-(long)w]) + p[w + 1] - p[1 - (long)w];
            int g = absolute(gx) + absolute(gy);
            dst[y * w + x] = g > 255 ? 255 : g;
        }
}
#endif
