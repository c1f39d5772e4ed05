#include <stdint.h>
#include <stddef.h>
/* stereo to two channels with a gain of 8 bits, rounded and saturated */
#ifdef __riscv_vector
#include <riscv_vector.h>
void KERNEL(int16_t *left, int16_t *right, const int16_t *frames, size_t n, uint32_t gain)
{
    while (n) {
        size_t vl = __riscv_vsetvl_e16m2(n);
        vint16m2_t l, r;
        l = __riscv_vlse16_v_i16m2(frames, 4, vl);
        r = __riscv_vlse16_v_i16m2(frames + 1, 4, vl);
#if __clang_major__ < 17
#define ROUNDED
#else
#define ROUNDED __RISCV_VXRM_RNU,
#endif
        l = __riscv_vnclip_wx_i16m2(__riscv_vwmul_vx_i32m4(l, gain, vl), 7, ROUNDED vl);
        r = __riscv_vnclip_wx_i16m2(__riscv_vwmul_vx_i32m4(r, gain, vl), 7, ROUNDED vl);
        __riscv_vse16_v_i16m2(left, l, vl);
        __riscv_vse16_v_i16m2(right, r, vl);
        frames += 2 * vl;
        left += vl;
        right += vl;
        n -= vl;
    }
}
#else
static int sat(int x) { return x > 32767 ? 32767 : x < -32768 ? -32768 : x; }
void KERNEL(int16_t *l, int16_t *r, const int16_t *f, size_t n, uint32_t gain) { for (size_t i = 0; i < n; i++) { l[i] = sat((f[2*i] * (int)gain + 64) >> 7); r[i] = sat((f[2*i+1] * (int)gain + 64) >> 7); } }
#endif
