#include <stdint.h>
#include <stddef.h>
#ifdef __riscv_vector
#include <riscv_vector.h>
void KERNEL(uint8_t *dst, const uint8_t *src, size_t n)
{
    const uint8_t *end = src + n;
    while (n > 0) {
        size_t vl = __riscv_vsetvl_e8m1(n);
        end -= vl;
        vuint8m1_t v = __riscv_vle8_v_u8m1(end, vl);
        vuint8m1_t at = __riscv_vrsub_vx_u8m1(__riscv_vid_v_u8m1(vl), vl - 1, vl);
        __riscv_vse8_v_u8m1(dst, __riscv_vrgather_vv_u8m1(v, at, vl), vl);
        dst += vl;
        n -= vl;
    }
}
#else
void KERNEL(uint8_t *dst, const uint8_t *src, size_t n) { for (size_t i = 0; i < n; i++) dst[i] = src[n - 1 - i]; }
#endif
