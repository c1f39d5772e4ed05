#include <stdint.h>
#include <stddef.h>
#ifdef __riscv_vector
#include <riscv_vector.h>
/* digits by a gather within registers, the pairs put together by widening */
void KERNEL(uint8_t *out, const uint8_t *in, size_t n)
{
    static const uint8_t digits[16] = "0123456789abcdef";
    vuint8m1_t table = __riscv_vle8_v_u8m1(digits, 16);
    while (n > 0) {
        size_t vl = __riscv_vsetvl_e8m1(n);
        vuint8m1_t v = __riscv_vle8_v_u8m1(in, vl);
        vuint8m1_t hi = __riscv_vrgather_vv_u8m1(table, __riscv_vsrl_vx_u8m1(v, 4, vl), vl);
        vuint8m1_t lo = __riscv_vrgather_vv_u8m1(table, __riscv_vand_vx_u8m1(v, 15, vl), vl);
        vuint16m2_t pair = __riscv_vwaddu_vv_u16m2(hi, lo, vl);
        pair = __riscv_vwmaccu_vx_u16m2(pair, 255, lo, vl);
        __riscv_vse16_v_u16m2((uint16_t *)out, pair, vl);
        in += vl;
        out += 2 * vl;
        n -= vl;
    }
}
#else
void KERNEL(uint8_t *out, const uint8_t *in, size_t n)
{
    for (size_t i = 0; i < n; i++) {
        *out++ = "0123456789abcdef"[in[i] >> 4];
        *out++ = "0123456789abcdef"[in[i] & 15];
    }
}
#endif
