#include <stdint.h>
#include <stddef.h>
#ifdef __riscv_vector
#include <riscv_vector.h>
void KERNEL(int32_t *acc, const int32_t *delta, const uint8_t *tag, size_t n, uint32_t limit)
{
    for (size_t vl; n > 0; n -= vl) {
        vl = __riscv_vsetvl_e8m1(n);
        vbool8_t m = __riscv_vmsltu_vx_u8m1_b8(__riscv_vle8_v_u8m1(tag, vl), limit, vl);
        if (__riscv_vcpop_m_b8(m, vl)) {
            vint32m4_t old = __riscv_vle32_v_i32m4(acc, vl);
            vint32m4_t d = __riscv_vle32_v_i32m4_m(m, delta, vl);
            __riscv_vse32_v_i32m4_m(m, acc, __riscv_vsadd_vv_i32m4_m(m, old, d, vl), vl);
        }
        tag += vl;
        acc += vl;
        delta += vl;
    }
}
#else
void KERNEL(int32_t *acc, const int32_t *delta, const uint8_t *tag, size_t n, uint32_t limit) { for (size_t i = 0; i < n; i++) if (tag[i] < limit) { int64_t s = (int64_t)acc[i] + delta[i]; acc[i] = s > 0x7fffffff ? 0x7fffffff : s < -0x7fffffff - 1 ? -0x7fffffff - 1 : s; } }
#endif
