#include <stdint.h>
#include <stddef.h>
#ifdef __riscv_vector
#include <riscv_vector.h>
void KERNEL(uint32_t *out, const uint32_t *in, size_t n)
{
    uint32_t carry = 0;
    while (n > 0) {
        size_t vl = __riscv_vsetvl_e32m1(n);
        vuint32m1_t x = __riscv_vle32_v_u32m1(in, vl), zero = __riscv_vmv_v_x_u32m1(0, vl);
        for (size_t k = 1; k < vl; k <<= 1)
            x = __riscv_vadd_vv_u32m1(x, __riscv_vslideup_vx_u32m1(zero, x, k, vl), vl);
        x = __riscv_vadd_vx_u32m1(x, carry, vl);
        __riscv_vse32_v_u32m1(out, x, vl);
        carry = __riscv_vmv_x_s_u32m1_u32(__riscv_vslidedown_vx_u32m1(x, vl - 1, vl));
        in += vl;
        out += vl;
        n -= vl;
    }
}
#else
void KERNEL(uint32_t *out, const uint32_t *in, size_t n) { uint32_t s = 0; for (size_t i = 0; i < n; i++) out[i] = s += in[i]; }
#endif
