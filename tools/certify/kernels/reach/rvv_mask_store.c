#include <stddef.h>
#include <stdint.h>
#include <riscv_vector.h>
void KERNEL(uint8_t *masks, const uint8_t *x, size_t n, uint8_t limit)
{
    for (size_t i = 0; i < n; i += 128) {
        size_t left = n - i < 128 ? n - i : 128;
        size_t vl = __riscv_vsetvl_e8m8(left);
        vbool1_t m = __riscv_vmsgtu_vx_u8m8_b1(__riscv_vle8_v_u8m8(x + i, vl), limit, vl);
        __riscv_vsm_v_b1(masks + i / 8, m, vl);
    }
}
