#include <riscv_vector.h>
/* Adds 1 to each of n bytes, or 2 to those of strips whose first byte is 0: a branch between a vset and a store. */
void _start(unsigned char *a, unsigned n) {
    while (n) {
        size_t vl = __riscv_vsetvl_e8m2(n);
        vuint8m2_t v = __riscv_vle8_v_u8m2(a, vl);
        if (*a == 0) v = __riscv_vmul_vv_u8m2(v, v, vl);
        __riscv_vse8_v_u8m2(a, __riscv_vadd_vx_u8m2(v, 1, vl), vl);
        a += vl;
        n -= vl;
    }
}
