#include <riscv_vector.h>
/* The same with n >> 2 anew for each strip. */
void _start(unsigned *a, unsigned n) {
    while (n >= 4) {
        size_t vl = __riscv_vsetvl_e32m1(n >> 2);
        __riscv_vse32_v_u32m1(a, __riscv_vadd_vx_u32m1(__riscv_vle32_v_u32m1(a, vl), 1, vl), vl);
        a += vl;
        n -= vl * 4;
    }
}
