#include <riscv_vector.h>
/* Adds 1 to each word of n bytes, in strips of a count that is n >> 2. */
void _start(unsigned *a, unsigned n) {
    for (n >>= 2; n;) {
        size_t vl = __riscv_vsetvl_e32m1(n);
        __riscv_vse32_v_u32m1(a, __riscv_vadd_vx_u32m1(__riscv_vle32_v_u32m1(a, vl), 1, vl), vl);
        a += vl;
        n -= vl;
    }
}
