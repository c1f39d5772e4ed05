#include <riscv_vector.h>
/* Adds 1 to each of n bytes by an index that rises to n: nothing falls. */
void _start(unsigned char *a, unsigned n) {
    for (unsigned i = 0; i < n;) {
        size_t vl = __riscv_vsetvl_e8m1(n - i);
        __riscv_vse8_v_u8m1(a + i, __riscv_vadd_vx_u8m1(__riscv_vle8_v_u8m1(a + i, vl), 1, vl), vl);
        i += vl;
    }
}
