#include <riscv_vector.h>
/* The same in strips from the end, by a pointer that falls to the start. */
void _start(unsigned char *a, unsigned n) {
    for (unsigned char *p = a + n; p != a;) {
        size_t vl = __riscv_vsetvl_e8m1(p - a);
        p -= vl;
        __riscv_vse8_v_u8m1(p, __riscv_vadd_vx_u8m1(__riscv_vle8_v_u8m1(p, vl), 1, vl), vl);
    }
}
