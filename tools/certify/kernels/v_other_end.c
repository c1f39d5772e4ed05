#include <riscv_vector.h>
/* Adds 1 to each of n bytes by a count that falls, in a loop that ends on the index. */
void _start(unsigned char *a, unsigned n) {
    unsigned left = n;
    for (unsigned i = 0; i < n;) {
        size_t vl = __riscv_vsetvl_e8m1(left);
        __riscv_vse8_v_u8m1(a + i, __riscv_vadd_vx_u8m1(__riscv_vle8_v_u8m1(a + i, vl), 1, vl), vl);
        i += vl;
        left -= vl;
        asm("" : "+r"(left));
    }
}
