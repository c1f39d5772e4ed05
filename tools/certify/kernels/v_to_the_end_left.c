#include <riscv_vector.h>
/* The same, and what is left is made anew at the end of each pass, where the loop ends on it. */
void _start(unsigned char *p, unsigned n) {
    unsigned char *end = p + n;
    for (unsigned left = n; left; left = end - p) {
        size_t vl = __riscv_vsetvl_e8m1(left);
        __riscv_vse8_v_u8m1(p, __riscv_vadd_vx_u8m1(__riscv_vle8_v_u8m1(p, vl), 1, vl), vl);
        p += vl;
        asm("" : "+r"(p));
    }
}
