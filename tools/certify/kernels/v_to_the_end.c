#include <riscv_vector.h>
/* Adds 1 to each of n bytes by a pointer that rises to the end: nothing falls. */
void _start(unsigned char *p, unsigned n) {
    for (unsigned char *end = p + n; p != end;) {
        size_t vl = __riscv_vsetvl_e8m1(end - p);
        __riscv_vse8_v_u8m1(p, __riscv_vadd_vx_u8m1(__riscv_vle8_v_u8m1(p, vl), 1, vl), vl);
        p += vl;
    }
}
