#include <riscv_vector.h>
/* Writes 0, 1, 2, .. into n bytes by an index that rises beside a count that falls. */
void _start(unsigned char *a, unsigned n) {
    for (unsigned i = 0; n;) {
        size_t vl = __riscv_vsetvl_e8m1(n);
        __riscv_vse8_v_u8m1(a + i, __riscv_vadd_vx_u8m1(__riscv_vid_v_u8m1(vl), i, vl), vl);
        i += vl;
        n -= vl;
    }
}
