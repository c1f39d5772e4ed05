#include <riscv_vector.h>
/* Adds 1 to each of n bytes, eight registers at a time. */
void _start(unsigned char *a, unsigned n) {
    while (n) {
        size_t vl = __riscv_vsetvl_e8m8(n);
        vuint8m8_t v = __riscv_vle8_v_u8m8(a, vl);
        __riscv_vse8_v_u8m8(a, __riscv_vadd_vx_u8m8(v, 1, vl), vl);
        a += vl;
        n -= vl;
    }
}
