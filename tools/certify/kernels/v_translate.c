#include <riscv_vector.h>
/* Translates n bytes by a table of 128: a gather whose indices are cut to it. */
void _start(const unsigned char *table, unsigned char *a, unsigned n) {
    while (n) {
        size_t vl = __riscv_vsetvl_e8m4(n);
        vuint8m4_t index = __riscv_vand_vx_u8m4(__riscv_vle8_v_u8m4(a, vl), 127, vl);
        __riscv_vse8_v_u8m4(a, __riscv_vluxei8_v_u8m4(table, index, vl), vl);
        a += vl;
        n -= vl;
    }
}
