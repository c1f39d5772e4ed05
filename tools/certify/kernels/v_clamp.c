#include <riscv_vector.h>
/* Makes each byte at most `most`, by a mask. */
void _start(unsigned char *a, unsigned n, unsigned most) {
    while (n) {
        size_t vl = __riscv_vsetvl_e8m2(n);
        vuint8m2_t v = __riscv_vle8_v_u8m2(a, vl);
        vbool4_t above = __riscv_vmsgtu_vx_u8m2_b4(v, most, vl);
        __riscv_vse8_v_u8m2(a, __riscv_vmerge_vxm_u8m2(v, most, above, vl), vl);
        a += vl;
        n -= vl;
    }
}
