#include <riscv_vector.h>
/* Adds a row of 100 bytes to each of n rows: a loop over strips within one over rows, each with its own pointer. */
void _start(unsigned char *rows, const unsigned char *row, unsigned n) {
    for (; n; n--) {
        unsigned char *to = rows;
        const unsigned char *r = row;
        unsigned left = 100;
        do {
            size_t vl = __riscv_vsetvl_e8m2(left);
            vuint8m2_t v = __riscv_vadd_vv_u8m2(__riscv_vle8_v_u8m2(to, vl), __riscv_vle8_v_u8m2(r, vl), vl);
            __riscv_vse8_v_u8m2(to, v, vl);
            to += vl;
            r += vl;
            left -= vl;
        } while (left);
        rows += 100;
    }
}
