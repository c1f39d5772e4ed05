#include <riscv_vector.h>
/* y = a * x + y on n words. */
void _start(int *y, const int *x, unsigned n, int a) {
    while (n) {
        size_t vl = __riscv_vsetvl_e32m4(n);
        vint32m4_t sum = __riscv_vmacc_vx_i32m4(__riscv_vle32_v_i32m4(y, vl), a, __riscv_vle32_v_i32m4(x, vl), vl);
        __riscv_vse32_v_i32m4(y, sum, vl);
        x += vl;
        y += vl;
        n -= vl;
    }
}
