#include <riscv_vector.h>
/* out[i] = a[i] * k + b[i] of n words; at most WORDS of them. */
void axpy(int *out, const int *a, const int *b, unsigned n, int k) {
    while (n) {
        size_t vl = __riscv_vsetvl_e32m8(n);
        vint32m8_t x = __riscv_vle32_v_i32m8(a, vl);
        vint32m8_t y = __riscv_vle32_v_i32m8(b, vl);
        y = __riscv_vmacc_vx_i32m8(y, k, x, vl);
        __riscv_vse32_v_i32m8(out, y, vl);
        a += vl;
        b += vl;
        out += vl;
        n -= vl;
    }
}
