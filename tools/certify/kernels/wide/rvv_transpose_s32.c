#include <stdint.h>
#include <stddef.h>
#ifdef __riscv_vector
#include <riscv_vector.h>
void KERNEL(int32_t *dst, const int32_t *src, size_t rows, size_t cols)
{
    for (size_t r = 0; r < rows; r++) {
        int32_t *d = dst + r;
        const int32_t *s = src + r * cols;
        for (size_t n = cols, vl; n > 0; n -= vl) {
            vl = __riscv_vsetvl_e32m4(n);
            __riscv_vsse32_v_i32m4(d, rows * sizeof *dst, __riscv_vle32_v_i32m4(s, vl), vl);
            s += vl;
            d += vl * rows;
        }
    }
}
#else
void KERNEL(int32_t *d, const int32_t *s, size_t rows, size_t cols) { for (size_t r = 0; r < rows; r++) for (size_t c = 0; c < cols; c++) d[c * rows + r] = s[r * cols + c]; }
#endif
