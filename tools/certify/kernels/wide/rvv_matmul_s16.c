#include <stdint.h>
#include <stddef.h>
#ifdef __riscv_vector
#include <riscv_vector.h>
void KERNEL(int32_t *c, const int16_t *a, const int16_t *b, size_t m, size_t n, size_t k)
{
    for (size_t i = 0; i < m; i++) {
        for (size_t j = 0, vl; j < n; j += vl) {
            vl = __riscv_vsetvl_e32m4(n - j);
            vint32m4_t acc = __riscv_vmv_v_x_i32m4(0, vl);
            for (size_t p = 0; p < k; p++)
                acc = __riscv_vwmacc_vx_i32m4(acc, a[i * k + p], __riscv_vle16_v_i16m2(b + p * n + j, vl), vl);
            __riscv_vse32_v_i32m4(c + i * n + j, acc, vl);
        }
    }
}
#else
void KERNEL(int32_t *c, const int16_t *a, const int16_t *b, size_t m, size_t n, size_t k) { for (size_t i = 0; i < m; i++) for (size_t j = 0; j < n; j++) { int32_t s = 0; for (size_t p = 0; p < k; p++) s += a[i*k+p] * b[p*n+j]; c[i*n+j] = s; } }
#endif
