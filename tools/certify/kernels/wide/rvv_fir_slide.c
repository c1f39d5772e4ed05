#include <stdint.h>
#include <stddef.h>
/* y[i] = sum of h[k] * x[i + k], 16 taps, the window moved by slides; x has 15 words beyond n */
#define TAPS 16
#ifdef __riscv_vector
#include <riscv_vector.h>
void KERNEL(int32_t *y, const int16_t *x, const int16_t *h, size_t n)
{
    while (n > 0) {
        size_t vl = __riscv_vsetvl_e16m2(n);
        vint16m2_t w = __riscv_vle16_v_i16m2(x, vl);
        vint32m4_t acc = __riscv_vmv_v_x_i32m4(0, vl);
        for (int k = 0; k < TAPS; k++) {
            acc = __riscv_vwmacc_vx_i32m4(acc, h[k], w, vl);
            w = __riscv_vslide1down_vx_i16m2(w, x[vl + k], vl);
        }
        __riscv_vse32_v_i32m4(y, acc, vl);
        x += vl;
        y += vl;
        n -= vl;
    }
}
#else
void KERNEL(int32_t *y, const int16_t *x, const int16_t *h, size_t n) { for (size_t i = 0; i < n; i++) { int32_t s = 0; for (int k = 0; k < TAPS; k++) s += x[i + k] * h[k]; y[i] = s; } }
#endif
