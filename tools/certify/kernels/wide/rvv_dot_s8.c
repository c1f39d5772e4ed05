#include <stdint.h>
#include <stddef.h>
#ifdef __riscv_vector
#include <riscv_vector.h>
void KERNEL(const int8_t *a, const int8_t *b, size_t n, int32_t *out)
{
    size_t vlmax = __riscv_vsetvlmax_e32m8();
    vint32m8_t acc = __riscv_vmv_v_x_i32m8(0, vlmax);
    for (size_t vl; n > 0; n -= vl, a += vl, b += vl) {
        vl = __riscv_vsetvl_e8m2(n);
        vint16m4_t p = __riscv_vwmul_vv_i16m4(__riscv_vle8_v_i8m2(a, vl), __riscv_vle8_v_i8m2(b, vl), vl);
        acc = __riscv_vwadd_wv_i32m8_tu(acc, acc, p, vl);
    }
    vint32m1_t zero = __riscv_vmv_s_x_i32m1(0, 1);
    *out = __riscv_vmv_x_s_i32m1_i32(__riscv_vredsum_vs_i32m8_i32m1(acc, zero, vlmax));
}
#else
void KERNEL(const int8_t *a, const int8_t *b, size_t n, int32_t *out) { int32_t s = 0; while (n--) s += *a++ * *b++; *out = s; }
#endif
