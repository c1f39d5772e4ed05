#include <stdint.h>
#include <stddef.h>
#ifdef __riscv_vector
#include <riscv_vector.h>
void KERNEL(const int16_t *x, size_t n, int32_t *out)
{
    int16_t best = 32767;
    size_t at = 0;
    const int16_t *p = x;
    for (size_t left = n, vl; left > 0; left -= vl, p += vl) {
        vl = __riscv_vsetvl_e16m4(left);
        vint16m4_t v = __riscv_vle16_v_i16m4(p, vl);
        vint16m1_t m = __riscv_vredmin_vs_i16m4_i16m1(v, __riscv_vmv_s_x_i16m1(best, 1), vl);
        int16_t low = __riscv_vmv_x_s_i16m1_i16(m);
        if (low < best) {
            best = low;
            at = p - x + __riscv_vfirst_m_b4(__riscv_vmseq_vx_i16m4_b4(v, low, vl), vl);
        }
    }
    out[0] = best;
    out[1] = at;
}
#else
void KERNEL(const int16_t *x, size_t n, int32_t *out) { int32_t b = 32767, at = 0; for (size_t i = 0; i < n; i++) if (x[i] < b) { b = x[i]; at = i; } out[0] = b; out[1] = at; }
#endif
