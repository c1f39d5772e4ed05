#include <stdint.h>
#include <stddef.h>
#ifdef __riscv_vector
#include <riscv_vector.h>
/* where samples lie above a level: their number, the first and last place, and their sum, by masks */
void KERNEL(const int16_t *x, size_t rows, size_t cols, int level, int32_t *out)
{
    for (size_t r = 0; r < rows; r++) {
        const int16_t *row = x + r * cols;
        int32_t count = 0, first = -1, last = -1;
        vint32m1_t sum = __riscv_vmv_v_x_i32m1(0, 1);
        for (size_t i = 0, vl; i < cols; i += vl) {
            vl = __riscv_vsetvl_e16m2(cols - i);
            vint16m2_t v = __riscv_vle16_v_i16m2(row + i, vl);
            vbool8_t above = __riscv_vmsgt_vx_i16m2_b8(v, level, vl);
            long at = __riscv_vfirst_m_b8(above, vl);
            if (at < 0) continue;
            if (first < 0) first = i + at;
            vuint16m2_t id = __riscv_vid_v_u16m2(vl);
            vuint16m1_t best = __riscv_vredmaxu_vs_u16m2_u16m1_m(above, id, __riscv_vmv_v_x_u16m1(0, 1), vl);
            last = i + __riscv_vmv_x_s_u16m1_u16(best);
            count += __riscv_vcpop_m_b8(above, vl);
            sum = __riscv_vwredsum_vs_i16m2_i32m1_m(above, v, sum, vl);
        }
        out[4 * r] = count;
        out[4 * r + 1] = first;
        out[4 * r + 2] = last;
        out[4 * r + 3] = __riscv_vmv_x_s_i32m1_i32(sum);
    }
}
#else
void KERNEL(const int16_t *x, size_t rows, size_t cols, int level, int32_t *out)
{
    for (size_t r = 0; r < rows; r++) {
        int32_t count = 0, first = -1, last = -1, sum = 0;
        for (size_t i = 0; i < cols; i++) {
            int16_t v = x[r * cols + i];
            if (v > level) { if (first < 0) first = i; last = i; count++; sum += v; }
        }
        out[4 * r] = count; out[4 * r + 1] = first; out[4 * r + 2] = last; out[4 * r + 3] = sum;
    }
}
#endif
