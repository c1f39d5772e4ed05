#include <riscv_vector.h>
/* state[0] += the sum of the words below the limit in state[2], and state[1] += how many they are; 16 words of state, 2048 words at x. */
void fold(unsigned *state, const int *x, unsigned n) {
    unsigned sum = state[0], count = state[1];
    int limit = (int)state[2];
    while (n) {
        size_t vl = __riscv_vsetvl_e32m8(n);
        vint32m8_t v = __riscv_vle32_v_i32m8(x, vl);
        vbool4_t below = __riscv_vmslt_vx_i32m8_b4(v, limit, vl);
        count += __riscv_vcpop_m_b4(below, vl);
        vint32m1_t s = __riscv_vmv_s_x_i32m1(sum, vl);
        s = __riscv_vredsum_vs_i32m8_i32m1_m(below, v, s, vl);
        sum = __riscv_vmv_x_s_i32m1_i32(s);
        x += vl;
        n -= vl;
    }
    state[0] = sum;
    state[1] = count;
}
