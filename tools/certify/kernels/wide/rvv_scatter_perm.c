#include <stdint.h>
#include <stddef.h>
/* out[perm[i]] = in[i], by bytes of index */
#ifdef __riscv_vector
#include <riscv_vector.h>
void KERNEL(uint32_t *out, const uint32_t *in, const uint8_t *perm, size_t n)
{
    for (size_t vl; n; n -= vl, in += vl, perm += vl) {
        vl = __riscv_vsetvl_e32m2(n);
        vuint16m1_t at = __riscv_vsll_vx_u16m1(__riscv_vzext_vf2_u16m1(__riscv_vle8_v_u8mf2(perm, vl), vl), 2, vl);
        __riscv_vsoxei16_v_u32m2(out, at, __riscv_vle32_v_u32m2(in, vl), vl);
    }
}
#else
void KERNEL(uint32_t *out, const uint32_t *in, const uint8_t *perm, size_t n) { for (size_t i = 0; i < n; i++) out[perm[i]] = in[i]; }
#endif
