#include <stdint.h>
#include <stddef.h>
#ifdef __riscv_vector
#include <riscv_vector.h>
/* as chromium's zlib has it: weights of a strip by vid */
void KERNEL(const uint8_t *p, size_t n, uint32_t *out)
{
    uint32_t a = 1, b = 0;
    while (n > 0) {
        size_t vl = __riscv_vsetvl_e8m1(n);
        vuint8m1_t v = __riscv_vle8_v_u8m1(p, vl);
        vuint16m1_t z16 = __riscv_vmv_s_x_u16m1(0, 1);
        vuint32m1_t z32 = __riscv_vmv_s_x_u32m1(0, 1);
        uint32_t sum = __riscv_vmv_x_s_u16m1_u16(__riscv_vwredsumu_vs_u8m1_u16m1(v, z16, vl));
        vuint8m1_t weight = __riscv_vrsub_vx_u8m1(__riscv_vid_v_u8m1(vl), vl, vl);
        uint32_t weighted = __riscv_vmv_x_s_u32m1_u32(__riscv_vwredsumu_vs_u16m2_u32m1(__riscv_vwmulu_vv_u16m2(v, weight, vl), z32, vl));
        b = (b + vl * a + weighted) % 65521;
        a = (a + sum) % 65521;
        p += vl;
        n -= vl;
    }
    *out = b << 16 | a;
}
#else
void KERNEL(const uint8_t *p, size_t n, uint32_t *out) { uint32_t a = 1, b = 0; while (n--) { a = (a + *p++) % 65521; b = (b + a) % 65521; } *out = b << 16 | a; }
#endif
