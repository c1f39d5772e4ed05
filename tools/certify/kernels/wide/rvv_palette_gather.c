#include <stdint.h>
#include <stddef.h>
#ifdef __riscv_vector
#include <riscv_vector.h>
void KERNEL(uint32_t *out, const uint8_t *pixels, const uint32_t *palette, size_t n)
{
    for (size_t i = 0; i < n; ) {
        size_t vl = __riscv_vsetvl_e32m4(n - i);
        vuint32m4_t offset = __riscv_vsll_vx_u32m4(__riscv_vzext_vf4_u32m4(__riscv_vle8_v_u8m1(pixels + i, vl), vl), 2, vl);
        __riscv_vse32_v_u32m4(out + i, __riscv_vluxei32_v_u32m4(palette, offset, vl), vl);
        i += vl;
    }
}
#else
void KERNEL(uint32_t *out, const uint8_t *pixels, const uint32_t *palette, size_t n) { for (size_t i = 0; i < n; i++) out[i] = palette[pixels[i]]; }
#endif
