#include <stdint.h>
#include <stddef.h>
#ifdef __riscv_vector
#include <riscv_vector.h>
void KERNEL(uint8_t *y, const uint8_t *rgb, size_t pixels)
{
    for (size_t vl; pixels > 0; pixels -= vl, rgb += 3 * vl, y += vl) {
        vl = __riscv_vsetvl_e8m2(pixels);
        vuint8m2_t r, g, b;
        r = __riscv_vlse8_v_u8m2(rgb, 3, vl);
        g = __riscv_vlse8_v_u8m2(rgb + 1, 3, vl);
        b = __riscv_vlse8_v_u8m2(rgb + 2, 3, vl);
        vuint16m4_t acc = __riscv_vwmulu_vx_u16m4(r, 77, vl);
        acc = __riscv_vwmaccu_vx_u16m4(acc, 150, g, vl);
        acc = __riscv_vwmaccu_vx_u16m4(acc, 29, b, vl);
        __riscv_vse8_v_u8m2(y, __riscv_vnsrl_wx_u8m2(acc, 8, vl), vl);
    }
}
#else
void KERNEL(uint8_t *y, const uint8_t *rgb, size_t n) { for (size_t i = 0; i < n; i++) y[i] = (77 * rgb[3*i] + 150 * rgb[3*i+1] + 29 * rgb[3*i+2]) >> 8; }
#endif
