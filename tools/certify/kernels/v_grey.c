#include <riscv_vector.h>
/* The mean of red, green and blue of n pixels of three bytes: loads with a stride. */
void _start(unsigned char *grey, const unsigned char *rgb, unsigned n) {
    while (n) {
        size_t vl = __riscv_vsetvl_e8m1(n);
        vuint8m1_t r = __riscv_vlse8_v_u8m1(rgb, 3, vl);
        vuint8m1_t g = __riscv_vlse8_v_u8m1(rgb + 1, 3, vl);
        vuint8m1_t b = __riscv_vlse8_v_u8m1(rgb + 2, 3, vl);
        vuint16m2_t sum = __riscv_vwmulu_vx_u16m2(r, 77, vl);
        sum = __riscv_vwmaccu_vx_u16m2(sum, 150, g, vl);
        sum = __riscv_vwmaccu_vx_u16m2(sum, 29, b, vl);
        __riscv_vse8_v_u8m1(grey, __riscv_vnsrl_wx_u8m1(sum, 8, vl), vl);
        grey += vl;
        rgb += 3 * vl;
        n -= vl;
    }
}
