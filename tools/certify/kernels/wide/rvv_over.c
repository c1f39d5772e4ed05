#include <riscv_vector.h>
#include <stdint.h>
#include <stddef.h>
/* Premultiplied alpha over, rows with strides: d = s + d * (255 - a) / 255, by segment loads of four bytes. */
void KERNEL(uint8_t *dst, size_t dst_stride, const uint8_t *src, size_t src_stride, size_t width, size_t height)
{
    for (size_t y = 0; y < height; y++) {
        uint8_t *d = dst + y * dst_stride;
        const uint8_t *s = src + y * src_stride;
        for (size_t x = 0; x < width;) {
            size_t vl = __riscv_vsetvl_e32m4(width - x);
            vuint32m4_t sp = __riscv_vle32_v_u32m4((const uint32_t *)s + x, vl), dp = __riscv_vle32_v_u32m4((const uint32_t *)d + x, vl);
            vuint32m4_t na = __riscv_vrsub_vx_u32m4(__riscv_vsrl_vx_u32m4(sp, 24, vl), 255, vl);
            vuint32m4_t rb = __riscv_vmul_vv_u32m4(__riscv_vand_vx_u32m4(dp, 0xff00ff, vl), na, vl);
            vuint32m4_t ag = __riscv_vmul_vv_u32m4(__riscv_vand_vx_u32m4(__riscv_vsrl_vx_u32m4(dp, 8, vl), 0xff00ff, vl), na, vl);
            rb = __riscv_vadd_vx_u32m4(rb, 0x800080, vl);
            ag = __riscv_vadd_vx_u32m4(ag, 0x800080, vl);
            rb = __riscv_vadd_vv_u32m4(rb, __riscv_vand_vx_u32m4(__riscv_vsrl_vx_u32m4(rb, 8, vl), 0xff00ff, vl), vl);
            ag = __riscv_vadd_vv_u32m4(ag, __riscv_vand_vx_u32m4(__riscv_vsrl_vx_u32m4(ag, 8, vl), 0xff00ff, vl), vl);
            rb = __riscv_vand_vx_u32m4(__riscv_vsrl_vx_u32m4(rb, 8, vl), 0xff00ff, vl);
            ag = __riscv_vand_vx_u32m4(ag, 0xff00ff00u, vl);
            vuint32m4_t out = __riscv_vadd_vv_u32m4(sp, __riscv_vor_vv_u32m4(rb, ag, vl), vl);
            __riscv_vse32_v_u32m4((uint32_t *)d + x, out, vl);
            x += vl;
        }
    }
}
