#include <stdint.h>
#include <stddef.h>
#ifdef __riscv_vector
#include <riscv_vector.h>
/* escape times in fixed point of 13 bits, a row at a time, until no lane is left */
void KERNEL(uint8_t *out, size_t width, size_t height, int32_t x0, int32_t y0, int32_t step, uint32_t most)
{
    for (size_t y = 0; y < height; y++) {
        int32_t cy = y0 - 16384 + (int32_t)y * step;
        for (size_t x = 0; x < width;) {
            size_t vl = __riscv_vsetvl_e32m2(width - x);
            vint32m2_t lane = __riscv_vreinterpret_v_u32m2_i32m2(__riscv_vid_v_u32m2(vl));
            vint32m2_t cx = __riscv_vadd_vx_i32m2(__riscv_vmul_vx_i32m2(lane, step, vl), x0 - 16384 + (int32_t)x * step, vl);
            vint32m2_t zx = __riscv_vmv_v_x_i32m2(0, vl), zy = zx, count = zx;
            vbool16_t in = __riscv_vmset_m_b16(vl);
            for (uint32_t k = 0; k < most; k++) {
                vint32m2_t xx = __riscv_vsra_vx_i32m2(__riscv_vmul_vv_i32m2(zx, zx, vl), 13, vl);
                vint32m2_t yy = __riscv_vsra_vx_i32m2(__riscv_vmul_vv_i32m2(zy, zy, vl), 13, vl);
                in = __riscv_vmand_mm_b16(in, __riscv_vmsle_vx_i32m2_b16(__riscv_vadd_vv_i32m2(xx, yy, vl), 4 << 13, vl), vl);
                if (__riscv_vcpop_m_b16(in, vl) == 0) break;
                vint32m2_t xy = __riscv_vsra_vx_i32m2(__riscv_vmul_vv_i32m2(zx, zy, vl), 12, vl);
                zx = __riscv_vadd_vv_i32m2(__riscv_vsub_vv_i32m2(xx, yy, vl), cx, vl);
                zy = __riscv_vadd_vx_i32m2(xy, cy, vl);
                count = __riscv_vmerge_vvm_i32m2(count, __riscv_vadd_vx_i32m2(count, 1, vl), in, vl);
            }
            vuint16m1_t half = __riscv_vnsrl_wx_u16m1(__riscv_vreinterpret_v_i32m2_u32m2(count), 0, vl);
            __riscv_vse8_v_u8mf2(out + y * width + x, __riscv_vnsrl_wx_u8mf2(half, 0, vl), vl);
            x += vl;
        }
    }
}
#else
void KERNEL(uint8_t *out, size_t width, size_t height, int32_t x0, int32_t y0, int32_t step, uint32_t most)
{
    for (size_t y = 0; y < height; y++)
        for (size_t x = 0; x < width; x++) {
            int32_t cx = x0 - 16384 + (int32_t)x * step, cy = y0 - 16384 + (int32_t)y * step, zx = 0, zy = 0;
            uint32_t k = 0;
            for (; k < most; k++) {
                int32_t xx = (zx * zx) >> 13, yy = (zy * zy) >> 13;
                if (xx + yy > 4 << 13) break;
                zy = ((zx * zy) >> 12) + cy;
                zx = xx - yy + cx;
            }
            out[y * width + x] = k;
        }
}
#endif
