#include <stdint.h>
#include <stddef.h>
#ifdef __riscv_vector
#include <riscv_vector.h>
/* three bytes in strides to four indices, letters by differences per range, and four stores in strides; the rest by hand */
static vuint8m1_t letters(vuint8m1_t six, size_t vl)
{
    vuint8m1_t out = __riscv_vadd_vx_u8m1(six, 'A', vl);
    out = __riscv_vmerge_vvm_u8m1(out, __riscv_vadd_vx_u8m1(six, 'a' - 26, vl), __riscv_vmsgtu_vx_u8m1_b8(six, 25, vl), vl);
    out = __riscv_vmerge_vvm_u8m1(out, __riscv_vadd_vx_u8m1(six, (uint8_t)('0' - 52), vl), __riscv_vmsgtu_vx_u8m1_b8(six, 51, vl), vl);
    out = __riscv_vmerge_vxm_u8m1(out, '+', __riscv_vmseq_vx_u8m1_b8(six, 62, vl), vl);
    return __riscv_vmerge_vxm_u8m1(out, '/', __riscv_vmseq_vx_u8m1_b8(six, 63, vl), vl);
}

static size_t whole(uint8_t *out, const uint8_t *in, size_t n)
{
    size_t left = n / 3;
    for (size_t vl; left; left -= vl, in += 3 * vl, out += 4 * vl) {
        vl = __riscv_vsetvl_e8m1(left);
        vuint8m1_t a = __riscv_vlse8_v_u8m1(in, 3, vl), b = __riscv_vlse8_v_u8m1(in + 1, 3, vl), c = __riscv_vlse8_v_u8m1(in + 2, 3, vl);
        vuint8m1_t i1 = __riscv_vor_vv_u8m1(__riscv_vsll_vx_u8m1(__riscv_vand_vx_u8m1(a, 3, vl), 4, vl), __riscv_vsrl_vx_u8m1(b, 4, vl), vl);
        vuint8m1_t i2 = __riscv_vor_vv_u8m1(__riscv_vsll_vx_u8m1(__riscv_vand_vx_u8m1(b, 15, vl), 2, vl), __riscv_vsrl_vx_u8m1(c, 6, vl), vl);
        __riscv_vsse8_v_u8m1(out, 4, letters(__riscv_vsrl_vx_u8m1(a, 2, vl), vl), vl);
        __riscv_vsse8_v_u8m1(out + 1, 4, letters(i1, vl), vl);
        __riscv_vsse8_v_u8m1(out + 2, 4, letters(i2, vl), vl);
        __riscv_vsse8_v_u8m1(out + 3, 4, letters(__riscv_vand_vx_u8m1(c, 63, vl), vl), vl);
    }
    return n / 3;
}
#else
static size_t whole(uint8_t *out, const uint8_t *in, size_t n) { return 0; }
#endif

static const char table[] = "ABCDEFGHIJKLMNOPQRSTUVWXYZabcdefghijklmnopqrstuvwxyz0123456789+/";

void KERNEL(uint8_t *out, const uint8_t *in, size_t n, uint32_t *length)
{
    size_t done = whole(out, in, n);
    uint8_t *o = out + 4 * done;
    in += 3 * done;
    n -= 3 * done;
    for (; n >= 3; n -= 3, in += 3, o += 4) {
        uint32_t v = in[0] << 16 | in[1] << 8 | in[2];
        for (int k = 0; k < 4; k++) o[k] = table[v >> (18 - 6 * k) & 63];
    }
    if (n) {
        uint32_t v = in[0] << 16 | (n > 1 ? in[1] << 8 : 0);
        o[0] = table[v >> 18];
        o[1] = table[v >> 12 & 63];
        o[2] = n > 1 ? table[v >> 6 & 63] : '=';
        o[3] = '=';
        o += 4;
    }
    *length = (uint32_t)(o - out);
}
