#include <stdint.h>
#include <stddef.h>
/* the lengths of so many strings behind one another */
#ifdef __riscv_vector
#include <riscv_vector.h>
static size_t strnlen_vec(const char *s, size_t most)
{
    const char *p = s, *end = s + most;
    for (size_t vl; p < end; p += vl) {
        vl = __riscv_vsetvl_e8m8(end - p);
        vuint8m8_t v = __riscv_vle8_v_u8m8((const uint8_t *)p, vl);
        long at = __riscv_vfirst_m_b1(__riscv_vmseq_vx_u8m8_b1(v, 0, vl), vl);
        if (at >= 0) return p - s + at;
    }
    return most;
}
#else
static size_t strnlen_vec(const char *s, size_t n) { size_t i = 0; while (i < n && s[i]) i++; return i; }
#endif
void KERNEL(const char *text, uint32_t n, uint32_t *lengths)
{
    const char *end = text + 4096;
    for (uint32_t i = 0; i < n && text < end; i++) {
        size_t l = strnlen_vec(text, end - text);
        lengths[i] = l;
        text += l + 1;
    }
}
