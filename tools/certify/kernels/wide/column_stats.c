#include <stdint.h>
struct stats { int64_t sum; uint32_t zeros, negatives; int32_t min, max; uint32_t ones, xor; };
void KERNEL(const int32_t *v, uint32_t n, struct stats *out)
{
    struct stats s = { 0, 0, 0, 0x7fffffff, -0x7fffffff - 1, 0, 0 };
    for (uint32_t i = 0; i < n; i++) {
        s.sum += v[i];
        s.zeros += (v[i] & 7) == 0;
        s.negatives += v[i] < 0;
        if (v[i] < s.min) s.min = v[i];
        if (v[i] > s.max) s.max = v[i];
        s.xor ^= v[i];
    }
    *out = s;
}
