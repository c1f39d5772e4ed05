#include <stdint.h>
void KERNEL(int16_t *restrict out, const int16_t *restrict a, const int16_t *restrict b, int n, int ga, int gb)
{
    for (int i = 0; i < n; i++) {
        int32_t s = (a[i] * ga + b[i] * gb + (1 << 14)) >> 15;
        if (s > 32767) s = 32767;
        if (s < -32768) s = -32768;
        out[i] = (int16_t)s;
    }
}
