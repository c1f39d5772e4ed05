#include <stddef.h>
#include <stdint.h>
void KERNEL(uint32_t *out, uint32_t n, const uint32_t *ends, const uint32_t *values, uint32_t runs)
{
    uint32_t i = 0;
    for (uint32_t r = 0; r < runs && i < n; r++) {
        uint32_t end = ends[r] >> 22;
        if (end > n) end = n;
        for (; i < end; i++)
            out[i] = values[r];
    }
}
