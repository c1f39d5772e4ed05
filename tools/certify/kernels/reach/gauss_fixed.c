#include <stddef.h>
#include <stdint.h>
void KERNEL(int32_t *m, int n, int32_t *rank)
{
    int w = n + 1, r = 0;
    for (int col = 0; col < n; col++) {
        int pivot = r;
        while (pivot < n && m[pivot * w + col] == 0) pivot++;
        if (pivot == n) continue;
        if (pivot != r)
            for (int j = 0; j < w; j++) { int32_t t = m[r * w + j]; m[r * w + j] = m[pivot * w + j]; m[pivot * w + j] = t; }
        for (int i = r + 1; i < n; i++) {
            int64_t f = ((int64_t)m[i * w + col] << 16) / m[r * w + col];
            for (int j = col; j < w; j++)
                m[i * w + j] -= (int32_t)(f * m[r * w + j] >> 16);
        }
        r++;
    }
    *rank = r;
}
