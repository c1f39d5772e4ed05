#include <stdint.h>
/* C[m][n] = A[m][k] * B[k][n], tiles of 8 */
#define T 8
static inline int min(int a, int b) { return a < b ? a : b; }
void KERNEL(int32_t *c, const int8_t *a, const int8_t *b, int m, int n, int k)
{
    for (int i = 0; i < m * n; i++) c[i] = 0;
    for (int ii = 0; ii < m; ii += T)
        for (int kk = 0; kk < k; kk += T)
            for (int jj = 0; jj < n; jj += T)
                for (int i = ii; i < min(ii + T, m); i++)
                    for (int p = kk; p < min(kk + T, k); p++) {
                        int32_t v = a[i * k + p];
                        for (int j = jj; j < min(jj + T, n); j++)
                            c[i * n + j] += v * b[p * n + j];
                    }
}
