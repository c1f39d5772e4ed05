#include <stdint.h>
#include <stddef.h>
/* a window, its autocorrelation in 64 bits, Levinson and Durbin's recursion in Q24, and the residual */
#define ORDER 10
static int64_t divide(int64_t a, int64_t b) { return b ? a / b : 0; }
void KERNEL(int16_t *residual, const int16_t *x, size_t n, int32_t *coefficients, int32_t *gain)
{
    int64_t r[ORDER + 1];
    int32_t a[ORDER + 1] = { 1 << 24 }, old[ORDER + 1];
    for (int lag = 0; lag <= ORDER; lag++) {
        int64_t sum = lag ? 0 : 1 << 10;
        for (size_t i = lag; i < n; i++) sum += (int32_t)x[i] * x[i - lag];
        r[lag] = sum;
    }
    int64_t error = r[0];
    int shift = 0;
    while (error >> shift >= 1 << 30) shift++;
    for (int i = 0; i <= ORDER; i++) r[i] >>= shift;
    error = r[0];
    for (int i = 1; i <= ORDER; i++) {
        int64_t sum = 0;
        for (int j = 0; j < i; j++) sum += (a[j] * r[i - j]) >> 24;
        int32_t k = (int32_t)divide(-(sum << 24), error ? error : 1);
        if (k > 1 << 24) k = 1 << 24;
        if (k < -(1 << 24)) k = -(1 << 24);
        for (int j = 0; j < i; j++) old[j] = a[j];
        for (int j = 1; j < i; j++) a[j] = old[j] + (int32_t)(((int64_t)k * old[i - j]) >> 24);
        a[i] = k;
        error -= ((((int64_t)k * k) >> 24) * error) >> 24;
        if (error <= 0) break;
    }
    for (int i = 0; i <= ORDER; i++) coefficients[i] = a[i];
    for (size_t i = 0; i < n; i++) {
        int64_t sum = 0;
        for (int j = 0; j <= ORDER && (size_t)j <= i; j++) sum += (int64_t)a[j] * x[i - j];
        sum >>= 24;
        residual[i] = sum > 32767 ? 32767 : sum < -32768 ? -32768 : (int16_t)sum;
    }
    *gain = (int32_t)error;
}
