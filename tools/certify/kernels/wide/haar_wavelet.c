#include <stdint.h>
/* lifting, in place with a scratch of its own */
#define MAXN 512
static int32_t tmp[MAXN];
void KERNEL(int32_t *x, int n, int levels)
{
    if (n > MAXN) return;
    for (int l = 0; l < levels && n >= 2; l++, n >>= 1) {
        int half = n >> 1;
        for (int i = 0; i < half; i++) {
            int32_t a = x[2 * i], b = x[2 * i + 1], d = b - a;
            tmp[half + i] = d;
            tmp[i] = a + (d >> 1);
        }
        for (int i = 0; i < 2 * half; i++) x[i] = tmp[i];
    }
}
