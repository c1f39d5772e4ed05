#include <stdint.h>
static int16_t fail[65];
void KERNEL(const uint8_t *text, int32_t n, const uint8_t *pattern, int32_t m, int32_t *count)
{
    int32_t k = 0, hits = 0;
    if (m == 0) { *count = 0; return; }
    fail[0] = 0;
    for (int32_t i = 1; i < m; i++) {
        while (k > 0 && pattern[k] != pattern[i]) k = fail[k - 1];
        if (pattern[k] == pattern[i]) k++;
        fail[i] = k;
    }
    k = 0;
    for (int32_t i = 0; i < n; i++) {
        while (k > 0 && pattern[k] != text[i]) k = fail[k - 1];
        if (pattern[k] == text[i]) k++;
        if (k == m) {
            hits++;
            k = fail[k - 1];
        }
    }
    *count = hits;
}
