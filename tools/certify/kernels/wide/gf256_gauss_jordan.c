#include <stdint.h>
/* the inverse of a matrix over GF(2^8), as erasure codes need it: [A | I] of n rows and 2n columns */
static uint8_t gf_log[256], gf_exp[512];
static void gf_init(void)
{
    unsigned x = 1;
    for (int i = 0; i < 255; i++) {
        gf_exp[i] = x;
        gf_log[x] = i;
        x <<= 1;
        if (x & 0x100) x ^= 0x11d;
    }
    for (int i = 255; i < 512; i++) gf_exp[i] = gf_exp[i - 255];
}
static uint8_t mul(uint8_t a, uint8_t b) { return a && b ? gf_exp[gf_log[a] + gf_log[b]] : 0; }
static uint8_t inverse(uint8_t a) { return gf_exp[255 - gf_log[a]]; }
void KERNEL(uint8_t *m, int n, int32_t *is_singular)
{
    int w = 2 * n;
    gf_init();
    for (int r = 0; r < n; r++)
        for (int c = 0; c < n; c++) m[r * w + n + c] = r == c;
    for (int p = 0; p < n; p++) {
        int r = p;
        while (r < n && m[r * w + p] == 0) r++;
        if (r == n) { *is_singular = 1; return; }
        if (r != p)
            for (int c = 0; c < w; c++) {
                uint8_t t = m[r * w + c];
                m[r * w + c] = m[p * w + c];
                m[p * w + c] = t;
            }
        uint8_t f = inverse(m[p * w + p]);
        for (int c = 0; c < w; c++) m[p * w + c] = mul(m[p * w + c], f);
        for (r = 0; r < n; r++) {
            if (r == p || (f = m[r * w + p]) == 0) continue;
            for (int c = 0; c < w; c++) m[r * w + c] ^= mul(m[p * w + c], f);
        }
    }
    *is_singular = 0;
}
