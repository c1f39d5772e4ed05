#include <stdint.h>
/* number theoretic transform modulo 998244353, in place, by bit reversal and butterflies */
#define P 998244353u
static uint32_t mulmod(uint32_t a, uint32_t b) { return (uint64_t)a * b % P; }
static uint32_t power(uint32_t b, uint32_t e)
{
    uint32_t r = 1;
    for (; e; e >>= 1) {
        if (e & 1) r = mulmod(r, b);
        b = mulmod(b, b);
    }
    return r;
}
void KERNEL(uint32_t *a, uint32_t log)
{
    uint32_t n = 1u << log;
    for (uint32_t i = 1, j = 0; i < n; i++) {
        uint32_t bit = n >> 1;
        for (; j & bit; bit >>= 1) j ^= bit;
        j ^= bit;
        if (i < j) { uint32_t t = a[i]; a[i] = a[j]; a[j] = t; }
    }
    for (uint32_t len = 2; len <= n; len <<= 1) {
        uint32_t w = power(3, (P - 1) / len);
        for (uint32_t i = 0; i < n; i += len) {
            uint32_t f = 1;
            for (uint32_t j = 0; j < len / 2; j++) {
                uint32_t u = a[i + j], v = mulmod(a[i + j + len / 2], f);
                a[i + j] = u + v < P ? u + v : u + v - P;
                a[i + j + len / 2] = u >= v ? u - v : u + P - v;
                f = mulmod(f, w);
            }
        }
    }
}
