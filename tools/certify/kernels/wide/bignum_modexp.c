#include <stdint.h>
/* Montgomery powers of numbers of up to 8 words, least word first: base^exp mod m, m odd */
#define MAXW 8
static void mont_mul(uint32_t *r, const uint32_t *a, const uint32_t *b, const uint32_t *m, uint32_t inv, int n)
{
    uint32_t t[MAXW + 2];
    for (int i = 0; i < n + 2; i++) t[i] = 0;
    for (int i = 0; i < n; i++) {
        uint64_t c = 0;
        for (int j = 0; j < n; j++) {
            c += (uint64_t)a[j] * b[i] + t[j];
            t[j] = (uint32_t)c;
            c >>= 32;
        }
        c += t[n];
        t[n] = (uint32_t)c;
        t[n + 1] = c >> 32;
        uint32_t q = t[0] * inv;
        c = (uint64_t)q * m[0] + t[0];
        c >>= 32;
        for (int j = 1; j < n; j++) {
            c += (uint64_t)q * m[j] + t[j];
            t[j - 1] = (uint32_t)c;
            c >>= 32;
        }
        c += t[n];
        t[n - 1] = (uint32_t)c;
        t[n] = t[n + 1] + (c >> 32);
    }
    uint32_t d[MAXW], borrow = 0;
    for (int j = 0; j < n; j++) {
        uint64_t x = (uint64_t)t[j] - m[j] - borrow;
        d[j] = (uint32_t)x;
        borrow = x >> 63;
    }
    for (int j = 0; j < n; j++) r[j] = t[n] || !borrow ? d[j] : t[j];
}
static void double_mod(uint32_t *r, const uint32_t *m, int n)
{
    uint32_t carry = 0, borrow = 0, d[MAXW];
    for (int i = 0; i < n; i++) {
        uint32_t v = r[i];
        r[i] = v << 1 | carry;
        carry = v >> 31;
    }
    for (int i = 0; i < n; i++) {
        uint64_t x = (uint64_t)r[i] - m[i] - borrow;
        d[i] = x;
        borrow = x >> 63;
    }
    if (carry || !borrow) for (int i = 0; i < n; i++) r[i] = d[i];
}
void KERNEL(uint32_t *out, const uint32_t *base, const uint32_t *exp, const uint32_t *mod, int n)
{
    uint32_t m[MAXW], one[MAXW], acc[MAXW], b[MAXW], inv = 1;
    for (int i = 0; i < n; i++) { m[i] = mod[i]; one[i] = 0; b[i] = base[i]; acc[i] = 0; }
    m[0] |= 1;
    m[n - 1] |= 0x80000000;
    for (int i = 0; i < 5; i++) inv *= 2 - m[0] * inv;
    inv = -inv;
    acc[0] = 1;
    for (int i = 0; i < 64 * n; i++) {
        double_mod(acc, m, n);
        if (i + 1 == 32 * n) for (int k = 0; k < n; k++) one[k] = acc[k];
    }
    mont_mul(b, b, acc, m, inv, n);
    for (int k = 0; k < n; k++) acc[k] = one[k];
    for (int i = 31; i >= 0; i--) {
        mont_mul(acc, acc, acc, m, inv, n);
        if (exp[0] >> i & 1) mont_mul(acc, acc, b, m, inv, n);
    }
    for (int k = 0; k < n; k++) one[k] = k == 0;
    mont_mul(out, acc, one, m, inv, n);
}
