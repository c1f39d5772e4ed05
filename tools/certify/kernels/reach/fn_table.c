#include <stddef.h>
#include <stdint.h>
static uint32_t f0(uint32_t x) { return x * 3; }
static uint32_t f1(uint32_t x) { return x ^ x >> 7; }
static uint32_t f2(uint32_t x) { return ~x; }
static uint32_t f3(uint32_t x) { return x << 5 | x >> 27; }
static uint32_t (*const table[4])(uint32_t) = { f0, f1, f2, f3 };
void KERNEL(uint32_t *out, const uint32_t *in, size_t n, uint32_t which)
{
    uint32_t (*f)(uint32_t) = table[which & 3];
    for (size_t i = 0; i < n; i++) out[i] = f(in[i]);
}
