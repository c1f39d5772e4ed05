#include <stddef.h>
#include <stdint.h>
void KERNEL(uint32_t *a, uint32_t *b, size_t n)
{
    for (int shift = 0; shift < 32; shift += 8) {
        uint32_t count[256] = { 0 };
        for (size_t i = 0; i < n; i++) count[a[i] >> shift & 255]++;
        uint32_t sum = 0;
        for (int i = 0; i < 256; i++) { uint32_t c = count[i]; count[i] = sum; sum += c; }
        for (size_t i = 0; i < n; i++) b[count[a[i] >> shift & 255]++] = a[i];
        uint32_t *t = a; a = b; b = t;
    }
}
