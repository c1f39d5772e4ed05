#include <stddef.h>
#include <stdint.h>
static const uint16_t gaps[] = { 301, 132, 57, 23, 10, 4, 1 };
void KERNEL(int32_t *a, size_t n)
{
    for (size_t g = 0; g < sizeof gaps / sizeof *gaps; g++) {
        size_t gap = gaps[g];
        for (size_t i = gap; i < n; i++) {
            int32_t t = a[i];
            size_t j;
            for (j = i; j >= gap && a[j - gap] > t; j -= gap)
                a[j] = a[j - gap];
            a[j] = t;
        }
    }
}
