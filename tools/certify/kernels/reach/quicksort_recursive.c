#include <stddef.h>
#include <stdint.h>
static void sort(int32_t *a, int lo, int hi)
{
    if (lo >= hi) return;
    int32_t pivot = a[(lo + hi) / 2];
    int i = lo, j = hi;
    while (i <= j) {
        while (a[i] < pivot) i++;
        while (a[j] > pivot) j--;
        if (i <= j) {
            int32_t t = a[i];
            a[i] = a[j];
            a[j] = t;
            i++;
            j--;
        }
    }
    sort(a, lo, j);
    sort(a, i, hi);
}
void KERNEL(int32_t *a, int n) { sort(a, 0, n - 1); }
