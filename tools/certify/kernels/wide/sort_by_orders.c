#include <stdint.h>
#include <stddef.h>
/* recursive quicksort over pointers, with an insertion sort below a limit and a comparison that is chosen at run time */
typedef int (*order_t)(const int32_t *, const int32_t *);
static int up(const int32_t *a, const int32_t *b) { return (*a > *b) - (*a < *b); }
static int down(const int32_t *a, const int32_t *b) { return up(b, a); }
static int by_low(const int32_t *a, const int32_t *b) { return (int)(*a & 255) - (int)(*b & 255); }
static const order_t orders[] = { up, down, by_low };
static void swap(int32_t *a, int32_t *b) { int32_t t = *a; *a = *b; *b = t; }
static void sort(int32_t *first, int32_t *last, order_t order)
{
    while (last - first > 8) {
        int32_t *mid = first + (last - first) / 2, *l = first, *r = last - 1;
        int32_t pivot = *mid;
        while (l <= r) {
            while (order(l, &pivot) < 0) l++;
            while (order(r, &pivot) > 0) r--;
            if (l <= r) swap(l++, r--);
        }
        if (r - first < last - l) { sort(first, r + 1, order); first = l; }
        else { sort(l, last, order); last = r + 1; }
    }
    for (int32_t *p = first + 1; p < last; p++)
        for (int32_t *q = p; q > first && order(q - 1, q) > 0; q--) swap(q - 1, q);
}
void KERNEL(int32_t *a, size_t n, uint32_t which) { if (n) sort(a, a + n, orders[which % 3]); }
