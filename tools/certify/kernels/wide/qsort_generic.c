#include <stdint.h>
#include <stddef.h>
/* qsort of the C library's form: elements of any size, a compare function, and insertion for small parts */
typedef int (*compare_t)(const void *, const void *);
static void swap(char *a, char *b, size_t size)
{
    do {
        char t = *a;
        *a++ = *b;
        *b++ = t;
    } while (--size);
}
static void sort(char *base, size_t n, size_t size, compare_t compare)
{
    struct { char *lo, *hi; } stack[32], *top = stack;
    char *lo = base, *hi = base + (n - 1) * size;
    if (n < 2) return;
    for (;;) {
        if (hi - lo < (long)(8 * size)) {
            for (char *i = lo + size; i <= hi; i += size)
                for (char *j = i; j > lo && compare(j - size, j) > 0; j -= size) swap(j - size, j, size);
            if (top == stack) return;
            --top;
            lo = top->lo;
            hi = top->hi;
            continue;
        }
        char *mid = lo + size * ((size_t)(hi - lo) / size / 2);
        if (compare(mid, lo) < 0) swap(mid, lo, size);
        if (compare(hi, mid) < 0) {
            swap(mid, hi, size);
            if (compare(mid, lo) < 0) swap(mid, lo, size);
        }
        char *left = lo + size, *right = hi - size;
        do {
            while (compare(left, mid) < 0) left += size;
            while (compare(mid, right) < 0) right -= size;
            if (left < right) {
                swap(left, right, size);
                if (mid == left) mid = right;
                else if (mid == right) mid = left;
                left += size;
                right -= size;
            } else if (left == right) {
                left += size;
                right -= size;
                break;
            }
        } while (left <= right);
        if (right - lo > hi - left) {
            top->lo = lo; top->hi = right; top++;
            lo = left;
        } else {
            top->lo = left; top->hi = hi; top++;
            hi = right;
        }
    }
}
struct person { uint16_t age; uint8_t grade, pad; int32_t score; };
static int by_age(const void *a, const void *b)
{
    const struct person *x = a, *y = b;
    if (x->age != y->age) return x->age < y->age ? -1 : 1;
    return x->grade - y->grade;
}
static int by_score(const void *a, const void *b)
{
    const struct person *x = a, *y = b;
    return (x->score > y->score) - (x->score < y->score);
}
void KERNEL(struct person *people, size_t n, int key)
{
    static const compare_t by[] = { by_age, by_score };
    sort((char *)people, n, sizeof *people, by[key & 1]);
}
