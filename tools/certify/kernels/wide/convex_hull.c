#include <stdint.h>
#include <stddef.h>
/* Andrew's monotone chain: points sorted by a heap, cross products in 64 bits */
typedef struct { int32_t x, y; } point;
static int less(point a, point b) { return a.x != b.x ? a.x < b.x : a.y < b.y; }
static void sift(point *p, size_t root, size_t n)
{
    point v = p[root];
    for (size_t child; (child = 2 * root + 1) < n; root = child) {
        if (child + 1 < n && less(p[child], p[child + 1])) child++;
        if (!less(v, p[child])) break;
        p[root] = p[child];
    }
    p[root] = v;
}
static int64_t cross(point o, point a, point b)
{
    return (int64_t)(a.x - o.x) * (b.y - o.y) - (int64_t)(a.y - o.y) * (b.x - o.x);
}
void KERNEL(point *p, size_t n, point *hull, uint32_t *count)
{
    size_t k = 0;
    for (size_t i = 0; i < n; i++) { p[i].x >>= 2; p[i].y >>= 2; }
    for (size_t i = n / 2; i-- > 0;) sift(p, i, n);
    for (size_t end = n; end > 1;) {
        point t = p[0];
        p[0] = p[--end];
        p[end] = t;
        sift(p, 0, end);
    }
    for (size_t i = 0; i < n; i++) {
        while (k >= 2 && cross(hull[k - 2], hull[k - 1], p[i]) <= 0) k--;
        hull[k++] = p[i];
    }
    for (size_t i = n, t = k + 1; i-- > 1;) {
        while (k >= t && cross(hull[k - 2], hull[k - 1], p[i - 1]) <= 0) k--;
        hull[k++] = p[i - 1];
    }
    *count = k;
}
