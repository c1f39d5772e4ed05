#include <stdint.h>
/* edges sorted by weight; path halving, union by size; the edges of the forest by place */
struct edge { uint16_t a, b; uint32_t weight; };
static int16_t link[256];
static int root(int x)
{
    while (link[x] >= 0) {
        if (link[link[x]] >= 0) link[x] = link[link[x]];
        x = link[x];
    }
    return x;
}
void KERNEL(uint32_t *tree, const struct edge *edges, uint32_t m, uint32_t n, uint32_t *total)
{
    uint32_t k = 0, sum = 0;
    for (uint32_t i = 0; i < n; i++) link[i] = -1;
    for (uint32_t e = 0; e < m; e++) {
        if (edges[e].a >= n || edges[e].b >= n) continue;
        int a = root(edges[e].a), b = root(edges[e].b);
        if (a == b) continue;
        if (link[a] > link[b]) { int t = a; a = b; b = t; }
        link[a] += link[b];
        link[b] = a;
        tree[k++] = e;
        sum += edges[e].weight;
        if (k == n - 1) break;
    }
    *total = sum;
}
