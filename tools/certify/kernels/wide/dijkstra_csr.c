#include <stdint.h>
#define INF 0xffffffffu
struct arc { uint32_t to, cost; };
/* arrays alone: the nearest is looked for among all that are not done */
void KERNEL(uint32_t *dist, const uint32_t *begin, const struct arc *arcs, uint32_t n, uint32_t source)
{
    uint8_t done[256];
    for (uint32_t i = 0; i < n; i++) {
        dist[i] = INF;
        done[i] = 0;
    }
    if (source >= n) return;
    dist[source] = 0;
    for (;;) {
        uint32_t u = n;
        for (uint32_t i = 0; i < n; i++)
            if (!done[i] && dist[i] != INF && (u == n || dist[i] < dist[u])) u = i;
        if (u == n) break;
        done[u] = 1;
        for (uint32_t e = begin[u]; e < begin[u + 1]; e++) {
            const struct arc *a = &arcs[e];
            if (a->to >= n) continue;
            uint32_t d = dist[u] + a->cost;
            if (d < dist[a->to]) dist[a->to] = d;
        }
    }
}
