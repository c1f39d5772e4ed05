#include <stdint.h>
#include <string.h>
/* Lloyd's algorithm on integer points of any dimension, until nothing moves or for some rounds. */
#define MAX_K 16
#define MAX_DIM 8

struct model {
    int32_t centre[MAX_K][MAX_DIM];
    int64_t sum[MAX_K][MAX_DIM];
    uint32_t members[MAX_K];
    uint32_t k, dim;
};

static uint32_t distance(const int16_t *p, const int32_t *c, uint32_t dim)
{
    uint32_t d = 0;
    for (uint32_t j = 0; j < dim; j++) {
        int32_t diff = (p[j] - c[j]) >> 4;
        d += diff * diff;
    }
    return d;
}

static uint32_t nearest(const struct model *m, const int16_t *p, uint32_t *best)
{
    uint32_t who = 0;
    *best = UINT32_MAX;
    for (uint32_t c = 0; c < m->k; c++) {
        uint32_t d = distance(p, m->centre[c], m->dim);
        if (d < *best) {
            *best = d;
            who = c;
        }
    }
    return who;
}

void KERNEL(uint8_t *labels, int32_t *centres, const int16_t *points, uint32_t n, uint32_t dim, uint32_t k, uint32_t rounds, uint32_t *info)
{
    struct model m;
    uint32_t round, moved = 0, inertia = 0;
    if (!k || k > MAX_K || !dim || dim > MAX_DIM || n < k) {
        info[0] = ~0u;
        return;
    }
    m.k = k;
    m.dim = dim;
    for (uint32_t c = 0; c < k; c++)
        for (uint32_t j = 0; j < dim; j++) m.centre[c][j] = points[c * (n / k) * dim + j];
    memset(labels, 0xff, n);
    for (round = 0; round < rounds; round++) {
        moved = inertia = 0;
        memset(m.sum, 0, sizeof m.sum);
        memset(m.members, 0, sizeof m.members);
        for (uint32_t i = 0; i < n; i++) {
            const int16_t *p = points + i * dim;
            uint32_t d, c = nearest(&m, p, &d);
            inertia += d >> 8;
            if (labels[i] != c) {
                labels[i] = c;
                moved++;
            }
            m.members[c]++;
            for (uint32_t j = 0; j < dim; j++) m.sum[c][j] += p[j];
        }
        for (uint32_t c = 0; c < k; c++)
            if (m.members[c])
                for (uint32_t j = 0; j < dim; j++) m.centre[c][j] = (int32_t)(m.sum[c][j] / m.members[c]);
        if (!moved) break;
    }
    for (uint32_t c = 0; c < k; c++) memcpy(centres + c * dim, m.centre[c], dim * sizeof *centres);
    info[0] = round;
    info[1] = moved;
    info[2] = inertia;
}
