#include <stdint.h>
/* build with chains in static arrays, then probe; pairs of places */
struct row { uint32_t key, payload; };
struct match { uint32_t build, probe; };
static int16_t bucket[128], chain[256];
static inline uint32_t hash(uint32_t k) { return (k * 2654435761u) >> 25; }
void KERNEL(const struct row *build, uint32_t nb, const struct row *probe, uint32_t np, struct match *out, uint32_t max, uint32_t *n)
{
    uint32_t m = 0;
    for (int i = 0; i < 128; i++) bucket[i] = -1;
    for (uint32_t i = 0; i < nb; i++) {
        uint32_t h = hash(build[i].key);
        chain[i] = bucket[h];
        bucket[h] = i;
    }
    for (uint32_t j = 0; j < np; j++)
        for (int e = bucket[hash(probe[j].key)]; e >= 0; e = chain[e])
            if (build[e].key == probe[j].key) {
                if (m < max) {
                    out[m].build = e;
                    out[m].probe = j;
                }
                m++;
            }
    *n = m;
}
