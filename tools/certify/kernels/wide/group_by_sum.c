#include <stdint.h>
#include <stddef.h>
struct in { uint32_t key; int32_t value; };
struct group { uint32_t key, count; int64_t sum; };
/* open addressing with 512 places; a place with count 0 is free */
void KERNEL(const struct in *rows, size_t n, struct group *table, uint32_t *groups)
{
    uint32_t used = 0;
    for (size_t i = 0; i < 512; i++) table[i] = (struct group){ 0 };
    for (const struct in *r = rows, *end = rows + n; r != end; r++) {
        uint32_t h = r->key;
        h = (h ^ h >> 15) * 0x2c1b3c6d;
        struct group *g;
        for (h >>= 23; ; h = (h + 1) & 511) {
            g = &table[h];
            if (g->count == 0) {
                g->key = r->key;
                used++;
                break;
            }
            if (g->key == r->key) break;
        }
        g->count++;
        g->sum += r->value;
    }
    *groups = used;
}
