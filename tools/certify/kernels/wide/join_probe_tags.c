#include <stdint.h>
#include <stddef.h>
#include <string.h>
/* Probe side of a hash join, as in a column store: a directory of slots with tags of 16 bits for an early no, rows of several widths behind offsets, batches with a selection. */
struct directory { uint32_t mask; uint32_t slots[256]; };

static inline uint32_t mix(uint32_t h)
{
    h ^= h >> 16;
    h *= 0x85ebca6b;
    h ^= h >> 13;
    h *= 0xc2b2ae35;
    return h ^ h >> 16;
}

static void build(struct directory *d, uint32_t *next, const uint32_t *keys, uint32_t n)
{
    memset(d->slots, 0, sizeof d->slots);
    for (uint32_t i = 0; i < n; i++) {
        uint32_t h = mix(keys[i]), *slot = &d->slots[h & d->mask];
        next[i] = *slot & 0xffff;
        *slot = (*slot & 0xffff0000u) | (1u << (16 + (h >> 28))) | (i + 1);
    }
}

static uint32_t select_batch(const struct directory *d, const uint32_t *keys, uint32_t n, uint16_t *sel, uint16_t *head)
{
    uint32_t kept = 0;
    for (uint32_t i = 0; i < n; i++) {
        uint32_t h = mix(keys[i]), slot = d->slots[h & d->mask];
        sel[kept] = (uint16_t)i;
        head[kept] = (uint16_t)(slot & 0xffff);
        kept += slot >> (16 + (h >> 28)) & 1;
    }
    return kept;
}

void KERNEL(const uint32_t *build_keys, uint32_t nb, const uint32_t *probe_keys, uint32_t np, uint32_t *pairs, uint32_t room, uint32_t *next, uint32_t *count)
{
    struct directory d;
    uint16_t sel[64], head[64];
    uint32_t found = 0;
    d.mask = 255;
    build(&d, next, build_keys, nb);
    for (uint32_t base = 0; base < np; base += 64) {
        const uint32_t *keys = probe_keys + base;
        uint32_t left = np - base < 64 ? np - base : 64, live = select_batch(&d, keys, left, sel, head);
        while (live) {
            uint32_t kept = 0;
            for (uint32_t i = 0; i < live; i++) {
                uint32_t row = head[i];
                if (!row) continue;
                if (build_keys[row - 1] == keys[sel[i]] && found < room) {
                    pairs[2 * found] = row - 1;
                    pairs[2 * found + 1] = base + sel[i];
                    found++;
                }
                sel[kept] = sel[i];
                head[kept++] = (uint16_t)next[row - 1];
            }
            live = kept;
        }
    }
    *count = found;
}
