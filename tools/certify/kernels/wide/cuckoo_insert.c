#include <stdint.h>
#include <stddef.h>
/* two tables in one buffer, 64 buckets of 4 keys; at most 32 moves; 0 is free */
#define BUCKETS 64
#define SLOTS 4
typedef struct { uint32_t key[SLOTS]; } bucket_t;
static uint32_t mix(uint32_t h) { h ^= h >> 16; h *= 0x85ebca6b; h ^= h >> 13; h *= 0xc2b2ae35; h ^= h >> 16; return h; }
static int try_put(bucket_t *b, uint32_t key)
{
    for (int i = 0; i < SLOTS; i++)
        if (b->key[i] == 0 || b->key[i] == key) {
            b->key[i] = key;
            return 1;
        }
    return 0;
}
void KERNEL(bucket_t *table, const uint32_t *keys, uint32_t n, uint32_t *failed)
{
    uint32_t lost = 0, seed = 1;
    for (uint32_t i = 0; i < 2 * BUCKETS; i++)
        for (int k = 0; k < SLOTS; k++) table[i].key[k] = 0;
    for (uint32_t i = 0; i < n; i++) {
        uint32_t key = keys[i] | 1;
        bucket_t *one = &table[mix(key) % BUCKETS], *two = &table[BUCKETS + mix(key ^ 0x9e3779b9) % BUCKETS];
        if (try_put(one, key) || try_put(two, key)) continue;
        uint32_t which = 0, kick;
        for (kick = 0; kick < 32; kick++) {
            bucket_t *b = which ? &table[BUCKETS + mix(key ^ 0x9e3779b9) % BUCKETS] : &table[mix(key) % BUCKETS];
            if (try_put(b, key)) break;
            seed = seed * 1664525 + 1013904223;
            uint32_t slot = seed >> 30, old = b->key[slot];
            b->key[slot] = key;
            key = old;
            which ^= 1;
        }
        if (kick == 32) lost++;
    }
    *failed = lost;
}
