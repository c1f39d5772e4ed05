#include <stdint.h>
#include <stddef.h>
#include <string.h>
/* A map from words of a text to counts: chains of entries in an arena, the bucket array doubled as it fills; then the most frequent words. */
typedef struct entry {
    struct entry *next;
    const uint8_t *key;
    uint32_t hash;
    uint16_t length, count;
} entry;

typedef struct map {
    entry **buckets;
    uint32_t mask, used;
    entry *arena;
    uint32_t room;
} map;

static entry *table[512];

static uint32_t fnv1a(const uint8_t *s, size_t n)
{
    uint32_t h = 2166136261u;
    while (n--) h = (h ^ *s++) * 16777619u;
    return h;
}

static void rehash(map *m)
{
    uint32_t old = m->mask + 1;
    if (old * 2 > sizeof table / sizeof *table) return;
    for (uint32_t i = old; i < old * 2; i++) m->buckets[i] = NULL;
    m->mask = old * 2 - 1;
    for (uint32_t i = 0; i < old; i++) {
        entry **link = &m->buckets[i];
        while (*link) {
            entry *e = *link;
            uint32_t where = e->hash & m->mask;
            if (where == i) {
                link = &e->next;
                continue;
            }
            *link = e->next;
            e->next = m->buckets[where];
            m->buckets[where] = e;
        }
    }
}

static entry *find_or_add(map *m, const uint8_t *key, size_t n)
{
    uint32_t h = fnv1a(key, n);
    entry *e;
    for (e = m->buckets[h & m->mask]; e; e = e->next)
        if (e->hash == h && e->length == n && memcmp(e->key, key, n) == 0) return e;
    if (m->used == m->room) return NULL;
    if (m->used > m->mask - (m->mask >> 2)) rehash(m);
    e = &m->arena[m->used++];
    e->key = key;
    e->hash = h;
    e->length = (uint16_t)n;
    e->count = 0;
    e->next = m->buckets[h & m->mask];
    m->buckets[h & m->mask] = e;
    return e;
}

static int is_word(uint8_t c)
{
    return (c >= 'a' && c <= 'z') || (c >= 'A' && c <= 'Z') || (c >= '0' && c <= '9') || c == '_';
}

void KERNEL(const uint8_t *text, uint32_t n, entry *arena, uint32_t room, uint32_t *top, uint32_t tops, uint32_t *stats)
{
    map m = {table, 7, 0, arena, room};
    const uint8_t *p = text, *end = text + n;
    uint32_t words = 0, kept = 0;
    for (int i = 0; i < 8; i++) table[i] = NULL;
    while (p < end) {
        const uint8_t *begin;
        entry *e;
        while (p < end && !is_word(*p)) p++;
        begin = p;
        while (p < end && is_word(*p)) p++;
        if (p == begin) break;
        words++;
        e = find_or_add(&m, begin, (size_t)(p - begin));
        if (!e) break;
        e->count++;
    }
    for (uint32_t i = 0; i < m.used; i++) {
        uint32_t at = kept < tops ? kept : tops;
        while (at > 0 && arena[top[at - 1]].count < arena[i].count) {
            if (at < tops) top[at] = top[at - 1];
            at--;
        }
        if (at < tops) {
            top[at] = i;
            if (kept < tops) kept++;
        }
    }
    stats[0] = words;
    stats[1] = m.used;
    stats[2] = m.mask + 1;
    stats[3] = kept;
}
