#include <stdint.h>
#include <stddef.h>
/* xxHash64 of a stream that comes in pieces; state as in the library */
#define P1 0x9E3779B185EBCA87ULL
#define P2 0xC2B2AE3D27D4EB4FULL
#define P3 0x165667B19E3779F9ULL
#define P4 0x85EBCA77C2B2AE63ULL
#define P5 0x27D4EB2F165667C5ULL
typedef struct { uint64_t total, v[4]; uint8_t mem[32]; uint32_t memsize; uint64_t seed; } state_t;
static inline uint64_t rotl(uint64_t x, int r) { return x << r | x >> (64 - r); }
static inline uint64_t read64(const uint8_t *p)
{
    uint64_t v = 0;
    for (int i = 7; i >= 0; i--) v = v << 8 | p[i];
    return v;
}
static inline uint32_t read32(const uint8_t *p) { return p[0] | p[1] << 8 | p[2] << 16 | (uint32_t)p[3] << 24; }
static uint64_t round_(uint64_t acc, uint64_t in) { return rotl(acc + in * P2, 31) * P1; }
static void stripe(state_t *s, const uint8_t *p) { for (int i = 0; i < 4; i++) s->v[i] = round_(s->v[i], read64(p + 8 * i)); }
static void update(state_t *s, const uint8_t *p, size_t len)
{
    const uint8_t *end = p + len;
    s->total += len;
    if (s->memsize + len < 32) {
        while (p < end) s->mem[s->memsize++] = *p++;
        return;
    }
    if (s->memsize) {
        while (s->memsize < 32) s->mem[s->memsize++] = *p++;
        stripe(s, s->mem);
        s->memsize = 0;
    }
    for (; p + 32 <= end; p += 32) stripe(s, p);
    while (p < end) s->mem[s->memsize++] = *p++;
}
static uint64_t digest(const state_t *s)
{
    uint64_t h;
    if (s->total >= 32) {
        h = rotl(s->v[0], 1) + rotl(s->v[1], 7) + rotl(s->v[2], 12) + rotl(s->v[3], 18);
        for (int i = 0; i < 4; i++) h = (h ^ round_(0, s->v[i])) * P1 + P4;
    } else h = s->seed + P5;
    h += s->total;
    const uint8_t *p = s->mem, *end = p + s->memsize;
    for (; p + 8 <= end; p += 8) h = rotl(h ^ round_(0, read64(p)), 27) * P1 + P4;
    if (p + 4 <= end) { h = rotl(h ^ read32(p) * P1, 23) * P2 + P3; p += 4; }
    while (p < end) h = rotl(h ^ *p++ * P5, 11) * P1;
    h = (h ^ h >> 33) * P2;
    h = (h ^ h >> 29) * P3;
    return h ^ h >> 32;
}
void KERNEL(uint64_t *out, const uint8_t *in, size_t len, const uint8_t *pieces, size_t npieces, uint32_t seed)
{
    state_t s = { 0, { seed + P1 + P2, seed + P2, seed, seed - P1 }, { 0 }, 0, seed };
    size_t at = 0;
    for (size_t i = 0; i < npieces && at < len; i++) {
        size_t n = pieces[i];
        if (n > len - at) n = len - at;
        update(&s, in + at, n);
        at += n;
    }
    update(&s, in + at, len - at);
    *out = digest(&s);
}
