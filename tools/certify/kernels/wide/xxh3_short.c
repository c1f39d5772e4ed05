#include <stdint.h>
#include <stddef.h>
#include <string.h>
/* A hash of the XXH3 family: four ways by length, stripes of 64 bytes with eight accumulators, products of 64 by 64 bits folded. */
static const uint8_t secret[192] = {
    0xb8,0xfe,0x6c,0x39,0x23,0xa4,0x4b,0xbe,0x7c,0x01,0x81,0x2c,0xf7,0x21,0xad,0x1c,0xde,0xd4,0x6d,0xe9,0x83,0x90,0x97,0xdb,
    0x72,0x40,0xa4,0xa4,0xb7,0xb3,0x67,0x1f,0xcb,0x79,0xe6,0x4e,0xcc,0xc0,0xe5,0x78,0x82,0x5a,0xd0,0x7d,0xcc,0xff,0x72,0x21,
    0xb8,0x08,0x46,0x74,0xf7,0x43,0x24,0x8e,0xe0,0x35,0x90,0xe6,0x81,0x3a,0x26,0x4c,0x3c,0x28,0x52,0xbb,0x91,0xc3,0x00,0xcb,
    0x88,0xd0,0x65,0x8b,0x53,0x2e,0xa3,0x71,0x64,0x48,0x97,0xa2,0x0d,0xf9,0x4e,0x38,0x19,0xef,0x46,0xa9,0xde,0xac,0xd8,0xa8,
    0xfa,0x76,0x3f,0xe3,0x9c,0x34,0x3f,0xf9,0xdc,0xbb,0xc7,0xc7,0x0b,0x4f,0x1d,0x8a,0x51,0xe0,0x4b,0xcd,0xb4,0x59,0x31,0xc8,
    0x9f,0x7e,0xc9,0xd9,0x78,0x73,0x64,0xea,0xc5,0xac,0x83,0x34,0xd3,0xeb,0xc3,0xc5,0x81,0xa0,0xff,0xfa,0x13,0x63,0xeb,0x17,
    0x0d,0xdd,0x51,0xb7,0xf0,0xda,0x49,0xd3,0x16,0x55,0x26,0x29,0xd4,0x68,0x9e,0x2b,0x16,0xbe,0x58,0x7d,0x47,0xa1,0xfc,0x8f,
    0xf8,0xb8,0xd1,0x7a,0xd0,0x31,0xce,0x45,0xcb,0x3a,0x8f,0x95,0x16,0x04,0x28,0xaf,0xd7,0xfb,0xca,0xbb,0x4b,0x40,0x7e,0x00};
#define P32_1 0x9E3779B1u
#define P32_2 0x85EBCA77u
#define P32_3 0xC2B2AE3Du
#define P64_1 0x9E3779B185EBCA87ull
#define P64_2 0xC2B2AE3D27D4EB4Full
#define P64_3 0x165667B19E3779F9ull
#define P64_4 0x85EBCA77C2B2AE63ull
#define P64_5 0x27D4EB2F165667C5ull
#define PMX 0x165667919E3779F9ull

static uint32_t read32(const void *p)
{
    uint32_t v;
    memcpy(&v, p, sizeof v);
    return v;
}

static uint64_t read64(const void *p)
{
    uint64_t v;
    memcpy(&v, p, sizeof v);
    return v;
}

static uint64_t swap64(uint64_t x) { return __builtin_bswap64(x); }

static uint64_t mul128_fold(uint64_t a, uint64_t b)
{
    uint64_t lo_lo = (uint64_t)(uint32_t)a * (uint32_t)b, hi_lo = (a >> 32) * (uint32_t)b;
    uint64_t lo_hi = (uint64_t)(uint32_t)a * (b >> 32), hi_hi = (a >> 32) * (b >> 32);
    uint64_t cross = (lo_lo >> 32) + (uint32_t)hi_lo + lo_hi;
    uint64_t upper = (hi_lo >> 32) + (cross >> 32) + hi_hi, lower = cross << 32 | (uint32_t)lo_lo;
    return upper ^ lower;
}

static uint64_t avalanche(uint64_t h)
{
    h ^= h >> 37;
    h *= PMX;
    return h ^ h >> 32;
}

static uint64_t avalanche64(uint64_t h)
{
    h ^= h >> 33;
    h *= P64_2;
    h ^= h >> 29;
    h *= P64_3;
    return h ^ h >> 32;
}

static uint64_t of_1_to_3(const uint8_t *p, size_t n, uint64_t seed)
{
    uint32_t both = (uint32_t)p[0] << 16 | (uint32_t)p[n >> 1] << 24 | p[n - 1] | (uint32_t)n << 8;
    return avalanche64(both ^ ((read32(secret) ^ read32(secret + 4)) + seed));
}

static uint64_t of_4_to_8(const uint8_t *p, size_t n, uint64_t seed)
{
    uint32_t first = read32(p), last = read32(p + n - 4);
    seed ^= (uint64_t)__builtin_bswap32((uint32_t)seed) << 32;
    uint64_t flip = (read64(secret + 8) ^ read64(secret + 16)) - seed, h = (last + ((uint64_t)first << 32)) ^ flip;
    h ^= (h << 49 | h >> 15) ^ (h << 24 | h >> 40);
    h *= 0x9FB21C651E98DF25ull;
    h ^= (h >> 35) + n;
    h *= 0x9FB21C651E98DF25ull;
    return h ^ h >> 28;
}

static uint64_t of_9_to_16(const uint8_t *p, size_t n, uint64_t seed)
{
    uint64_t one = (read64(secret + 24) ^ read64(secret + 32)) + seed, two = (read64(secret + 40) ^ read64(secret + 48)) - seed;
    uint64_t lo = read64(p) ^ one, hi = read64(p + n - 8) ^ two;
    return avalanche(n + swap64(lo) + hi + mul128_fold(lo, hi));
}

static uint64_t mix16(const uint8_t *p, const uint8_t *key, uint64_t seed)
{
    return mul128_fold(read64(p) ^ (read64(key) + seed), read64(p + 8) ^ (read64(key + 8) - seed));
}

static uint64_t of_17_to_128(const uint8_t *p, size_t n, uint64_t seed)
{
    uint64_t acc = n * P64_1;
    if (n > 32) {
        if (n > 64) {
            if (n > 96) {
                acc += mix16(p + 48, secret + 96, seed);
                acc += mix16(p + n - 64, secret + 112, seed);
            }
            acc += mix16(p + 32, secret + 64, seed);
            acc += mix16(p + n - 48, secret + 80, seed);
        }
        acc += mix16(p + 16, secret + 32, seed);
        acc += mix16(p + n - 32, secret + 48, seed);
    }
    acc += mix16(p, secret, seed);
    acc += mix16(p + n - 16, secret + 16, seed);
    return avalanche(acc);
}

static void stripe(uint64_t *acc, const uint8_t *p, const uint8_t *key)
{
    for (int i = 0; i < 8; i++) {
        uint64_t value = read64(p + 8 * i), keyed = value ^ read64(key + 8 * i);
        acc[i ^ 1] += value;
        acc[i] += (uint64_t)(uint32_t)keyed * (keyed >> 32);
    }
}

static uint64_t of_long(const uint8_t *p, size_t n)
{
    uint64_t acc[8] = {P32_3, P64_1, P64_2, P64_3, P64_4, P32_2, P64_5, P32_1};
    size_t per_block = (sizeof secret - 64) / 8, block = 64 * per_block, blocks = (n - 1) / block, stripes;
    for (size_t b = 0; b < blocks; b++) {
        for (size_t s = 0; s < per_block; s++) stripe(acc, p + b * block + 64 * s, secret + 8 * s);
        for (int i = 0; i < 8; i++) {
            acc[i] ^= acc[i] >> 47;
            acc[i] ^= read64(secret + sizeof secret - 64 + 8 * i);
            acc[i] *= P32_1;
        }
    }
    stripes = (n - 1 - block * blocks) / 64;
    for (size_t s = 0; s < stripes; s++) stripe(acc, p + blocks * block + 64 * s, secret + 8 * s);
    stripe(acc, p + n - 64, secret + sizeof secret - 64 - 7);
    uint64_t h = n * P64_1;
    for (int i = 0; i < 4; i++)
        h += mul128_fold(acc[2 * i] ^ read64(secret + 11 + 16 * i), acc[2 * i + 1] ^ read64(secret + 19 + 16 * i));
    return avalanche(h);
}

static uint64_t hash(const void *data, size_t n, uint64_t seed)
{
    const uint8_t *p = data;
    if (n > 128) return of_long(p, n) ^ seed;
    if (n > 16) return of_17_to_128(p, n, seed);
    if (n > 8) return of_9_to_16(p, n, seed);
    if (n >= 4) return of_4_to_8(p, n, seed);
    if (n) return of_1_to_3(p, n, seed);
    return avalanche64(seed ^ read64(secret + 56) ^ read64(secret + 64));
}

/* The strings between `offsets` of a column, each hashed. */
void KERNEL(uint64_t *hashes, const uint8_t *bytes, const uint32_t *offsets, uint32_t count, uint32_t seed)
{
    for (uint32_t i = 0; i < count; i++) hashes[i] = hash(bytes + offsets[i], offsets[i + 1] - offsets[i], seed);
}
