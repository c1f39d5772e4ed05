#include <stdint.h>
#include <string.h>
/* AES-128 in counter mode with one table of 32-bit words, turned for the other columns; the tables are computed first. */
#define ROTR(x, n) ((x) >> (n) | (x) << (32 - (n)))

typedef struct {
    uint32_t rk[44];
    uint8_t counter[16], stream[16];
    uint32_t used;
} aes_ctr;

static uint8_t sbox[256];
static uint32_t te[256];

static uint8_t xtime(uint8_t x)
{
    return x << 1 ^ (x >> 7) * 0x1b;
}

static void make_tables(void)
{
    uint8_t p = 1, q = 1;
    do {
        p = p ^ xtime(p);
        q ^= q << 1;
        q ^= q << 2;
        q ^= q << 4;
        if (q & 0x80) q ^= 0x09;
        uint8_t x = q ^ (q << 1 | q >> 7) ^ (q << 2 | q >> 6) ^ (q << 3 | q >> 5) ^ (q << 4 | q >> 4);
        sbox[p] = x ^ 0x63;
    } while (p != 1);
    sbox[0] = 0x63;
    for (int i = 0; i < 256; i++) {
        uint8_t s = sbox[i], s2 = xtime(s);
        te[i] = (uint32_t)s2 << 24 | (uint32_t)s << 16 | (uint32_t)s << 8 | (uint8_t)(s2 ^ s);
    }
}

static uint32_t get32(const uint8_t *p)
{
    return (uint32_t)p[0] << 24 | p[1] << 16 | p[2] << 8 | p[3];
}

static void put32(uint8_t *p, uint32_t v)
{
    p[0] = v >> 24;
    p[1] = v >> 16;
    p[2] = v >> 8;
    p[3] = v;
}

static uint32_t sub_word(uint32_t w)
{
    return (uint32_t)sbox[w >> 24] << 24 | sbox[w >> 16 & 255] << 16 | sbox[w >> 8 & 255] << 8 | sbox[w & 255];
}

static void set_key(aes_ctr *ctx, const uint8_t *key)
{
    uint32_t *rk = ctx->rk, rcon = 0x01000000;
    for (int i = 0; i < 4; i++) rk[i] = get32(key + 4 * i);
    for (int i = 4; i < 44; i++) {
        uint32_t t = rk[i - 1];
        if (i % 4 == 0) {
            t = sub_word(ROTR(t, 24)) ^ rcon;
            rcon = (uint32_t)xtime(rcon >> 24) << 24;
        }
        rk[i] = rk[i - 4] ^ t;
    }
}

static void encrypt(const aes_ctr *ctx, const uint8_t in[16], uint8_t out[16])
{
    uint32_t s[4], t[4];
    const uint32_t *rk = ctx->rk;
    for (int i = 0; i < 4; i++) s[i] = get32(in + 4 * i) ^ rk[i];
    for (int round = 1; round < 10; round++) {
        rk += 4;
        for (int i = 0; i < 4; i++) {
            t[i] = te[s[i] >> 24] ^ ROTR(te[s[(i + 1) & 3] >> 16 & 255], 8) ^ ROTR(te[s[(i + 2) & 3] >> 8 & 255], 16)
                 ^ ROTR(te[s[(i + 3) & 3] & 255], 24) ^ rk[i];
        }
        memcpy(s, t, sizeof s);
    }
    rk += 4;
    for (int i = 0; i < 4; i++) {
        uint32_t w = (uint32_t)sbox[s[i] >> 24] << 24 | sbox[s[(i + 1) & 3] >> 16 & 255] << 16
                   | sbox[s[(i + 2) & 3] >> 8 & 255] << 8 | sbox[s[(i + 3) & 3] & 255];
        put32(out + 4 * i, w ^ rk[i]);
    }
}

void KERNEL(uint8_t *out, const uint8_t *in, uint32_t n, const uint8_t *key, const uint8_t *iv)
{
    aes_ctr ctx;
    make_tables();
    set_key(&ctx, key);
    memcpy(ctx.counter, iv, 16);
    ctx.used = 16;
    while (n--) {
        if (ctx.used == 16) {
            encrypt(&ctx, ctx.counter, ctx.stream);
            for (int i = 15; i >= 0 && ++ctx.counter[i] == 0; i--) continue;
            ctx.used = 0;
        }
        *out++ = *in++ ^ ctx.stream[ctx.used++];
    }
}
