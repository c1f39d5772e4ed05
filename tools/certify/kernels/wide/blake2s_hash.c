#include <stdint.h>
#include <stddef.h>
static const uint32_t iv[8] = { 0x6A09E667, 0xBB67AE85, 0x3C6EF372, 0xA54FF53A, 0x510E527F, 0x9B05688C, 0x1F83D9AB, 0x5BE0CD19 };
static const uint8_t sigma[10][16] = {
    { 0, 1, 2, 3, 4, 5, 6, 7, 8, 9, 10, 11, 12, 13, 14, 15 }, { 14, 10, 4, 8, 9, 15, 13, 6, 1, 12, 0, 2, 11, 7, 5, 3 },
    { 11, 8, 12, 0, 5, 2, 15, 13, 10, 14, 3, 6, 7, 1, 9, 4 }, { 7, 9, 3, 1, 13, 12, 11, 14, 2, 6, 5, 10, 4, 0, 15, 8 },
    { 9, 0, 5, 7, 2, 4, 10, 15, 14, 1, 11, 12, 6, 8, 3, 13 }, { 2, 12, 6, 10, 0, 11, 8, 3, 4, 13, 7, 5, 15, 14, 1, 9 },
    { 12, 5, 1, 15, 14, 13, 4, 10, 0, 7, 6, 3, 9, 2, 8, 11 }, { 13, 11, 7, 14, 12, 1, 3, 9, 5, 0, 15, 4, 8, 6, 2, 10 },
    { 6, 15, 14, 9, 11, 3, 0, 8, 12, 2, 13, 7, 1, 4, 10, 5 }, { 10, 2, 8, 4, 7, 6, 1, 5, 15, 11, 9, 14, 3, 12, 13, 0 } };
typedef struct { uint8_t b[64]; uint32_t h[8]; uint32_t t[2]; size_t c, outlen; } blake2s_ctx;
#define ROTR32(x, y) (((x) >> (y)) ^ ((x) << (32 - (y))))
#define B2S_GET32(p) (((uint32_t)((uint8_t *)(p))[0]) ^ (((uint32_t)((uint8_t *)(p))[1]) << 8) ^ \
    (((uint32_t)((uint8_t *)(p))[2]) << 16) ^ (((uint32_t)((uint8_t *)(p))[3]) << 24))
#define B2S_G(a, b, c, d, x, y) { \
    v[a] = v[a] + v[b] + x; v[d] = ROTR32(v[d] ^ v[a], 16); v[c] = v[c] + v[d]; v[b] = ROTR32(v[b] ^ v[c], 12); \
    v[a] = v[a] + v[b] + y; v[d] = ROTR32(v[d] ^ v[a], 8); v[c] = v[c] + v[d]; v[b] = ROTR32(v[b] ^ v[c], 7); }

static void blake2s_compress(blake2s_ctx *ctx, int last)
{
    uint32_t v[16], m[16];
    for (int i = 0; i < 8; i++) {
        v[i] = ctx->h[i];
        v[i + 8] = iv[i];
    }
    v[12] ^= ctx->t[0];
    v[13] ^= ctx->t[1];
    if (last) v[14] = ~v[14];
    for (int i = 0; i < 16; i++) m[i] = B2S_GET32(&ctx->b[4 * i]);
    for (int i = 0; i < 10; i++) {
        B2S_G(0, 4, 8, 12, m[sigma[i][0]], m[sigma[i][1]]);
        B2S_G(1, 5, 9, 13, m[sigma[i][2]], m[sigma[i][3]]);
        B2S_G(2, 6, 10, 14, m[sigma[i][4]], m[sigma[i][5]]);
        B2S_G(3, 7, 11, 15, m[sigma[i][6]], m[sigma[i][7]]);
        B2S_G(0, 5, 10, 15, m[sigma[i][8]], m[sigma[i][9]]);
        B2S_G(1, 6, 11, 12, m[sigma[i][10]], m[sigma[i][11]]);
        B2S_G(2, 7, 8, 13, m[sigma[i][12]], m[sigma[i][13]]);
        B2S_G(3, 4, 9, 14, m[sigma[i][14]], m[sigma[i][15]]);
    }
    for (int i = 0; i < 8; ++i) ctx->h[i] ^= v[i] ^ v[i + 8];
}

static void blake2s_update(blake2s_ctx *ctx, const void *in, size_t inlen)
{
    for (size_t i = 0; i < inlen; i++) {
        if (ctx->c == 64) {
            ctx->t[0] += ctx->c;
            if (ctx->t[0] < ctx->c) ctx->t[1]++;
            blake2s_compress(ctx, 0);
            ctx->c = 0;
        }
        ctx->b[ctx->c++] = ((const uint8_t *)in)[i];
    }
}

void KERNEL(uint8_t *out, const uint8_t *in, size_t inlen, const uint8_t *key, size_t keylen)
{
    blake2s_ctx ctx;
    size_t i;
    for (i = 0; i < 8; i++) ctx.h[i] = iv[i];
    ctx.h[0] ^= 0x01010000 ^ (keylen << 8) ^ 32;
    ctx.t[0] = ctx.t[1] = 0;
    ctx.c = 0;
    ctx.outlen = 32;
    for (i = keylen; i < 64; i++) ctx.b[i] = 0;
    if (keylen > 0) {
        blake2s_update(&ctx, key, keylen);
        ctx.c = 64;
    }
    blake2s_update(&ctx, in, inlen);
    ctx.t[0] += ctx.c;
    if (ctx.t[0] < ctx.c) ctx.t[1]++;
    while (ctx.c < 64) ctx.b[ctx.c++] = 0;
    blake2s_compress(&ctx, 1);
    for (i = 0; i < ctx.outlen; i++) out[i] = (ctx.h[i >> 2] >> (8 * (i & 3))) & 0xFF;
}
