#include <stdint.h>
#include <stddef.h>
static uint32_t rotl32(uint32_t x, int n) { return (x << n) | (x >> (32 - n)); }
static uint32_t pack4(const uint8_t *a) { return a[0] | (uint32_t)a[1] << 8 | (uint32_t)a[2] << 16 | (uint32_t)a[3] << 24; }
#define CHACHA20_QUARTERROUND(x, a, b, c, d) \
    x[a] += x[b]; x[d] = rotl32(x[d] ^ x[a], 16); \
    x[c] += x[d]; x[b] = rotl32(x[b] ^ x[c], 12); \
    x[a] += x[b]; x[d] = rotl32(x[d] ^ x[a], 8); \
    x[c] += x[d]; x[b] = rotl32(x[b] ^ x[c], 7);

struct chacha20_context {
    uint32_t keystream32[16];
    size_t position;
    uint32_t state[16];
};

static void block_next(struct chacha20_context *ctx)
{
    for (int i = 0; i < 16; i++) ctx->keystream32[i] = ctx->state[i];
    for (int i = 0; i < 10; i++) {
        CHACHA20_QUARTERROUND(ctx->keystream32, 0, 4, 8, 12)
        CHACHA20_QUARTERROUND(ctx->keystream32, 1, 5, 9, 13)
        CHACHA20_QUARTERROUND(ctx->keystream32, 2, 6, 10, 14)
        CHACHA20_QUARTERROUND(ctx->keystream32, 3, 7, 11, 15)
        CHACHA20_QUARTERROUND(ctx->keystream32, 0, 5, 10, 15)
        CHACHA20_QUARTERROUND(ctx->keystream32, 1, 6, 11, 12)
        CHACHA20_QUARTERROUND(ctx->keystream32, 2, 7, 8, 13)
        CHACHA20_QUARTERROUND(ctx->keystream32, 3, 4, 9, 14)
    }
    for (int i = 0; i < 16; i++) ctx->keystream32[i] += ctx->state[i];
    uint32_t *counter = ctx->state + 12;
    counter[0]++;
    if (0 == counter[0]) counter[1]++;
}

void KERNEL(uint8_t *out, const uint8_t *bytes, size_t n_bytes, const uint8_t *key, const uint8_t *nonce, uint32_t counter)
{
    struct chacha20_context ctx;
    static const uint8_t magic[] = "expand 32-byte k";
    for (int i = 0; i < 4; i++) ctx.state[i] = pack4(magic + 4 * i);
    for (int i = 0; i < 8; i++) ctx.state[4 + i] = pack4(key + 4 * i);
    ctx.state[12] = counter;
    for (int i = 0; i < 3; i++) ctx.state[13 + i] = pack4(nonce + 4 * i);
    ctx.position = 64;
    uint8_t *keystream8 = (uint8_t *)ctx.keystream32;
    for (size_t i = 0; i < n_bytes; i++) {
        if (ctx.position >= 64) {
            block_next(&ctx);
            ctx.position = 0;
        }
        out[i] = bytes[i] ^ keystream8[ctx.position];
        ctx.position++;
    }
}
