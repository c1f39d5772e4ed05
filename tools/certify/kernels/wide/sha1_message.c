/* Steve Reid's sha1.c */
#include <stdint.h>
#include <stddef.h>
extern void *memcpy(void *, const void *, size_t);
#define rol(value, bits) (((value) << (bits)) | ((value) >> (32 - (bits))))
#define blk0(i) (block->l[i] = (rol(block->l[i], 24) & 0xFF00FF00) | (rol(block->l[i], 8) & 0x00FF00FF))
#define blk(i) (block->l[i & 15] = rol(block->l[(i + 13) & 15] ^ block->l[(i + 8) & 15] ^ block->l[(i + 2) & 15] ^ block->l[i & 15], 1))
typedef struct { uint32_t state[5]; uint32_t count[2]; unsigned char buffer[64]; } SHA1_CTX;
typedef union { unsigned char c[64]; uint32_t l[16]; } CHAR64LONG16;

static void SHA1Transform(uint32_t state[5], const unsigned char buffer[64])
{
    uint32_t a, b, c, d, e, t;
    CHAR64LONG16 copy, *block = &copy;
    memcpy(block, buffer, 64);
    a = state[0]; b = state[1]; c = state[2]; d = state[3]; e = state[4];
    for (int i = 0; i < 80; i++) {
        uint32_t w = i < 16 ? blk0(i) : blk(i);
        if (i < 20) t = ((b & (c ^ d)) ^ d) + 0x5A827999;
        else if (i < 40) t = (b ^ c ^ d) + 0x6ED9EBA1;
        else if (i < 60) t = (((b | c) & d) | (b & c)) + 0x8F1BBCDC;
        else t = (b ^ c ^ d) + 0xCA62C1D6;
        t += rol(a, 5) + e + w;
        e = d; d = c; c = rol(b, 30); b = a; a = t;
    }
    state[0] += a; state[1] += b; state[2] += c; state[3] += d; state[4] += e;
}

static void SHA1Update(SHA1_CTX *context, const unsigned char *data, uint32_t len)
{
    uint32_t i, j;
    j = context->count[0];
    if ((context->count[0] += len << 3) < j) context->count[1]++;
    context->count[1] += (len >> 29);
    j = (j >> 3) & 63;
    if ((j + len) > 63) {
        memcpy(&context->buffer[j], data, (i = 64 - j));
        SHA1Transform(context->state, context->buffer);
        for (; i + 63 < len; i += 64)
            SHA1Transform(context->state, &data[i]);
        j = 0;
    } else
        i = 0;
    memcpy(&context->buffer[j], &data[i], len - i);
}

void KERNEL(unsigned char *digest, const unsigned char *data, uint32_t len)
{
    SHA1_CTX ctx = { { 0x67452301, 0xEFCDAB89, 0x98BADCFE, 0x10325476, 0xC3D2E1F0 }, { 0, 0 } };
    unsigned char finalcount[8], c;
    SHA1Update(&ctx, data, len);
    for (unsigned i = 0; i < 8; i++)
        finalcount[i] = (unsigned char)((ctx.count[(i >= 4 ? 0 : 1)] >> ((3 - (i & 3)) * 8)) & 255);
    c = 0200;
    SHA1Update(&ctx, &c, 1);
    while ((ctx.count[0] & 504) != 448) {
        c = 0000;
        SHA1Update(&ctx, &c, 1);
    }
    SHA1Update(&ctx, finalcount, 8);
    for (unsigned i = 0; i < 20; i++)
        digest[i] = (unsigned char)((ctx.state[i >> 2] >> ((3 - (i & 3)) * 8)) & 255);
}
