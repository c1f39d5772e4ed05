#include <stdint.h>
#include <stddef.h>
#include <string.h>
/* SHA-512 as a stream: a context with a block that fills up over pieces of uneven length, then the padding. */
typedef struct {
    uint64_t state[8], length;
    uint8_t buf[128];
    size_t curlen;
} sha512_state;

static const uint64_t K[80] = {
    0x428a2f98d728ae22,0x7137449123ef65cd,0xb5c0fbcfec4d3b2f,0xe9b5dba58189dbbc,0x3956c25bf348b538,0x59f111f1b605d019,
    0x923f82a4af194f9b,0xab1c5ed5da6d8118,0xd807aa98a3030242,0x12835b0145706fbe,0x243185be4ee4b28c,0x550c7dc3d5ffb4e2,
    0x72be5d74f27b896f,0x80deb1fe3b1696b1,0x9bdc06a725c71235,0xc19bf174cf692694,0xe49b69c19ef14ad2,0xefbe4786384f25e3,
    0x0fc19dc68b8cd5b5,0x240ca1cc77ac9c65,0x2de92c6f592b0275,0x4a7484aa6ea6e483,0x5cb0a9dcbd41fbd4,0x76f988da831153b5,
    0x983e5152ee66dfab,0xa831c66d2db43210,0xb00327c898fb213f,0xbf597fc7beef0ee4,0xc6e00bf33da88fc2,0xd5a79147930aa725,
    0x06ca6351e003826f,0x142929670a0e6e70,0x27b70a8546d22ffc,0x2e1b21385c26c926,0x4d2c6dfc5ac42aed,0x53380d139d95b3df,
    0x650a73548baf63de,0x766a0abb3c77b2a8,0x81c2c92e47edaee6,0x92722c851482353b,0xa2bfe8a14cf10364,0xa81a664bbc423001,
    0xc24b8b70d0f89791,0xc76c51a30654be30,0xd192e819d6ef5218,0xd69906245565a910,0xf40e35855771202a,0x106aa07032bbd1b8,
    0x19a4c116b8d2d0c8,0x1e376c085141ab53,0x2748774cdf8eeb99,0x34b0bcb5e19b48a8,0x391c0cb3c5c95a63,0x4ed8aa4ae3418acb,
    0x5b9cca4f7763e373,0x682e6ff3d6b2b8a3,0x748f82ee5defb2fc,0x78a5636f43172f60,0x84c87814a1f0ab72,0x8cc702081a6439ec,
    0x90befffa23631e28,0xa4506cebde82bde9,0xbef9a3f7b2c67915,0xc67178f2e372532b,0xca273eceea26619c,0xd186b8c721c0c207,
    0xeada7dd6cde0eb1e,0xf57d4f7fee6ed178,0x06f067aa72176fba,0x0a637dc5a2c898a6,0x113f9804bef90dae,0x1b710b35131c471b,
    0x28db77f523047d84,0x32caab7b40c72493,0x3c9ebe0a15c9bebc,0x431d67c49c100d4c,0x4cc5d4becb3e42b6,0x597f299cfc657e2a,
    0x5fcb6fab3ad6faec,0x6c44198c4a475817};

static uint64_t load64(const uint8_t *y)
{
    uint64_t x = 0;
    for (int i = 0; i < 8; i++) x = x << 8 | y[i];
    return x;
}

static void store64(uint64_t x, uint8_t *y)
{
    for (int i = 7; i >= 0; --i, x >>= 8) y[i] = (uint8_t)x;
}

#define S(x, n) ((x) >> (n) | (x) << (64 - (n)))
#define RND(a, b, c, d, e, f, g, h, i) \
    t0 = h + (S(e, 14) ^ S(e, 18) ^ S(e, 41)) + (g ^ (e & (f ^ g))) + K[i] + W[i]; \
    t1 = (S(a, 28) ^ S(a, 34) ^ S(a, 39)) + (((a | b) & c) | (a & b)); \
    d += t0; \
    h = t0 + t1

static void compress(sha512_state *md, const uint8_t *buf)
{
    uint64_t s[8], W[80], t0, t1;
    int i;
    for (i = 0; i < 8; i++) s[i] = md->state[i];
    for (i = 0; i < 16; i++) W[i] = load64(buf + 8 * i);
    for (i = 16; i < 80; i++)
        W[i] = (S(W[i - 2], 19) ^ S(W[i - 2], 61) ^ W[i - 2] >> 6) + W[i - 7] + (S(W[i - 15], 1) ^ S(W[i - 15], 8) ^ W[i - 15] >> 7) + W[i - 16];
    for (i = 0; i < 80; i += 8) {
        RND(s[0], s[1], s[2], s[3], s[4], s[5], s[6], s[7], i + 0);
        RND(s[7], s[0], s[1], s[2], s[3], s[4], s[5], s[6], i + 1);
        RND(s[6], s[7], s[0], s[1], s[2], s[3], s[4], s[5], i + 2);
        RND(s[5], s[6], s[7], s[0], s[1], s[2], s[3], s[4], i + 3);
        RND(s[4], s[5], s[6], s[7], s[0], s[1], s[2], s[3], i + 4);
        RND(s[3], s[4], s[5], s[6], s[7], s[0], s[1], s[2], i + 5);
        RND(s[2], s[3], s[4], s[5], s[6], s[7], s[0], s[1], i + 6);
        RND(s[1], s[2], s[3], s[4], s[5], s[6], s[7], s[0], i + 7);
    }
    for (i = 0; i < 8; i++) md->state[i] += s[i];
}

static void init(sha512_state *md)
{
    static const uint64_t start[8] = {
        0x6a09e667f3bcc908, 0xbb67ae8584caa73b, 0x3c6ef372fe94f82b, 0xa54ff53a5f1d36f1,
        0x510e527fade682d1, 0x9b05688c2b3e6c1f, 0x1f83d9abfb41bd6b, 0x5be0cd19137e2179};
    md->curlen = 0;
    md->length = 0;
    memcpy(md->state, start, sizeof start);
}

static int process(sha512_state *md, const uint8_t *in, size_t inlen)
{
    if (md->curlen > sizeof md->buf) return 1;
    while (inlen > 0) {
        if (md->curlen == 0 && inlen >= 128) {
            compress(md, in);
            md->length += 128 * 8;
            in += 128;
            inlen -= 128;
        } else {
            size_t n = inlen < 128 - md->curlen ? inlen : 128 - md->curlen;
            for (size_t i = 0; i < n; i++) md->buf[i + md->curlen] = in[i];
            md->curlen += n;
            in += n;
            inlen -= n;
            if (md->curlen == 128) {
                compress(md, md->buf);
                md->length += 8 * 128;
                md->curlen = 0;
            }
        }
    }
    return 0;
}

static int finish(sha512_state *md, uint8_t *out)
{
    if (md->curlen >= sizeof md->buf) return 1;
    md->length += md->curlen * 8ULL;
    md->buf[md->curlen++] = 0x80;
    if (md->curlen > 112) {
        while (md->curlen < 128) md->buf[md->curlen++] = 0;
        compress(md, md->buf);
        md->curlen = 0;
    }
    while (md->curlen < 120) md->buf[md->curlen++] = 0;
    store64(md->length, md->buf + 120);
    compress(md, md->buf);
    for (int i = 0; i < 8; i++) store64(md->state[i], out + 8 * i);
    return 0;
}

void KERNEL(uint8_t *digest, const uint8_t *message, uint32_t n, uint32_t piece, int32_t *status)
{
    sha512_state md;
    init(&md);
    *status = 0;
    for (uint32_t at = 0; at < n; at += piece) *status |= process(&md, message + at, n - at < piece ? n - at : piece);
    *status |= finish(&md, digest);
}
