/* opus's range decoder: ec_dec_init, ec_dec_normalize, ec_dec_icdf */
#include <stdint.h>
#define EC_SYM_BITS (8)
#define EC_CODE_BITS (32)
#define EC_SYM_MAX ((1U << EC_SYM_BITS) - 1)
#define EC_CODE_TOP (((uint32_t)1U) << (EC_CODE_BITS - 1))
#define EC_CODE_BOT (EC_CODE_TOP >> EC_SYM_BITS)
#define EC_CODE_EXTRA ((EC_CODE_BITS - 2) % EC_SYM_BITS + 1)
typedef struct { const unsigned char *buf; uint32_t storage, offs, rng, val; int nbits_total, rem; } ec_dec;
static int ec_read_byte(ec_dec *d) { return d->offs < d->storage ? d->buf[d->offs++] : 0; }
static void ec_dec_normalize(ec_dec *d)
{
    while (d->rng <= EC_CODE_BOT) {
        int sym;
        d->nbits_total += EC_SYM_BITS;
        d->rng <<= EC_SYM_BITS;
        sym = d->rem;
        d->rem = ec_read_byte(d);
        sym = (sym << EC_SYM_BITS | d->rem) >> (EC_SYM_BITS - EC_CODE_EXTRA);
        d->val = ((d->val << EC_SYM_BITS) + (EC_SYM_MAX & ~sym)) & (EC_CODE_TOP - 1);
    }
}
static int ec_dec_icdf(ec_dec *d, const unsigned char *icdf, unsigned ftb)
{
    uint32_t r, dd, s, t;
    int ret;
    s = d->rng;
    dd = d->val;
    r = s >> ftb;
    ret = -1;
    do {
        t = s;
        s = r * icdf[++ret];
    } while (dd < s);
    d->val = dd - s;
    d->rng = t - s;
    ec_dec_normalize(d);
    return ret;
}
void KERNEL(uint16_t *out, const unsigned char *buf, uint32_t storage, const unsigned char *icdf, uint32_t n, uint32_t *tell)
{
    ec_dec dec = { buf, storage, 0, 1U << EC_CODE_EXTRA, 0, 9, 0 };
    dec.rem = ec_read_byte(&dec);
    dec.val = dec.rng - 1 - (dec.rem >> (EC_SYM_BITS - EC_CODE_EXTRA));
    ec_dec_normalize(&dec);
    for (uint32_t i = 0; i < n; i++) out[i] = ec_dec_icdf(&dec, icdf, 8);
    *tell = dec.nbits_total;
}
