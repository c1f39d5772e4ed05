#include <stdint.h>
/* An FFT of radix 4 on 16-bit complex numbers, scaled by a quarter at each stage, with bit reversal by digits and a quarter-wave table. */
typedef struct {
    int16_t re, im;
} cpx;

static const int16_t quarter_sine[65] = {
    0,804,1608,2410,3212,4011,4808,5602,6393,7179,7962,8739,9512,10278,11039,11793,12539,13279,14010,14732,15446,16151,
    16846,17530,18204,18868,19519,20159,20787,21403,22005,22594,23170,23731,24279,24811,25329,25832,26319,26790,27245,27683,
    28105,28510,28898,29268,29621,29956,30273,30571,30852,31113,31356,31580,31785,31971,32137,32285,32412,32521,32609,32678,
    32728,32757,32767};

static int16_t sine(unsigned angle)
{
    angle &= 255;
    switch (angle >> 6) {
    case 0: return quarter_sine[angle];
    case 1: return quarter_sine[128 - angle];
    case 2: return -quarter_sine[angle - 128];
    default: return -quarter_sine[256 - angle];
    }
}

static cpx twiddle(unsigned angle)
{
    cpx w = {sine(angle + 64), -sine(angle)};
    return w;
}

static cpx times(cpx a, cpx b)
{
    cpx out = {(a.re * b.re - a.im * b.im + 16384) >> 15, (a.re * b.im + a.im * b.re + 16384) >> 15};
    return out;
}

static void butterfly(cpx *p, unsigned q, unsigned k, unsigned stride)
{
    cpx *a = p + k, *b = a + q, *c = b + q, *d = c + q;
    cpx t1 = times(*b, twiddle(k * stride)), t2 = times(*c, twiddle(2 * k * stride)), t3 = times(*d, twiddle(3 * k * stride));
    int s0r = a->re + t2.re, s0i = a->im + t2.im, s1r = a->re - t2.re, s1i = a->im - t2.im;
    int s2r = t1.re + t3.re, s2i = t1.im + t3.im, s3r = t1.re - t3.re, s3i = t1.im - t3.im;
    a->re = (s0r + s2r) >> 2;
    a->im = (s0i + s2i) >> 2;
    c->re = (s0r - s2r) >> 2;
    c->im = (s0i - s2i) >> 2;
    b->re = (s1r + s3i) >> 2;
    b->im = (s1i - s3r) >> 2;
    d->re = (s1r - s3i) >> 2;
    d->im = (s1i + s3r) >> 2;
}

void KERNEL(cpx *x, unsigned log4, uint32_t *power)
{
    unsigned n = 1u << 2 * log4;
    for (unsigned i = 0; i < n; i++) {
        unsigned j = 0, v = i;
        for (unsigned d = 0; d < log4; d++, v >>= 2) j = j << 2 | (v & 3);
        if (j > i) {
            cpx t = x[i];
            x[i] = x[j];
            x[j] = t;
        }
    }
    for (unsigned size = 4; size <= n; size *= 4) {
        unsigned q = size / 4;
        for (unsigned first = 0; first < n; first += size)
            for (unsigned k = 0; k < q; k++) butterfly(x + first, q, k, 256 / size);
    }
    for (unsigned i = 0; i < n; i++) power[i] = (uint32_t)(x[i].re * x[i].re) + (uint32_t)(x[i].im * x[i].im);
}
