#include <stdint.h>
/* A bank of state variable filters in fixed point: each channel of interleaved samples through several bands, with saturation and energies per band. */
struct band { int16_t f, q; int32_t low, band_; uint32_t gain; };
struct bank { uint32_t bands; struct band *band; };

static inline int32_t sat(int64_t v)
{
    return v > 0x7fffffff ? 0x7fffffff : v < -0x7fffffffLL - 1 ? (int32_t)0x80000000 : (int32_t)v;
}

static inline int32_t mul(int32_t a, int16_t b) { return (int32_t)(((int64_t)a * b) >> 15); }

static int16_t step(struct band *b, int16_t in)
{
    int32_t high;
    b->low = sat((int64_t)b->low + mul(b->band_, b->f));
    high = sat(((int64_t)in << 8) - b->low - mul(b->band_, b->q));
    b->band_ = sat((int64_t)b->band_ + mul(high, b->f));
    high = b->band_ >> 8;
    return high > 32767 ? 32767 : high < -32768 ? -32768 : (int16_t)high;
}

void KERNEL(int16_t *out, const int16_t *in, uint32_t frames, uint32_t channels, struct band *bands, uint32_t count, uint64_t *energy)
{
    for (uint32_t c = 0; c < channels; c++) {
        struct bank bank = {count, bands + c * count};
        for (uint32_t i = 0; i < frames; i++) {
            int32_t mix = 0;
            for (uint32_t k = 0; k < bank.bands; k++) {
                int16_t y = step(&bank.band[k], in[i * channels + c]);
                energy[k] += (uint32_t)((int32_t)y * y);
                mix += (int32_t)((uint32_t)y * (bank.band[k].gain & 0xff)) >> 8;
            }
            out[i * channels + c] = mix > 32767 ? 32767 : mix < -32768 ? -32768 : (int16_t)mix;
        }
    }
}
