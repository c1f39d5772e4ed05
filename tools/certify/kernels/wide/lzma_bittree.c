/* LZMA's range decoder with literal coder contexts: an order-1 bit tree of 8 bits */
#include <stdint.h>
#define kNumBitModelTotalBits 11
#define kBitModelTotal (1 << kNumBitModelTotalBits)
#define kNumMoveBits 5
#define kTopValue ((uint32_t)1 << 24)
typedef uint16_t CProb;
typedef struct { const uint8_t *Buffer, *BufferLim; uint32_t Range, Code; int ExtraBytes; } CRangeDecoder;
#define RC_READ_BYTE (rd->Buffer == rd->BufferLim ? (rd->ExtraBytes = 1, 0xFF) : *rd->Buffer++)
static CProb probs[8][256];

static int RangeDecoderBitDecode(CProb *prob, CRangeDecoder *rd)
{
    uint32_t bound = (rd->Range >> kNumBitModelTotalBits) * *prob;
    int bit;
    if (rd->Code < bound) {
        rd->Range = bound;
        *prob += (kBitModelTotal - *prob) >> kNumMoveBits;
        bit = 0;
    } else {
        rd->Range -= bound;
        rd->Code -= bound;
        *prob -= (*prob) >> kNumMoveBits;
        bit = 1;
    }
    if (rd->Range < kTopValue) {
        rd->Code = (rd->Code << 8) | RC_READ_BYTE;
        rd->Range <<= 8;
    }
    return bit;
}
static uint8_t LiteralDecode(CProb *p, CRangeDecoder *rd)
{
    int symbol = 1;
    do {
        symbol = (symbol + symbol) | RangeDecoderBitDecode(p + symbol, rd);
    } while (symbol < 0x100);
    return (uint8_t)symbol;
}
void KERNEL(uint8_t *out, const uint8_t *in, uint32_t inSize, uint32_t outSize, uint32_t *extra)
{
    CRangeDecoder r = { in, in + inSize, 0xFFFFFFFF, 0, 0 }, *rd = &r;
    for (int i = 0; i < 8; i++)
        for (int k = 0; k < 256; k++) probs[i][k] = kBitModelTotal >> 1;
    for (int i = 0; i < 5; i++) rd->Code = (rd->Code << 8) | RC_READ_BYTE;
    uint8_t previous = 0;
    for (uint32_t i = 0; i < outSize; i++)
        out[i] = previous = LiteralDecode(probs[previous >> 5], rd);
    *extra = rd->ExtraBytes;
}
