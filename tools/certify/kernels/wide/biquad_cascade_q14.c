#include <stdint.h>
/* Direct form I, as CMSIS's arm_biquad_cascade_df1_q15: five coefficients and four states a stage */
static inline int32_t ssat16(int32_t x) { return x > 32767 ? 32767 : x < -32768 ? -32768 : x; }
void KERNEL(int16_t *pDst, const int16_t *pSrc, uint32_t blockSize, const int16_t *pCoeffs, int16_t *pState, uint32_t stage)
{
    const int16_t *pIn = pSrc;
    int16_t *pOut;
    int16_t Xn1, Xn2, Yn1, Yn2, b0, b1, b2, a1, a2, Xn;
    if (stage == 0 || blockSize == 0) return;
    do {
        b0 = *pCoeffs++;
        b1 = *pCoeffs++;
        b2 = *pCoeffs++;
        a1 = *pCoeffs++;
        a2 = *pCoeffs++;
        Xn1 = pState[0];
        Xn2 = pState[1];
        Yn1 = pState[2];
        Yn2 = pState[3];
        pOut = pDst;
        uint32_t sample = blockSize;
        while (sample > 0U) {
            Xn = *pIn++;
            int64_t acc = (int64_t)b0 * Xn + (int64_t)b1 * Xn1 + (int64_t)b2 * Xn2 + (int64_t)a1 * Yn1 + (int64_t)a2 * Yn2;
            int16_t y = ssat16((int32_t)(acc >> 14));
            Xn2 = Xn1;
            Xn1 = Xn;
            Yn2 = Yn1;
            Yn1 = y;
            *pOut++ = y;
            sample--;
        }
        *pState++ = Xn1;
        *pState++ = Xn2;
        *pState++ = Yn1;
        *pState++ = Yn2;
        pIn = pDst;
        stage--;
    } while (stage > 0U);
}
