#include <stdint.h>
#include <stddef.h>
/* 12 bits of offset, 4 of length, flags of eight items before them: Okumura's form, by brute force */
#define N 4096
#define F 18
#define THRESHOLD 2
void KERNEL(uint8_t *out, const uint8_t *in, uint32_t len, uint32_t *size)
{
    uint8_t code_buf[17];
    uint32_t code_buf_ptr = 1, pos = 0, written = 0;
    uint8_t mask = 1;
    code_buf[0] = 0;
    while (pos < len) {
        uint32_t match_length = 0, match_offset = 0;
        uint32_t first = pos > 255 ? pos - 255 : 0;
        for (uint32_t s = first; s < pos; s++) {
            uint32_t k = 0;
            while (k < F && pos + k < len && in[s + k] == in[pos + k]) k++;
            if (k > match_length) {
                match_length = k;
                match_offset = pos - s;
                if (k == F) break;
            }
        }
        if (match_length <= THRESHOLD) {
            match_length = 1;
            code_buf[0] |= mask;
            code_buf[code_buf_ptr++] = in[pos];
        } else {
            code_buf[code_buf_ptr++] = match_offset & 0xff;
            code_buf[code_buf_ptr++] = (match_offset >> 4 & 0xf0) | (match_length - (THRESHOLD + 1));
        }
        pos += match_length;
        if ((mask <<= 1) == 0) {
            for (uint32_t i = 0; i < code_buf_ptr; i++) out[written++] = code_buf[i];
            code_buf[0] = 0;
            code_buf_ptr = mask = 1;
        }
    }
    if (code_buf_ptr > 1)
        for (uint32_t i = 0; i < code_buf_ptr; i++) out[written++] = code_buf[i];
    *size = written;
}
