#include <stdint.h>
/* to the "~>" or the end; 'z' is four zeros; returns bytes, or a negative number at the place of a bad letter */
static int decode(uint8_t *out, const char *in, int n)
{
    const uint8_t *start = out;
    uint32_t tuple = 0;
    int count = 0;
    for (int i = 0; i < n; i++) {
        int c = (unsigned char)in[i];
        switch (c) {
        case 'z':
            if (count != 0) return -i;
            *out++ = 0; *out++ = 0; *out++ = 0; *out++ = 0;
            break;
        case '~':
            if (i + 1 < n && in[i + 1] == '>') {
                if (count > 0) {
                    count--;
                    static const uint32_t pow85[] = { 85 * 85 * 85 * 85u, 85 * 85 * 85, 85 * 85, 85, 1 };
                    tuple += pow85[count];
                    for (int k = 0; k < count; k++) *out++ = tuple >> (24 - 8 * k);
                }
                return out - start;
            }
            return -i;
        case '\n': case '\r': case '\t': case ' ': case '\0': case '\f': case '\b': case 0177:
            break;
        default: {
            static const uint32_t pow85[] = { 85 * 85 * 85 * 85u, 85 * 85 * 85, 85 * 85, 85, 1 };
            if (c < '!' || c > 'u') return -i;
            tuple += (c - '!') * pow85[count++];
            if (count == 5) {
                *out++ = tuple >> 24; *out++ = tuple >> 16; *out++ = tuple >> 8; *out++ = tuple;
                count = 0;
                tuple = 0;
            }
            break;
        }
        }
    }
    return out - start;
}
void KERNEL(uint8_t *out, const char *in, int n, int32_t *got) { *got = decode(out, in, n); }
