#include <stdint.h>
/* Base32 of RFC 4648: encodes with padding, decodes again into a second buffer, and compares. */
static const char alphabet[] = "ABCDEFGHIJKLMNOPQRSTUVWXYZ234567";

static int decode_char(uint8_t c)
{
    if (c >= 'A' && c <= 'Z') return c - 'A';
    if (c >= 'a' && c <= 'z') return c - 'a';
    if (c >= '2' && c <= '7') return c - '2' + 26;
    return -1;
}

static void encode_block(const uint8_t *in, int len, uint8_t *out)
{
    for (int i = 0; i < 8; i++) {
        int octet = i * 5 / 8, junk = 3 - 5 * i % 8;
        if (octet >= len) {
            out[i] = '=';
            continue;
        }
        uint8_t five = junk < 0 ? in[octet] << -junk : in[octet] >> junk;
        if (junk < 0 && octet < len - 1) five |= in[octet + 1] >> (8 + junk);
        out[i] = alphabet[five & 31];
    }
}

static int base32_encode(const uint8_t *in, int len, uint8_t *out, int room)
{
    int i, j;
    for (i = 0, j = 0; i < len; i += 5, j += 8) {
        if (j + 8 > room) return -1;
        encode_block(in + i, len - i < 5 ? len - i : 5, out + j);
    }
    return j;
}

static int base32_decode(const uint8_t *in, int len, uint8_t *out, int room)
{
    int buffer = 0, left = 0, count = 0;
    for (const uint8_t *p = in; count < room && p < in + len; ++p) {
        uint8_t c = *p;
        if (c == ' ' || c == '\t' || c == '\r' || c == '\n' || c == '-') continue;
        if (c == '=') break;
        if (c == '0') c = 'O';
        else if (c == '1') c = 'L';
        int v = decode_char(c);
        if (v < 0) return -1;
        buffer = buffer << 5 | v;
        left += 5;
        if (left >= 8) {
            out[count++] = buffer >> (left - 8);
            left -= 8;
        }
    }
    return count;
}

void KERNEL(uint8_t *text, uint8_t *back, const uint8_t *data, int n, int *result)
{
    int written = base32_encode(data, n, text, 4096), read, same = 0;
    result[0] = written;
    if (written < 0) return;
    read = base32_decode(text, written, back, 4096);
    for (int i = 0; i < read; i++) same += back[i] == data[i];
    result[1] = read;
    result[2] = same;
}
