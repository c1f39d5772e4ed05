#include <stddef.h>
#include <stdint.h>
void KERNEL(uint32_t *out, const uint8_t *p, size_t n)
{
    uint32_t table[4][256];
    for (uint32_t i = 0; i < 256; i++) {
        uint32_t c = i;
        for (int j = 0; j < 8; j++)
            c = c & 1 ? c >> 1 ^ 0xedb88320 : c >> 1;
        table[0][i] = c;
    }
    for (uint32_t i = 0; i < 256; i++)
        for (int k = 1; k < 4; k++)
            table[k][i] = table[k - 1][i] >> 8 ^ table[0][table[k - 1][i] & 255];
    uint32_t crc = ~0u;
    while (n && (uintptr_t)p & 3) { crc = crc >> 8 ^ table[0][(crc ^ *p++) & 255]; n--; }
    while (n >= 4) {
        crc ^= *(const uint32_t *)p;
        crc = table[3][crc & 255] ^ table[2][crc >> 8 & 255] ^ table[1][crc >> 16 & 255] ^ table[0][crc >> 24];
        p += 4;
        n -= 4;
    }
    while (n--) crc = crc >> 8 ^ table[0][(crc ^ *p++) & 255];
    *out = ~crc;
}
