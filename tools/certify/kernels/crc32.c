/* CRC-32 of n bytes, bit by bit: a loop of eight passes within one over bytes. */
void _start(const unsigned char *a, unsigned n, unsigned *out) {
    unsigned crc = ~0u;
    while (n--) {
        crc ^= *a++;
#pragma clang loop unroll(disable)
        for (int bit = 8; bit; bit--) crc = crc >> 1 ^ (crc & 1 ? 0xedb88320u : 0);
    }
    *out = ~crc;
}
