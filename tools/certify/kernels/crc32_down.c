/* CRC-32 of n bytes, bit by bit; the compiler may not turn the inner count round. */
void _start(const unsigned char *a, unsigned n, unsigned *out) {
    unsigned crc = ~0u;
    while (n--) {
        crc ^= *a++;
        for (unsigned bit = 8; bit; bit--) {
            asm("" : "+r"(bit));
            crc = crc >> 1 ^ (crc & 1 ? 0xedb88320u : 0);
        }
    }
    *out = ~crc;
}
