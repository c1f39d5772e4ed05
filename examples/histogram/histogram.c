/* Counts how often each value stands among the a1 bytes at a0, and leaves the 256 counts at a2: 32-bit
   numbers, little-endian, added to those that stand there. Scalar code: RV32IM alone. */
void _start(const unsigned char *bytes, unsigned n, unsigned *counts) {
    for (unsigned i = 0; i < n; i++)
        counts[bytes[i]]++;
}
