/* Reverses n bytes in place: two pointers that meet. */
void _start(unsigned char *a, unsigned n) {
    unsigned char *low = a, *high = a + n;
    while (low < high) {
        unsigned char byte = *low;
        *low++ = *--high;
        *high = byte;
    }
}
