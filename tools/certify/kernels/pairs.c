/* Adds up n bytes in pairs: the count falls by two. */
void _start(const unsigned char *a, unsigned n, unsigned *out) {
    unsigned sum = 0;
    for (; n >= 2; n -= 2, a += 2) sum += a[0] * a[1];
    *out = sum;
}
