/* The sum of n bytes. */
void _start(const unsigned char *a, unsigned n, unsigned *out) {
    unsigned sum = 0;
    for (unsigned i = 0; i < n; i++) sum += a[i];
    *out = sum;
}
