/* Counts n bytes by value. */
void _start(const unsigned char *a, unsigned n, unsigned *counts) {
    for (unsigned i = 0; i < n; i++) counts[a[i]]++;
}
