/* Adds a number to each of n words. */
void _start(unsigned *a, unsigned n, unsigned value) {
    for (unsigned i = 0; i < n; i++) a[i] += value;
}
