/* Adds a number to each of n words; at -O3 the compiler makes vector instructions of it. */
void _start(unsigned *a, unsigned n, unsigned value) {
    for (unsigned i = 0; i < n; i++) a[i] += value;
}
