/* Writes 0, 1, 2, .. into n words: the index is used, so it counts up. */
void _start(unsigned *a, unsigned n) {
    for (unsigned i = 0; i < n; i++) a[i] = i;
}
