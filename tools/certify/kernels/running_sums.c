/* The sums of the first 1, 2, .. n words. */
void _start(int *a, unsigned n) {
    int sum = 0;
    for (unsigned i = 0; i < n; i++) a[i] = sum += a[i];
}
