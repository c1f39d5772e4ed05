/* The dot product of two rows of n words. */
void _start(const int *a, const int *b, unsigned n, int *out) {
    int sum = 0;
    while (n--) sum += *a++ * *b++;
    *out = sum;
}
