/* A word for each n, m and eight times: three loops within one another. */
void _start(unsigned *a, unsigned n, unsigned m) {
    unsigned sum = 0;
    for (unsigned i = n; i; i--) {
        asm volatile("" : "+r"(i));
        for (unsigned j = m; j; j--) {
            asm volatile("" : "+r"(j));
            for (unsigned k = 8; k; k--) {
                asm volatile("" : "+r"(k));
                sum += i * j ^ k;
            }
        }
    }
    *a = sum;
}
