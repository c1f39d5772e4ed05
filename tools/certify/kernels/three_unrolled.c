/* The same, with the innermost loop unrolled. */
void _start(unsigned *a, unsigned n, unsigned m) {
    unsigned sum = 0;
    for (unsigned i = n; i; i--) {
        asm volatile("" : "+r"(i));
        for (unsigned j = m; j; j--) {
            asm volatile("" : "+r"(j));
#pragma clang loop unroll(full)
            for (unsigned k = 8; k; k--) sum += i * j ^ k;
        }
    }
    *a = sum;
}
