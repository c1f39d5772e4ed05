/* A matrix of 16 columns and n rows times a vector of 16 words; the compiler may not turn the inner count round, and rows have their own pointer. */
void _start(const int *matrix, const int *vector, int *out, unsigned n) {
    while (n--) {
        int sum = 0;
        const int *m = matrix, *v = vector;
        for (unsigned k = 16; k; k--) {
            asm("" : "+r"(k));
            sum += *m++ * *v++;
        }
        matrix += 16;
        *out++ = sum;
    }
}
