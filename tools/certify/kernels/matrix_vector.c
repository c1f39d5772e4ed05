/* A matrix of 16 columns and n rows times a vector of 16 words. */
void _start(const int *matrix, const int *vector, int *out, unsigned n) {
    while (n--) {
        int sum = 0;
        const int *v = vector;
#pragma clang loop unroll(disable)
        for (unsigned k = 16; k; k--) sum += *matrix++ * *v++;
        *out++ = sum;
    }
}
