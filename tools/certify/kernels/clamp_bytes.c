/* Makes each of n bytes at most 100; a branch in the loop stores only where it has to. */
void _start(unsigned char *a, unsigned n) {
    for (; n; n--, a++)
        if (*a > 100) *a = 100;
}
