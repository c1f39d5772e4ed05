/* Goes round n times, and leaves 1. */
void spin(unsigned *p, unsigned n) {
    for (; n; n--) __asm__ volatile("" ::: "memory");
    p[0] = 1;
}
