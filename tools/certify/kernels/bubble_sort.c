/* Sorts 64 bytes. */
void _start(unsigned char *a) {
    for (unsigned i = 63; i; i--) {
        unsigned char *p = a;
        for (unsigned k = 63; k; k--, p++)
            if (p[0] > p[1]) {
                unsigned char t = p[0];
                p[0] = p[1];
                p[1] = t;
            }
    }
}
