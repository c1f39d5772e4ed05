/* Writes n bytes in reverse. */
void _start(unsigned char *to, const unsigned char *from, unsigned n) {
    while (n) {
        n--;
        *to++ = from[n];
    }
}
