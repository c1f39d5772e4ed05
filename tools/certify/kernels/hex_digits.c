/* Writes n bytes as 2 n hexadecimal digits. */
void _start(const unsigned char *in, unsigned n, unsigned char *out) {
    for (; n; n--, in++) {
        unsigned high = *in >> 4, low = *in & 15;
        *out++ = high + (high < 10 ? '0' : 'a' - 10);
        *out++ = low + (low < 10 ? '0' : 'a' - 10);
    }
}
