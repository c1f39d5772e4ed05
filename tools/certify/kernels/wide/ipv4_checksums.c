#include <stdint.h>
/* frames of 64 bytes: the header's sum is checked, ttl falls by one, and the sum is mended by RFC 1624 */
static uint32_t sum_words(const uint8_t *p, uint32_t n, uint32_t sum)
{
    while (n > 1) {
        sum += p[0] << 8 | p[1];
        p += 2;
        n -= 2;
    }
    if (n) sum += p[0] << 8;
    return sum;
}
static uint16_t fold(uint32_t sum)
{
    while (sum >> 16) sum = (sum & 0xffff) + (sum >> 16);
    return ~sum;
}
void KERNEL(uint8_t *frames, uint32_t n, uint8_t *verdict)
{
    for (uint32_t i = 0; i < n; i++) {
        uint8_t *f = frames + 64 * i, *ip = f + 14;
        if ((f[12] << 8 | f[13]) != 0x800) { verdict[i] = 1; continue; }
        uint32_t ihl = (ip[0] & 15) * 4, total = ip[2] << 8 | ip[3];
        if (ip[0] >> 4 != 4 || ihl < 20 || ihl > 50 || total < ihl || total > 50) { verdict[i] = 2; continue; }
        if (fold(sum_words(ip, ihl, 0)) != 0) { verdict[i] = 3; continue; }
        if (ip[8] <= 1) { verdict[i] = 4; continue; }
        uint32_t old = ip[8] << 8 | ip[9];
        ip[8]--;
        uint32_t neu = ip[8] << 8 | ip[9], hc = ip[10] << 8 | ip[11];
        uint16_t c = fold((~hc & 0xffff) + (~old & 0xffff) + neu);
        ip[10] = c >> 8;
        ip[11] = c;
        if (ip[9] == 17 || ip[9] == 6) {
            uint32_t sum = sum_words(ip + 12, 8, ip[9] + total - ihl);
            verdict[i] = 16 + (fold(sum_words(ip + ihl, total - ihl, sum)) == 0);
        } else verdict[i] = 5;
    }
}
