#include <stdint.h>
#include <stddef.h>
/* nested switches: pairs of an application/x-www-form-urlencoded text, decoded behind one another */
enum where { KEY, VALUE };
enum how { PLAIN, HEX1, HEX2 };
struct pair { uint16_t key, key_len, value, value_len; };
static int hex(int c)
{
    if (c >= '0' && c <= '9') return c - '0';
    c |= 32;
    return c >= 'a' && c <= 'f' ? c - 'a' + 10 : -1;
}
void KERNEL(char *out, const char *in, size_t n, struct pair *pairs, uint32_t max, int32_t *result)
{
    enum where where = KEY;
    enum how how = PLAIN;
    uint32_t count = 0, at = 0, begin = 0;
    int high = 0;
    struct pair p = { 0 };
    for (size_t i = 0; i <= n; i++) {
        int c = i < n ? (unsigned char)in[i] : '&';
        switch (how) {
        case HEX1:
            if ((high = hex(c)) < 0) { *result = -1; return; }
            how = HEX2;
            continue;
        case HEX2: {
            int low = hex(c);
            if (low < 0) { *result = -2; return; }
            out[at++] = high << 4 | low;
            how = PLAIN;
            continue;
        }
        case PLAIN:
            switch (c) {
            case '%': how = HEX1; continue;
            case '+': out[at++] = ' '; continue;
            case '=':
                switch (where) {
                case KEY:
                    p.key = begin;
                    p.key_len = at - begin;
                    begin = at;
                    where = VALUE;
                    continue;
                case VALUE: out[at++] = c; continue;
                }
            case '&':
                if (where == KEY) {
                    p.key = begin;
                    p.key_len = at - begin;
                    begin = at;
                }
                p.value = begin;
                p.value_len = at - begin;
                begin = at;
                if (p.key_len | p.value_len) {
                    if (count == max) { *result = -3; return; }
                    pairs[count++] = p;
                }
                where = KEY;
                continue;
            default: out[at++] = c; continue;
            }
        }
    }
    *result = count;
}
