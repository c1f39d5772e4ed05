#include <stdint.h>
#include <stddef.h>
/* Numbers of a JSON array: sign, mantissa of up to 19 digits in 64 bits, decimal exponent; kept as pairs, with the place of the first that is wrong. */
struct number { uint64_t mantissa; int16_t exponent; uint8_t negative, inexact; uint32_t at; };

#define is_digit(c) ((unsigned)(c) - '0' < 10)

static const char *blank(const char *p, const char *end)
{
    while (p != end && (*p == ' ' || *p == '\n' || *p == '\r' || *p == '\t')) p++;
    return p;
}

static const char *number(const char *p, const char *end, struct number *out)
{
    uint64_t m = 0;
    int32_t e = 0, e2 = 0;
    int digits = 0, negative = 0, inexact = 0;
    if (p != end && *p == '-') negative = 1, p++;
    if (p == end || !is_digit(*p)) return NULL;
    if (*p == '0') {
        p++;
        if (p != end && is_digit(*p)) return NULL;
    } else {
        for (; p != end && is_digit(*p); p++) {
            if (digits < 19) m = m * 10 + (uint64_t)(*p - '0'), digits++;
            else e++, inexact |= *p != '0';
        }
    }
    if (p != end && *p == '.') {
        p++;
        if (p == end || !is_digit(*p)) return NULL;
        for (; p != end && is_digit(*p); p++) {
            if (m == 0 && *p == '0') e--;
            else if (digits < 19) m = m * 10 + (uint64_t)(*p - '0'), digits++, e--;
            else inexact |= *p != '0';
        }
    }
    if (p != end && (*p | 32) == 'e') {
        int minus = 0;
        p++;
        if (p != end && (*p == '-' || *p == '+')) minus = *p++ == '-';
        if (p == end || !is_digit(*p)) return NULL;
        for (; p != end && is_digit(*p); p++)
            if (e2 < 10000) e2 = e2 * 10 + (*p - '0');
        e += minus ? -e2 : e2;
    }
    while (m && m % 10 == 0 && e < 0) m /= 10, e++;
    out->mantissa = m;
    out->exponent = e < -32768 ? -32768 : e > 32767 ? 32767 : (int16_t)e;
    out->negative = negative;
    out->inexact = inexact;
    return p;
}

void KERNEL(const char *text, size_t n, struct number *out, uint32_t room, uint32_t *result)
{
    const char *p = text, *end = text + n;
    uint32_t count = 0, state = 1;
    p = blank(p, end);
    if (p == end || *p++ != '[') goto done;
    p = blank(p, end);
    if (p != end && *p == ']') {
        state = 0;
        goto done;
    }
    while (count < room) {
        const char *next = number(p, end, &out[count]);
        if (!next) goto done;
        out[count++].at = (uint32_t)(p - text);
        p = blank(next, end);
        if (p == end) goto done;
        if (*p == ']') {
            state = 0;
            break;
        }
        if (*p++ != ',') goto done;
        p = blank(p, end);
    }
done:
    result[0] = count;
    result[1] = state;
    result[2] = (uint32_t)(p - text);
}
