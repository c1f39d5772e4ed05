#include <stdint.h>
#include <stddef.h>
/* lines of "id,price,quantity" into columns; prices in hundredths, sums of 64 bits, bad lines are told */
enum { OK, E_NUMBER, E_FIELD, E_RANGE };
static int number(const char **p, const char *end, int places, int64_t *out)
{
    const char *s = *p;
    int negative = 0, digits = 0, after = -1;
    int64_t v = 0;
    if (s < end && (*s == '-' || *s == '+')) negative = *s++ == '-';
    for (; s < end; s++) {
        if (*s >= '0' && *s <= '9') {
            if (after >= places) continue;
            if (v > INT64_MAX / 10 - 1) return E_RANGE;
            v = v * 10 + (*s - '0');
            digits++;
            if (after >= 0) after++;
        } else if (*s == '.' && after < 0 && places) after = 0;
        else break;
    }
    if (!digits) return E_NUMBER;
    for (int i = after < 0 ? 0 : after; i < places; i++) v *= 10;
    *out = negative ? -v : v;
    *p = s;
    return OK;
}
void KERNEL(const char *text, size_t len, uint32_t *ids, int32_t *prices, int32_t *quantities, uint32_t room, int64_t *totals)
{
    const char *p = text, *end = text + len;
    uint32_t rows = 0, bad[4] = { 0 };
    int64_t revenue = 0, most = INT64_MIN;
    while (p < end && rows < room) {
        int64_t field[3];
        int error = OK;
        for (int i = 0; i < 3 && !error; i++) {
            error = number(&p, end, i == 1 ? 2 : 0, &field[i]);
            if (!error && i < 2) {
                if (p < end && *p == ',') p++;
                else error = E_FIELD;
            }
        }
        if (!error && (field[1] != (int32_t)field[1] || field[2] != (int32_t)field[2])) error = E_RANGE;
        if (!error) {
            ids[rows] = (uint32_t)field[0];
            prices[rows] = (int32_t)field[1];
            quantities[rows] = (int32_t)field[2];
            int64_t value = field[1] * field[2];
            revenue += value;
            if (value > most) most = value;
            rows++;
        } else bad[error]++;
        while (p < end && *p != '\n') p++;
        if (p < end) p++;
    }
    totals[0] = rows;
    totals[1] = revenue;
    totals[2] = most;
    totals[3] = rows ? revenue / (int64_t)rows : 0;
    for (int i = 0; i < 4; i++) totals[4 + i] = bad[i];
}
