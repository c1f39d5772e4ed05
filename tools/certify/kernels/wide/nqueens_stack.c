#include <stdint.h>
/* bit masks with a stack of its own in place of a recursion; the first solution and how many there are */
void KERNEL(uint8_t *first, int n, uint32_t *count)
{
    uint32_t free[10], left[10], right[10], col[10], all = (1u << n) - 1, found = 0;
    int row = 0;
    col[0] = left[0] = right[0] = 0;
    free[0] = all;
    while (row >= 0) {
        if (!free[row]) {
            row--;
            continue;
        }
        uint32_t bit = free[row] & -free[row];
        free[row] ^= bit;
        if (!found) {
            uint32_t at = 0;
            while (bit >> at != 1) at++;
            first[row] = at;
        }
        if (row + 1 == n) {
            found++;
            continue;
        }
        col[row + 1] = col[row] | bit;
        left[row + 1] = (left[row] | bit) << 1;
        right[row + 1] = (right[row] | bit) >> 1;
        row++;
        free[row] = all & ~(col[row] | left[row] | right[row]);
    }
    *count = found;
}
