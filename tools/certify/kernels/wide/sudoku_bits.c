#include <stdint.h>
#include <stddef.h>
/* a solver by recursion with masks of rows, columns and boxes, and a limit of its tries */
static uint16_t rows[9], cols[9], boxes[9];
static uint32_t tries, limit;
static int popcount(unsigned v) { int n = 0; for (; v; v &= v - 1) n++; return n; }
static int solve(uint8_t *grid)
{
    int best = -1, fewest = 10;
    unsigned options = 0;
    if (tries++ >= limit) return -1;
    for (int i = 0; i < 81; i++) {
        if (grid[i]) continue;
        unsigned can = 0x3fe & ~(rows[i / 9] | cols[i % 9] | boxes[i / 27 * 3 + i % 9 / 3]);
        int n = popcount(can);
        if (n < fewest) { fewest = n; best = i; options = can; }
    }
    if (best < 0) return 1;
    int r = best / 9, c = best % 9, b = r / 3 * 3 + c / 3;
    for (int d = 1; d <= 9; d++) {
        unsigned bit = 1u << d;
        if (!(options & bit)) continue;
        rows[r] |= bit; cols[c] |= bit; boxes[b] |= bit;
        grid[best] = d;
        int done = solve(grid);
        if (done) return done;
        rows[r] &= ~bit; cols[c] &= ~bit; boxes[b] &= ~bit;
        grid[best] = 0;
    }
    return 0;
}
void KERNEL(uint8_t *grid, uint32_t most, int32_t *result)
{
    for (int i = 0; i < 9; i++) rows[i] = cols[i] = boxes[i] = 0;
    tries = 0;
    limit = most;
    for (int i = 0; i < 81; i++) {
        if (grid[i] > 9) { *result = -2; return; }
        if (!grid[i]) continue;
        unsigned bit = 1u << grid[i];
        rows[i / 9] |= bit;
        cols[i % 9] |= bit;
        boxes[i / 27 * 3 + i % 9 / 3] |= bit;
    }
    *result = solve(grid);
}
