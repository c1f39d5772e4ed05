#include <stdint.h>
#include <stddef.h>
/* a binary heap of timers in static memory: a command pushes, or pops what is due */
struct timer { uint32_t when, id; };
#define CAP 64
static struct timer heap[CAP];
static size_t used;
static int push(struct timer t)
{
    if (used == CAP) return 0;
    size_t i = used++;
    while (i > 0) {
        size_t up = (i - 1) / 2;
        if (heap[up].when <= t.when) break;
        heap[i] = heap[up];
        i = up;
    }
    heap[i] = t;
    return 1;
}
static struct timer pop(void)
{
    struct timer first = heap[0], last = heap[--used];
    size_t i = 0, child;
    while ((child = 2 * i + 1) < used) {
        if (child + 1 < used && heap[child + 1].when < heap[child].when) child++;
        if (last.when <= heap[child].when) break;
        heap[i] = heap[child];
        i = child;
    }
    heap[i] = last;
    return first;
}
void KERNEL(const struct timer *commands, uint32_t n, uint32_t *fired, uint32_t *count)
{
    uint32_t k = 0;
    for (uint32_t i = 0; i < n; i++) {
        if (!push(commands[i]) || commands[i].id % 3 == 0) {
            uint32_t now = commands[i].when;
            while (used && heap[0].when <= now && k < 1024) fired[k++] = pop().id;
            if (used == CAP) pop();
        }
    }
    while (used && k < 1024) fired[k++] = pop().id;
    *count = k;
}
