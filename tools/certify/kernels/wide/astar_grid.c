#include <stdint.h>
#include <stdlib.h>
/* A* on a grid of costs, with a heap of pointers to cells that know their place in it; the path comes out as moves. */
struct cell {
    uint16_t x, y;
    uint32_t g, f;
    struct cell *from;
    int32_t slot;
};

struct queue {
    struct cell **heap;
    int32_t count;
};

static struct cell cells[1024];
static struct cell *slots[1024];

static uint32_t guess(const struct cell *a, const struct cell *b)
{
    int dx = a->x - b->x, dy = a->y - b->y;
    return (uint32_t)((dx < 0 ? -dx : dx) + (dy < 0 ? -dy : dy));
}

static void place(struct queue *q, int32_t i, struct cell *c)
{
    q->heap[i] = c;
    c->slot = i;
}

static void sift_up(struct queue *q, int32_t i)
{
    struct cell *c = q->heap[i];
    while (i > 0) {
        int32_t parent = (i - 1) / 2;
        if (q->heap[parent]->f <= c->f) break;
        place(q, i, q->heap[parent]);
        i = parent;
    }
    place(q, i, c);
}

static struct cell *pop(struct queue *q)
{
    struct cell *top = q->heap[0], *c = q->heap[--q->count];
    int32_t i = 0;
    for (;;) {
        int32_t child = 2 * i + 1;
        if (child >= q->count) break;
        if (child + 1 < q->count && q->heap[child + 1]->f < q->heap[child]->f) child++;
        if (c->f <= q->heap[child]->f) break;
        place(q, i, q->heap[child]);
        i = child;
    }
    if (q->count > 0) place(q, i, c);
    top->slot = -2;
    return top;
}

void KERNEL(const uint8_t *cost, uint32_t width, uint32_t height, uint32_t start, uint32_t goal, uint8_t *path, uint32_t *result)
{
    static const int8_t dx[4] = {1, 0, -1, 0}, dy[4] = {0, 1, 0, -1};
    struct queue open = {slots, 0};
    uint32_t n = width * height, expanded = 0, length = 0;
    struct cell *target, *c;
    result[0] = result[1] = result[2] = 0;
    if (start >= n || goal >= n) return;
    for (uint32_t i = 0; i < n; i++) {
        c = &cells[i];
        c->x = (uint16_t)(i % width);
        c->y = (uint16_t)(i / width);
        c->g = c->f = UINT32_MAX;
        c->from = 0;
        c->slot = -1;
    }
    target = &cells[goal];
    c = &cells[start];
    c->g = 0;
    c->f = guess(c, target);
    place(&open, open.count++, c);
    while (open.count) {
        c = pop(&open);
        expanded++;
        if (c == target) break;
        for (int d = 0; d < 4; d++) {
            int x = c->x + dx[d], y = c->y + dy[d];
            struct cell *to;
            uint32_t g;
            if (x < 0 || y < 0 || x >= (int)width || y >= (int)height) continue;
            if (cost[y * width + x] > 12) continue;
            to = &cells[y * width + x];
            g = c->g + 1 + cost[y * width + x];
            if (to->slot == -2 || g >= to->g) continue;
            to->g = g;
            to->f = g + guess(to, target);
            to->from = c;
            if (to->slot < 0) place(&open, open.count++, to);
            sift_up(&open, to->slot);
        }
    }
    result[1] = expanded;
    if (c != target) return;
    result[0] = target->g;
    for (; c->from; c = c->from) {
        int across = c->x - c->from->x, down = c->y - c->from->y;
        path[length++] = across > 0 ? 'E' : across < 0 ? 'W' : down > 0 ? 'S' : 'N';
    }
    for (uint32_t i = 0; i < length / 2; i++) {
        uint8_t t = path[i];
        path[i] = path[length - 1 - i];
        path[length - 1 - i] = t;
    }
    result[2] = length;
}
