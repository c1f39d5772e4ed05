#include <stdint.h>
#include <stddef.h>
/* frequencies, a heap of nodes, lengths cut to 12 bits, canonical codes, and the packed text */
#define SYMBOLS 256
#define LIMIT 12
struct node { uint32_t weight; int16_t parent; };
static struct node nodes[2 * SYMBOLS];
static int16_t heap[SYMBOLS + 1];
static int heap_size;
static void down(int i)
{
    int16_t v = heap[i];
    while (2 * i <= heap_size) {
        int c = 2 * i;
        if (c < heap_size && nodes[heap[c + 1]].weight < nodes[heap[c]].weight) c++;
        if (nodes[v].weight <= nodes[heap[c]].weight) break;
        heap[i] = heap[c];
        i = c;
    }
    heap[i] = v;
}
static int16_t pop(void)
{
    int16_t top = heap[1];
    heap[1] = heap[heap_size--];
    down(1);
    return top;
}
void KERNEL(uint8_t *lengths, uint8_t *out, const uint8_t *text, size_t len, uint32_t *bits_out)
{
    uint32_t codes[SYMBOLS], count[LIMIT + 2] = { 0 }, first[LIMIT + 2];
    int next = SYMBOLS;
    for (int i = 0; i < 2 * SYMBOLS; i++) { nodes[i].weight = 0; nodes[i].parent = -1; }
    for (size_t i = 0; i < len; i++) nodes[text[i]].weight++;
    heap_size = 0;
    for (int i = 0; i < SYMBOLS; i++) if (nodes[i].weight) heap[++heap_size] = i;
    for (int i = heap_size / 2; i >= 1; i--) down(i);
    while (heap_size > 1) {
        int16_t a = pop(), b = pop();
        nodes[next].weight = nodes[a].weight + nodes[b].weight;
        nodes[a].parent = nodes[b].parent = next;
        heap[++heap_size] = next;
        for (int i = heap_size; i > 1 && nodes[heap[i]].weight < nodes[heap[i / 2]].weight; i /= 2) {
            int16_t t = heap[i];
            heap[i] = heap[i / 2];
            heap[i / 2] = t;
        }
        next++;
    }
    uint32_t kraft = 0;
    for (int i = 0; i < SYMBOLS; i++) {
        int n = 0;
        if (nodes[i].weight) for (int k = nodes[i].parent; k >= 0; k = nodes[k].parent) n++;
        if (n > LIMIT) n = LIMIT;
        if (nodes[i].weight && !n) n = 1;
        lengths[i] = n;
        if (n) kraft += 1u << (LIMIT - n);
    }
    while (kraft > 1u << LIMIT) {
        for (int i = SYMBOLS - 1; i >= 0 && kraft > 1u << LIMIT; i--)
            if (lengths[i] && lengths[i] < LIMIT) { lengths[i]++; kraft -= 1u << (LIMIT - lengths[i]); }
    }
    for (int i = 0; i < SYMBOLS; i++) count[lengths[i]]++;
    count[0] = 0;
    uint32_t code = 0;
    for (int n = 1; n <= LIMIT; n++) { code = (code + count[n - 1]) << 1; first[n] = code; }
    for (int i = 0; i < SYMBOLS; i++) if (lengths[i]) codes[i] = first[lengths[i]]++;
    uint64_t acc = 0;
    unsigned have = 0;
    uint32_t total = 0;
    for (size_t i = 0; i < len; i++) {
        unsigned n = lengths[text[i]];
        acc = acc << n | codes[text[i]];
        have += n;
        total += n;
        while (have >= 8) { have -= 8; *out++ = (uint8_t)(acc >> have); }
    }
    if (have) *out = (uint8_t)(acc << (8 - have));
    *bits_out = total;
}
