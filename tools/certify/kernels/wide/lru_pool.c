#include <stdint.h>
#include <stddef.h>
#include <string.h>
/* an LRU cache: nodes of a pool in a doubly linked list and in chains of a hash table, by pointers */
struct node { struct node *prev, *next, *chain; uint32_t key, value; };
struct cache { struct node pool[64], head, *table[32], *spare; uint32_t hits, misses; };
static void unlink_node(struct node *n) { n->prev->next = n->next; n->next->prev = n->prev; }
static void put_front(struct cache *c, struct node *n) { n->next = c->head.next; n->prev = &c->head; c->head.next->prev = n; c->head.next = n; }
static struct node *find(struct cache *c, uint32_t key)
{
    for (struct node *n = c->table[key * 2654435761u >> 27]; n; n = n->chain) if (n->key == key) return n;
    return NULL;
}
static void drop(struct cache *c, struct node *n)
{
    struct node **at = &c->table[n->key * 2654435761u >> 27];
    while (*at != n) at = &(*at)->chain;
    *at = n->chain;
    unlink_node(n);
}
void KERNEL(const uint32_t *keys, size_t n, uint32_t *out)
{
    static struct cache c;
    memset(&c, 0, sizeof c);
    c.head.prev = c.head.next = &c.head;
    for (int i = 0; i < 64; i++) { c.pool[i].chain = c.spare; c.spare = &c.pool[i]; }
    for (size_t i = 0; i < n; i++) {
        uint32_t key = keys[i] & 127;
        struct node *it = find(&c, key);
        if (it) { c.hits++; unlink_node(it); put_front(&c, it); it->value += i; continue; }
        c.misses++;
        if (c.spare) { it = c.spare; c.spare = it->chain; }
        else { it = c.head.prev; drop(&c, it); }
        it->key = key; it->value = i;
        it->chain = c.table[key * 2654435761u >> 27];
        c.table[key * 2654435761u >> 27] = it;
        put_front(&c, it);
    }
    uint32_t sum = 0;
    for (struct node *p = c.head.next; p != &c.head; p = p->next) sum = sum * 31 + p->value;
    out[0] = c.hits; out[1] = c.misses; out[2] = sum;
}
