#include <stdint.h>
/* longest prefix match in a binary trie of 512 nodes; child 0 is none */
struct node { uint16_t child[2]; uint16_t next_hop; uint16_t pad; uint32_t unused[2]; };
#define NODES 512
void KERNEL(const struct node *nodes, const uint32_t *addresses, uint32_t *hops, uint32_t n)
{
    for (uint32_t i = 0; i < n; i++) {
        uint32_t addr = addresses[i], at = 0, best = 0;
        for (int bit = 31; bit >= 0; bit--) {
            if (nodes[at].next_hop) best = nodes[at].next_hop;
            uint32_t next = nodes[at].child[addr >> bit & 1];
            if (next == 0 || next >= NODES) break;
            at = next;
        }
        if (nodes[at].next_hop) best = nodes[at].next_hop;
        hops[i] = best;
    }
}
