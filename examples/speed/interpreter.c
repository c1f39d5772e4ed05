// A plain interpreter of RV32IM, which speed.py compares the scalar rows with: memory in one piece, each access tested
// against its end, and one switch a step. `interpreter IMAGE COUNT TIMES` passes two buffers and the two numbers, runs
// the image until its entry returns, and prints its steps. Anything that it does not know ends it with status 1.
#include <elf.h>
#include <stdint.h>
#include <stdio.h>
#include <stdlib.h>
#include <string.h>

enum { SIZE = 64 << 20, TO = 16 << 20, FROM = 40 << 20, STACK = SIZE - 64, END = 0xfffffff0 };

static uint8_t memory[SIZE];

static void fail(const char *why)
{
    fprintf(stderr, "interpreter: %s\n", why);
    exit(1);
}

static uint32_t load(uint32_t at, uint32_t bytes)
{
    uint32_t value = 0;
    if (at > SIZE - bytes)
        fail("a load outside memory");
    memcpy(&value, memory + at, bytes);
    return value;
}

static void store(uint32_t at, uint32_t value, uint32_t bytes)
{
    if (at > SIZE - bytes)
        fail("a store outside memory");
    memcpy(memory + at, &value, bytes);
}

static uint32_t entry_of(const char *name)
{
    static uint8_t image[1 << 20];
    FILE *file = fopen(name, "rb");
    if (!file || fread(image, 1, sizeof image, file) < sizeof(Elf32_Ehdr))
        fail("no image");
    const Elf32_Ehdr *header = (const Elf32_Ehdr *)image;
    const Elf32_Phdr *part = (const Elf32_Phdr *)(image + header->e_phoff);
    for (int i = 0; i < header->e_phnum; i++)
        if (part[i].p_type == PT_LOAD)
            memcpy(memory + part[i].p_vaddr, image + part[i].p_offset, part[i].p_filesz);
    fclose(file);
    return header->e_entry;
}

static uint32_t computed(uint32_t funct, uint32_t other, uint32_t a, uint32_t b)
{
    int32_t s = (int32_t)a, t = (int32_t)b;
    if (other == 1)
        switch (funct) {
        case 0: return a * b;
        case 1: return (uint32_t)((int64_t)s * t >> 32);
        case 2: return (uint32_t)((int64_t)s * (uint64_t)b >> 32);
        case 3: return (uint32_t)((uint64_t)a * b >> 32);
        case 4: return b == 0 ? UINT32_MAX : a == 1u << 31 && t == -1 ? a : (uint32_t)(s / t);
        case 5: return b == 0 ? UINT32_MAX : a / b;
        case 6: return b == 0 ? a : a == 1u << 31 && t == -1 ? 0 : (uint32_t)(s % t);
        default: return b == 0 ? a : a % b;
        }
    switch (funct) {
    case 0: return other == 32 ? a - b : a + b;
    case 1: return a << (b & 31);
    case 2: return s < t;
    case 3: return a < b;
    case 4: return a ^ b;
    case 5: return other == 32 ? (uint32_t)(s >> (b & 31)) : a >> (b & 31);
    case 6: return a | b;
    default: return a & b;
    }
}

static int is_taken(uint32_t funct, uint32_t a, uint32_t b)
{
    int holds = funct < 2 ? a == b : funct < 6 ? (int32_t)a < (int32_t)b : a < b;
    return holds != (int)(funct & 1);
}

static uint64_t run(uint32_t pc, uint32_t x[32])
{
    uint64_t steps = 0;
    for (; pc != END; steps++) {
        uint32_t w = load(pc, 4), d = w >> 7 & 31, f = w >> 12 & 7, a = x[w >> 15 & 31], b = x[w >> 20 & 31];
        uint32_t next = pc + 4, low = (uint32_t)((int32_t)w >> 20), value = 0;
        switch (w & 0x7f) {
        case 0x37: value = w & 0xfffff000; break;
        case 0x17: value = pc + (w & 0xfffff000); break;
        case 0x6f:
            value = next;
            next = pc + ((uint32_t)((int32_t)w >> 11 & ~0xfffff) | (w & 0xff000) | (w >> 9 & 0x800) | (w >> 20 & 0x7fe));
            break;
        case 0x67: value = next; next = (a + low) & ~1u; break;
        case 0x63:
            d = 0;
            if (is_taken(f, a, b))
                next = pc + ((uint32_t)((int32_t)w >> 19 & ~0xfff) | (w << 4 & 0x800) | (w >> 20 & 0x7e0) | (w >> 7 & 0x1e));
            break;
        case 0x03:
            value = load(a + low, 1u << (f & 3));
            value = f == 0 ? (uint32_t)(int8_t)value : f == 1 ? (uint32_t)(int16_t)value : value;
            break;
        case 0x23: store(a + ((low & ~31u) | d), b, 1u << f); d = 0; break;
        case 0x13: value = computed(f, (f & 3) == 1 ? w >> 25 : 0, a, low); break;
        case 0x33: value = computed(f, w >> 25, a, b); break;
        default: fail("a word that it does not know");
        }
        x[d] = value;
        x[0] = 0;
        pc = next;
    }
    return steps;
}

int main(int count, char **words)
{
    if (count != 4)
        fail("IMAGE COUNT TIMES are wanted");
    uint32_t x[32] = {0, END, STACK};
    x[10] = TO, x[11] = FROM, x[12] = (uint32_t)atol(words[2]), x[13] = (uint32_t)atol(words[3]);
    for (uint32_t i = 0; i < 4096; i++)
        memory[TO + i] = (uint8_t)i;
    printf("%llu steps\n", (unsigned long long)run(entry_of(words[1]), x));
}
