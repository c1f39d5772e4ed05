/* Runs states on qemu-riscv32: reads commands from standard input, answers on standard output. Freestanding, rv32im.

   Commands are four words, then their data:
     1 addr size prot  maps [addr, addr + size) with prot (1 read, 2 write, 4 execute), filled with the data: size bytes
     2 addr size 0     unmaps
     3 addr size 0     writes the data there
     4 tramp pc 0      runs from pc; data: vtype, vl, vcsr, x0 to x31, v0 to v31; the page at tramp holds the jump to pc
     5 addr size 0     answers the bytes there
     0                 ends
   A run goes on to the first signal. The answer is: signal, its address, pc, x1 to x31, vl, vtype, vcsr, v0 to v31. */
typedef unsigned int u32;

extern void enter(void *vectors, u32 vl, u32 vtype, u32 vcsr, u32 to);
extern void leave(void) __attribute__((noreturn));
extern void save_vectors(u32 *out);
extern u32 read_vlenb(void);

static long call(long n, long a, long b, long c, long d, long e, long f) {
    register long a7 __asm__("a7") = n, a0 __asm__("a0") = a, a1 __asm__("a1") = b, a2 __asm__("a2") = c, a3 __asm__("a3") = d, a4 __asm__("a4") = e,
                  a5 __asm__("a5") = f;
    __asm__ volatile("ecall" : "+r"(a0) : "r"(a7), "r"(a1), "r"(a2), "r"(a3), "r"(a4), "r"(a5) : "memory");
    return a0;
}

void *memset(void *to, int v, u32 n) {
    for (u32 i = 0; i < n; i++) ((char *)to)[i] = (char)v;
    return to;
}

void *memcpy(void *to, const void *from, u32 n) {
    for (u32 i = 0; i < n; i++) ((char *)to)[i] = ((const char *)from)[i];
    return to;
}

static void quit(int code) { for (;;) call(93, code, 0, 0, 0, 0, 0); }

static void get(void *to, u32 n) {
    char *p = to;
    while (n) {
        long k = call(63, 0, (long)p, n, 0, 0, 0);
        if (k <= 0) quit(2);
        p += k, n -= (u32)k;
    }
}

static void put(const void *from, u32 n) {
    const char *p = from;
    while (n) {
        long k = call(64, 1, (long)p, n, 0, 0, 0);
        if (k <= 0) quit(3);
        p += k, n -= (u32)k;
    }
}

static u32 state[3 + 32 + 512], answer[3 + 31 + 3 + 512], vlenb;
static char handler_stack[65536];

/* ucontext: flags, link, stack (3 words), mask (128 bytes), to a multiple of 16: pc, x1 to x31. */
static void caught(int signal, u32 *info, u32 *context) {
    u32 *pc = context + 40;
    answer[0] = (u32)signal;
    answer[1] = info[3];
    for (int i = 0; i < 32; i++) answer[2 + i] = pc[i];
    save_vectors(answer + 34);
    leave();
}

static void catch_signals(void) {
    struct { void *sp; u32 flags, size; } stack = {handler_stack, 0, sizeof handler_stack};
    call(132, (long)&stack, 0, 0, 0, 0, 0);
    struct { void *handler; u32 flags; u32 mask[2]; } action = {(void *)caught, 0x4 | 0x08000000 | 0x40000000, {0, 0}};
    for (int s = 1; s < 32; s++)
        if (s == 4 || s == 5 || s == 7 || s == 11 || s == 8) call(134, s, (long)&action, 0, 8, 0, 0);
}

static void map(u32 at, u32 size, u32 prot) {
    if (call(222, (long)at, size, 3, 0x32, -1, 0) != (long)at) quit(4);
    get((void *)at, size);
    call(226, (long)at, size, prot, 0, 0, 0);
}

/* lui x31, x; lw xN, 4 N(x31) for 1 to 31; jal x0, pc */
static void trampoline(u32 at, u32 pc) {
    u32 x = (u32)(state + 3), *w = (u32 *)at, o;
    static u32 *const place = (u32 *)0x30001000;
    memcpy(place, (void *)x, 128);
    *w++ = 0x30001fb7;
    for (u32 i = 1; i < 32; i++) *w++ = (4 * i) << 20 | 31 << 15 | 2 << 12 | i << 7 | 3;
    o = pc - (u32)w;
    *w = (o >> 20 & 1) << 31 | (o >> 1 & 0x3ff) << 21 | (o >> 11 & 1) << 20 | (o >> 12 & 0xff) << 12 | 0x6f;
}

void serve(void) {
    u32 c[4];
    vlenb = read_vlenb();
    /* qemu puts the stack of its process and the page of its signal return here; neither is used. */
    call(215, 0x3f000000, 0x03000000, 0, 0, 0, 0);
    catch_signals();
    call(222, 0x30001000, 4096, 3, 0x32, -1, 0);
    for (;;) {
        get(c, 16);
        switch (c[0]) {
        case 1: map(c[1], c[2], c[3]); break;
        case 2: call(215, (long)c[1], c[2], 0, 0, 0, 0); break;
        case 3: get((void *)c[1], c[2]); __asm__ volatile(".word 0x100f" ::: "memory"); break;
        case 4:
            get(state, 4 * 35 + 32 * vlenb);
            trampoline(c[1], c[2]);
            __asm__ volatile(".word 0x100f" ::: "memory");
            enter(state + 35, state[1], state[0], state[2], c[1]);
            put(answer, 4 * 37 + 32 * vlenb);
            break;
        case 5: put((void *)c[1], c[2]); break;
        default: quit(c[0] ? 5 : 0);
        }
    }
}
