/* How long a call takes, for embed.py: prints, for each row, its name and nanoseconds a call, of processor time. */
#include "rvvbox.h"
#include <stdio.h>
#include <stdlib.h>
#include <string.h>
#include <time.h>

enum { RUNS = 256, LARGE = 1 << 20 };
static uint8_t image[4096], words[4096];
static size_t size;
static struct rvvbox_argument arguments[RVVBOX_PLACES * RUNS];
static struct rvvbox_ran runs[RUNS];

static void read_image(const char *path) {
    FILE *elf = fopen(path, "rb");
    size = elf ? fread(image, 1, sizeof image, elf) : 0;
    if (elf) fclose(elf);
}

static double now(void) {
    struct timespec t;
    clock_gettime(CLOCK_PROCESS_CPUTIME_ID, &t);
    return t.tv_sec * 1e9 + t.tv_nsec;
}

static void ended(uint32_t status) {
    if (status != RVVBOX_DONE) {
        fprintf(stderr, "status %u\n", status);
        exit(1);
    }
}

static void put(uint32_t n, size_t count) {
    memset(arguments, 0, sizeof arguments);
    for (size_t i = 0; i < count; i++) {
        arguments[RVVBOX_PLACES * i] = rvvbox_buffer(words, sizeof words);
        arguments[RVVBOX_PLACES * i + 1] = rvvbox_scalar(n);
    }
}

static struct rvvbox_kernel *accepted(void) {
    struct rvvbox_kernel *kernel = NULL;
    ended(rvvbox_accept(image, size, 128, &kernel, NULL));
    return kernel;
}

static void row(const char *name, uint32_t n, double from, double calls) {
    printf("%s, n = %u: %.0f ns\n", name, n, (now() - from) / calls);
}

/* An image that is checked for one run */
static void checked(uint32_t n, int calls) {
    uint64_t steps;
    put(n, 1);
    double from = now();
    for (int i = 0; i < calls; i++) {
        struct rvvbox_kernel *kernel = accepted();
        ended(rvvbox_run(kernel, arguments, 0, 10000, &steps, NULL));
        rvvbox_free(kernel);
    }
    row("check and run", n, from, calls);
}

static void many(struct rvvbox_kernel *kernel, uint32_t n, int calls) {
    put(n, RUNS);
    double from = now();
    for (int i = 0; i < calls; i++) ended(rvvbox_run_many(kernel, arguments, 0, 10000, runs, RUNS, NULL));
    row("run, of 256 in a call", n, from, (double)calls * RUNS);
}

static void kept(struct rvvbox_kernel *kernel, uint32_t n, int calls) {
    uint64_t steps;
    put(n, 1);
    double from = now();
    for (int i = 0; i < calls; i++) ended(rvvbox_run(kernel, arguments, 0, 10000, &steps, NULL));
    row("run of a kernel", n, from, calls);
}

/* A session for all runs, which is closed and opened again, and goes on once */
static void sessions(struct rvvbox_kernel *kernel, uint32_t n, int calls) {
    struct rvvbox_session *session = NULL;
    struct rvvbox_progress progress;
    put(n, 1);
    double from = now();
    for (int i = 0; i < calls; i++) {
        ended(rvvbox_open(kernel, arguments, 0, 10000, &session, NULL));
        ended(rvvbox_go_on(session, 10000, &progress));
        ended(rvvbox_close(session, arguments, NULL));
    }
    row("session", n, from, calls);
    rvvbox_drop(session);
}

/* The same kernel with a certificate for a buffer of 1 MiB */
static struct rvvbox_kernel *accepted_large(void) {
    struct rvvbox_parameter takes[RVVBOX_PLACES] = {{.kind = RVVBOX_BUFFER, .size = LARGE}, {.kind = RVVBOX_SCALAR, .hi = LARGE / 4}};
    struct rvvbox_kernel *kernel = NULL;
    uint8_t made[sizeof image];
    size_t needed;
    read_image("../raise_words/bare.elf");
    ended(rvvbox_make(image, size, 128, takes, made, sizeof made, &needed, NULL));
    ended(rvvbox_accept(made, needed, 128, &kernel, NULL));
    return kernel;
}

/* A run of 1 MiB that does nothing, and a copy of as much there and back, through memory that is asked for */
static void copied(int calls) {
    static uint8_t bytes[LARGE];
    struct rvvbox_argument large[RVVBOX_PLACES] = {rvvbox_buffer(bytes, LARGE), rvvbox_scalar(0)};
    struct rvvbox_kernel *kernel = accepted_large();
    uint64_t steps;
    double from = now();
    for (int i = 0; i < calls; i++) ended(rvvbox_run(kernel, large, 0, 10000, &steps, NULL));
    row("run of a kernel, 1 MiB", 0, from, calls);
    from = now();
    for (int i = 0; i < calls; i++) {
        uint8_t *volatile copy = malloc(LARGE);
        memcpy(copy, bytes, LARGE);
        memcpy(bytes, copy, LARGE);
        free(copy);
    }
    row("two copies, 1 MiB", 0, from, calls);
    rvvbox_free(kernel);
}

int main(void) {
    read_image("../raise_words/raise_words.elf");
    double from = now();
    for (int i = 0; i < 1000; i++) ended(rvvbox_check(image, size, 128, NULL));
    printf("check: %.0f ns\n", (now() - from) / 1000);
    static const uint32_t counts[] = {0, 16, 100, 1000};
    struct rvvbox_kernel *kernel = accepted();
    for (size_t i = 0; i < 4; i++) checked(counts[i], 1000);
    for (size_t i = 0; i < 4; i++) many(kernel, counts[i], 20);
    for (size_t i = 0; i < 4; i++) kept(kernel, counts[i], 5000);
    for (size_t i = 0; i < 4; i++) sessions(kernel, counts[i], 5000);
    rvvbox_free(kernel);
    copied(200);
    return 0;
}
