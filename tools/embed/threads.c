/* Threads with a kernel or a session each of one image, which the first of them has checked. Prints nothing and ends with 0 where each run is done and
 * each refusal is the header's; else names the line. */
#include "rvvbox.h"
#include <pthread.h>
#include <stdio.h>
#include <stdlib.h>
#include <string.h>

#define EXPECT(holds) do { if (!(holds)) { fprintf(stderr, "line %d: %s\n", __LINE__, #holds); exit(1); } } while (0)

enum { THREADS = 8, ROUNDS = 6, SIZE = 4096 };
static uint8_t image[SIZE], before[SIZE], expected[SIZE];
static size_t size;

static size_t read_file(const char *name, uint8_t *bytes) {
    FILE *file = fopen(name, "rb");
    EXPECT(file);
    size_t count = fread(bytes, 1, SIZE, file);
    fclose(file);
    return count;
}

/* All threads read the same bytes at place 3 of those that are refused */
static void runs(struct rvvbox_kernel *kernel, uint8_t *words, uint32_t n, uint32_t status) {
    struct rvvbox_argument arguments[RVVBOX_PLACES] = {rvvbox_buffer(words, SIZE), rvvbox_scalar(n)};
    uint64_t steps = 7;
    memcpy(words, before, SIZE);
    if (status == RVVBOX_WRONG_KIND) arguments[3] = rvvbox_read(expected, SIZE);
    EXPECT(rvvbox_run(kernel, arguments, 0, 10000, &steps, NULL) == status);
    EXPECT(steps == (status == RVVBOX_DONE ? 2002 : 7));
    EXPECT(!memcmp(words, status == RVVBOX_DONE ? expected : before, SIZE));
}

/* Goes on with the session that another thread has opened and begun, and lets it go */
static void *goes_on(void *session) {
    struct rvvbox_progress progress;
    uint8_t *words = malloc(SIZE);
    EXPECT(words);
    struct rvvbox_argument arguments[RVVBOX_PLACES] = {rvvbox_buffer(words, SIZE)};
    do EXPECT(rvvbox_go_on(session, 100, &progress) == RVVBOX_DONE);
    while (!progress.ended);
    EXPECT(progress.steps == 2002 && rvvbox_close(session, arguments, NULL) == RVVBOX_DONE && !memcmp(words, expected, SIZE));
    free(words);
    rvvbox_drop(session);
    return NULL;
}

/* A session of the kernel that has done its first steps on this thread */
static struct rvvbox_session *begun(struct rvvbox_kernel *kernel) {
    struct rvvbox_argument arguments[RVVBOX_PLACES] = {rvvbox_read(before, SIZE), rvvbox_scalar(1000)};
    struct rvvbox_session *session = NULL;
    struct rvvbox_progress progress;
    EXPECT(rvvbox_open(kernel, arguments, 0, 10000, &session, NULL) == RVVBOX_DONE);
    EXPECT(rvvbox_go_on(session, 1, &progress) == RVVBOX_DONE && progress.steps == 1);
    return session;
}

/* Runs the kernel that another thread has made, shares it further, and lets both go */
static void *work(void *kernel) {
    static const struct rvvbox_scalars scalars = {.a1 = 1000};
    uint8_t *words = malloc(SIZE);
    EXPECT(words);
    for (int round = 0; round < ROUNDS; round++) {
        struct rvvbox_kernel *second = NULL;
        struct rvvbox_bound bound;
        runs(kernel, words, 1000, RVVBOX_DONE);
        EXPECT(rvvbox_share(kernel, &second) == RVVBOX_DONE);
        EXPECT(rvvbox_bound_of(second, &scalars, &bound) == RVVBOX_DONE && bound.low == 8002 && !bound.high);
        runs(second, words, 1025, RVVBOX_SCALAR_OUT_OF_INTERVAL);
        runs(second, words, 1000, RVVBOX_WRONG_KIND);
        rvvbox_free(second);
    }
    free(words);
    rvvbox_free(kernel);
    return NULL;
}

int main(void) {
    size = read_file("raise_words.elf", image);
    read_file("a.bin", before);
    read_file("expected.bin", expected);
    struct rvvbox_kernel *kernel = NULL;
    struct rvvbox_refusal refusal;
    EXPECT(rvvbox_accept(image, size, 128, &kernel, &refusal) == RVVBOX_DONE);
    pthread_t threads[2 * THREADS];
    for (int i = 0; i < THREADS; i++) {
        struct rvvbox_kernel *own = NULL;
        EXPECT(rvvbox_share(kernel, &own) == RVVBOX_DONE);
        EXPECT(!pthread_create(&threads[i], NULL, work, own));
        EXPECT(!pthread_create(&threads[THREADS + i], NULL, goes_on, begun(kernel)));
    }
    rvvbox_free(kernel);
    for (int i = 0; i < 2 * THREADS; i++) EXPECT(!pthread_join(threads[i], NULL));
    return 0;
}
