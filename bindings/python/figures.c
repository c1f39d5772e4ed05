/* What figures.py compares with: the kernel's work in plain C, and the library's calls by themselves. */
#include "rvvbox.h"
#include <stdlib.h>
#include <time.h>

void axpy(int32_t *out, const int32_t *a, const int32_t *b, uint32_t n, int32_t k) {
    for (uint32_t i = 0; i < n; i++) out[i] = (int32_t)((uint32_t)a[i] * (uint32_t)k + (uint32_t)b[i]);
}

static double now(void) {
    struct timespec at;
    clock_gettime(CLOCK_PROCESS_CPUTIME_ID, &at);
    return (double)at.tv_sec + 1e-9 * (double)at.tv_nsec;
}

/* Seconds of processor time of a pass over n words, a call for each `batch` of them, the least of `tries` times `passes`. Below 0 where
 * something is refused. */
double call_time(const uint8_t *image, size_t size, uint32_t n, uint32_t batch, uint32_t tries, uint32_t passes) {
    struct rvvbox_kernel *kernel = NULL;
    if (rvvbox_accept(image, size, 512, &kernel, NULL)) return -1;
    int32_t *words[3];
    for (int i = 0; i < 3; i++) words[i] = calloc(n, 4);
    uint64_t steps;
    double least = 1e9;
    for (uint32_t i = 0; i < tries; i++) {
        double began = now();
        for (uint32_t j = 0; j < passes; j++) {
            for (uint32_t at = 0; at < n; at += batch) {
                struct rvvbox_argument arguments[RVVBOX_PLACES] = {
                    rvvbox_buffer(words[0] + at, 4 * batch), rvvbox_read(words[1] + at, 4 * batch), rvvbox_read(words[2] + at, 4 * batch),
                    rvvbox_scalar(batch), rvvbox_scalar(3)};
                if (rvvbox_run(kernel, arguments, 0, UINT64_MAX, &steps, NULL)) return -1;
            }
        }
        double took = (now() - began) / passes;
        if (took < least) least = took;
    }
    for (int i = 0; i < 3; i++) free(words[i]);
    rvvbox_free(kernel);
    return least;
}
