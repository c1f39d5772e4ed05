/* Calls with wrong arguments, and calls whose allocations are refused, one after another. Linked with --wrap for malloc and realloc.
 * Prints nothing and ends with 0 where each answer is the header's; else names the line. */
#include "rvvbox.h"
#include <stdio.h>
#include <stdlib.h>
#include <string.h>

#define EXPECT(holds) do { if (!(holds)) { fprintf(stderr, "line %d: %s\n", __LINE__, #holds); exit(1); } } while (0)

void *__real_malloc(size_t size);
void *__real_realloc(void *block, size_t size);
static long refused = -1;                       /* how many allocations are given before one is refused, or -1 */

static int refuses(void) { return refused >= 0 && refused-- == 0; }
void *__wrap_malloc(size_t size) { return refuses() ? NULL : __real_malloc(size); }
void *__wrap_realloc(void *block, size_t size) { return refuses() ? NULL : __real_realloc(block, size); }

static uint8_t image[4096], words[4096], before[4096], expected[4096];
static size_t size;
static struct rvvbox_kernel *kernel;
static struct rvvbox_argument arguments[16];
static uint32_t agnostic;
static uint64_t max = 10000, steps;
static struct rvvbox_refusal refusal;

static size_t read_file(const char *name, uint8_t *bytes) {
    FILE *file = fopen(name, "rb");
    EXPECT(file);
    size_t count = fread(bytes, 1, 4096, file);
    fclose(file);
    return count;
}

static void put(struct rvvbox_argument *eight) {
    memset(eight, 0, 8 * sizeof *eight);
    eight[0] = rvvbox_buffer(words, sizeof words);
    eight[1] = rvvbox_scalar(1000);
}

static uint32_t run(void) {
    steps = 7;
    memset(&refusal, 0x55, sizeof refusal);
    uint32_t status = rvvbox_run(kernel, arguments, agnostic, max, &steps, &refusal);
    EXPECT(refusal.status == status && refusal.reserved == 0);
    EXPECT(rvvbox_run(kernel, arguments, agnostic, 0, &steps, NULL) != RVVBOX_DONE);
    return status;
}

/* A run is refused so, with all as it was */
static void refuses_run(uint32_t status) {
    EXPECT(run() == status && steps == 7 && !memcmp(words, before, sizeof words));
    EXPECT(refusal.rule == 0 && refusal.address == 0 && refusal.offset == 0);
}

/* The same of this argument at this place, which is named; and then as it was */
static void refuses_argument(struct rvvbox_argument argument, size_t place, uint32_t status) {
    struct rvvbox_argument kept = arguments[place];
    arguments[place] = argument;
    refuses_run(status);
    EXPECT(refusal.place == place && refusal.bound.low == 0 && refusal.bound.high == 0);
    arguments[place] = kept;
}

static void wrong_images(void) {
    EXPECT(rvvbox_version() == (RVVBOX_VERSION_MAJOR << 16 | RVVBOX_VERSION_MINOR));
    EXPECT(rvvbox_check(image, size, 128, &refusal) == RVVBOX_DONE && refusal.status == RVVBOX_DONE);
    EXPECT(rvvbox_check(image, size, 127, NULL) == RVVBOX_BAD_VLEN);
    EXPECT(rvvbox_check(NULL, 0, 128, &refusal) == RVVBOX_IMAGE && refusal.rule == RVVBOX_IMAGE_TOO_SHORT);
    EXPECT(rvvbox_check(image, size, 256, &refusal) == RVVBOX_CHECK && refusal.rule == RVVBOX_CHECK_WRONG_VLEN);
    EXPECT(rvvbox_check(image, 51, 128, &refusal) == RVVBOX_IMAGE && refusal.rule == RVVBOX_IMAGE_TOO_SHORT);
    EXPECT(!strcmp(rvvbox_status_name(refusal.status), "IMAGE") && !strcmp(rvvbox_rule_name(refusal.status, refusal.rule), "TOO_SHORT"));
    EXPECT(!strcmp(rvvbox_status_name(99), "UNKNOWN") && !strcmp(rvvbox_rule_name(RVVBOX_DONE, 1), "UNKNOWN"));
}

static void wrong_arguments(void) {
    refuses_argument((struct rvvbox_argument){.kind = 4}, 7, RVVBOX_BAD_KIND);
    refuses_argument(rvvbox_scalar(0), 0, RVVBOX_WRONG_KIND);
    refuses_argument(rvvbox_scalar(1025), 1, RVVBOX_SCALAR_OUT_OF_INTERVAL);
    refuses_argument(rvvbox_buffer(words, 4095), 0, RVVBOX_WRONG_SIZE);
    refuses_argument(rvvbox_buffer(NULL, 0), 0, RVVBOX_WRONG_SIZE);
    refuses_argument(rvvbox_buffer(NULL, 4096), 0, RVVBOX_BAD_RANGE);
    refuses_argument(rvvbox_read((void *)(UINTPTR_MAX - 4094), 4096), 0, RVVBOX_BAD_RANGE);
    agnostic = 2;
    refuses_run(RVVBOX_BAD_AGNOSTIC);
    agnostic = 0;
    max = 8001;
    refuses_run(RVVBOX_BOUND_TOO_LARGE);
    EXPECT(refusal.bound.low == 8002 && refusal.bound.high == 0 && refusal.place == 0);
    max = 10000;
}

/* Bytes that are put back lie apart from all others, before and behind them too; what is read may lie anywhere else */
static void overlaps(void) {
    arguments[3] = rvvbox_read(words + 4095, 1);
    refuses_run(RVVBOX_OVERLAP);
    EXPECT(refusal.place == 0);
    arguments[3] = rvvbox_buffer(words + 4095, 1);
    refuses_run(RVVBOX_OVERLAP);
    arguments[3] = rvvbox_read(words + 100, 0);
    arguments[4] = rvvbox_read(words + 4096, 1);
    refuses_run(RVVBOX_WRONG_KIND);
    EXPECT(refusal.place == 3);
    arguments[3] = rvvbox_read(before, 8);
    arguments[4] = rvvbox_read(before + 4, 8);
    refuses_run(RVVBOX_WRONG_KIND);
    arguments[3] = arguments[4] = rvvbox_scalar(0);
    arguments[3].kind = arguments[4].kind = RVVBOX_NONE;
}

/* Eight places that name no bytes lie apart, and another number of places is refused */
static void places(void) {
    struct rvvbox_place none[RVVBOX_PLACES] = {{.kind = RVVBOX_NONE}};
    EXPECT(rvvbox_apart(none, RVVBOX_PLACES, &refusal) == RVVBOX_DONE && refusal.status == RVVBOX_DONE);
    EXPECT(rvvbox_apart(none, RVVBOX_PLACES - 1, &refusal) == RVVBOX_BAD_COUNT && refusal.status == RVVBOX_BAD_COUNT);
}

/* What a kernel tells of itself */
static void told(void) {
    struct rvvbox_parameter parameters[8];
    struct rvvbox_budget budget;
    struct rvvbox_bound bound;
    struct rvvbox_scalars scalars = {.a1 = 1000};
    EXPECT(rvvbox_vlen_of(kernel) == 128);
    EXPECT(rvvbox_parameters_of(kernel, parameters, 7) == RVVBOX_BAD_COUNT);
    EXPECT(rvvbox_parameters_of(kernel, parameters, 8) == RVVBOX_DONE);
    EXPECT(parameters[0].kind == RVVBOX_BUFFER && parameters[0].size == 4096);
    EXPECT(parameters[1].kind == RVVBOX_SCALAR && parameters[1].lo == 0 && parameters[1].hi == 1024 && parameters[2].kind == RVVBOX_NONE);
    EXPECT(rvvbox_bound_of(kernel, &scalars, &bound) == RVVBOX_DONE && bound.low == 8002 && bound.high == 0);
    EXPECT(rvvbox_budget_of(kernel, &budget) == RVVBOX_DONE && budget.constant + 1000ull * budget.factor == 8002 && budget.number == 11);
}

static uint32_t tries(uint64_t most, struct rvvbox_stopped *stopped) {
    struct rvvbox_setting setting = {.vlen = 128, .agnostic = 0, .max = most};
    uint32_t status = rvvbox_try(image, size, &setting, arguments, stopped, &refusal);
    EXPECT(refusal.status == status);
    return status;
}

/* The kernel is tried; a place that is only read stays as it is, and what is stored there is a fault */
static void tried(void) {
    struct rvvbox_stopped stopped;
    struct rvvbox_setting setting = {.vlen = 64};
    EXPECT(rvvbox_try(image, size, &setting, arguments, &stopped, NULL) == RVVBOX_BAD_VLEN);
    arguments[0] = rvvbox_read(words, sizeof words);
    EXPECT(tries(10000, &stopped) == RVVBOX_TRAPPED);
    EXPECT(stopped.fault == 4 && stopped.number == 0x40000000 && !memcmp(words, before, sizeof words));
    put(arguments);
    EXPECT(tries(2001, &stopped) == RVVBOX_OUT_OF_STEPS && stopped.steps == 2001);
    memcpy(words, before, sizeof words);
    EXPECT(tries(2002, &stopped) == RVVBOX_DONE && stopped.steps == 2002);
    EXPECT(!memcmp(words, expected, sizeof words));
    memcpy(words, before, sizeof words);
}

/* What is only read stays as it is, though the kernel writes to its copy */
static void read_alone(void) {
    arguments[0] = rvvbox_read(words, sizeof words);
    EXPECT(rvvbox_run(kernel, arguments, 0, max, &steps, NULL) == RVVBOX_DONE && steps == 2002 && !memcmp(words, before, sizeof words));
    put(arguments);
}

/* Two runs, of which the first is refused and the second is not */
static void two_runs(void) {
    struct rvvbox_ran runs[2];
    put(arguments + 8);
    arguments[1].value = 1025;
    EXPECT(rvvbox_run_many(kernel, arguments, 0, max, runs, 2, &refusal) == RVVBOX_SCALAR_OUT_OF_INTERVAL && refusal.place == 1);
    EXPECT(runs[0].status == RVVBOX_SCALAR_OUT_OF_INTERVAL && runs[1].status == RVVBOX_DONE && runs[1].steps == 2002);
    EXPECT(!memcmp(words, expected, sizeof words));
    memcpy(words, before, sizeof words);
    put(arguments);
}

/* What is told of a refusal, as much of it as there is room for; and how much there is; of what is accepted nothing, and where nothing can be told all stays */
static void explained(void) {
    static const char wanted[] =
        "  the certificate is for another vector length\n  stated: VLEN 128\n  wanted: VLEN 256\n";
    static const char shorter[] = "  the file is shorter than an ELF header\n  size of the file: 51\n";
    char text[256], kept[256];
    size_t needed = 7, size_told = sizeof wanted - 1;
    memset(kept, '.', sizeof kept);
    memcpy(text, kept, sizeof text);
    EXPECT(rvvbox_explain(image, size, 127, text, sizeof text, &needed) == RVVBOX_BAD_VLEN && needed == 7);
    EXPECT(rvvbox_explain(image, size, 128, text, sizeof text, &needed) == RVVBOX_DONE && needed == 0);
    EXPECT(!memcmp(text, kept, sizeof text));
    EXPECT(rvvbox_explain(image, size, 256, NULL, 0, &needed) == RVVBOX_DONE && needed == size_told);
    EXPECT(rvvbox_explain(image, size, 256, text, 10, &needed) == RVVBOX_DONE && needed == size_told);
    EXPECT(!memcmp(text, wanted, 10) && !memcmp(text + 10, kept, sizeof text - 10));
    EXPECT(rvvbox_explain(image, size, 256, text, sizeof text, &needed) == RVVBOX_DONE && needed == size_told);
    EXPECT(!memcmp(text, wanted, size_told) && !memcmp(text + size_told, kept, sizeof text - size_told));
    EXPECT(rvvbox_explain(image, 51, 128, text, sizeof text, &needed) == RVVBOX_DONE && !memcmp(text, shorter, sizeof shorter - 1));
    memcpy(text, kept, sizeof text);
    for (long given = 0;; given++) {
        needed = 7;
        refused = given;
        uint32_t status = rvvbox_explain(image, size, 256, text, sizeof text, &needed);
        int was_refused = refused < 0;
        refused = -1;
        if (!was_refused) break;
        EXPECT(status == RVVBOX_NO_MEMORY && needed == 7 && !memcmp(text, kept, sizeof text));
    }
    EXPECT(needed == size_told && !memcmp(text, wanted, size_told));
}

static uint8_t bare[4096], made[4096];
static size_t bare_size, needed;

/* Where the certificate of the image lies: behind the name of its note, whose padded length is 8 */
static const uint8_t *certificate_in(size_t *length) {
    size_t at = 0;
    while (memcmp(image + at, "RVVBOX", 6)) at++;
    *length = image[at - 8] + 256u * image[at - 7];
    return image + at + 8;
}

/* The certificate of the image, attached to the image without one, gives that image, or as much of it as there is room for */
static void attached(void) {
    size_t length;
    bare_size = read_file("bare.elf", bare);
    needed = 7;
    const uint8_t *certificate = certificate_in(&length);
    memset(made, 7, sizeof made);
    EXPECT(rvvbox_attach(image, size, certificate, length, made, 9, &needed, &refusal) == RVVBOX_IMAGE && needed == 7 && made[0] == 7);
    EXPECT(refusal.rule == RVVBOX_IMAGE_CERTIFICATE_THERE);
    EXPECT(rvvbox_attach(bare, 51, certificate, length, made, 9, &needed, NULL) == RVVBOX_IMAGE && needed == 7 && made[0] == 7);
    refused = 0;
    EXPECT(rvvbox_attach(bare, bare_size, certificate, length, made, 9, &needed, &refusal) == RVVBOX_NO_MEMORY && needed == 7);
    EXPECT(refused == -1 && made[0] == 7);
    EXPECT(rvvbox_attach(bare, bare_size, certificate, length, made, 9, &needed, &refusal) == RVVBOX_DONE && needed == size);
    EXPECT(!memcmp(made, image, 9) && made[9] == 7 && refusal.status == RVVBOX_DONE);
    EXPECT(rvvbox_attach(bare, bare_size, certificate, length, made, sizeof made, &needed, NULL) == RVVBOX_DONE && needed == size);
    EXPECT(!memcmp(made, image, size) && made[size] == 7);
}

/* A check refuses these bytes as a certificate, by this rule and after so many of them; and so does an acceptance, or for want of memory */
static void refuses_certificate(const uint8_t *certificate, size_t length, uint32_t rule, size_t offset) {
    struct rvvbox_kernel *one = NULL;
    EXPECT(rvvbox_attach(bare, bare_size, certificate, length, made, sizeof made, &needed, NULL) == RVVBOX_DONE);
    memset(&refusal, 0x55, sizeof refusal);
    EXPECT(rvvbox_check(made, needed, 128, &refusal) == RVVBOX_CERTIFICATE && refusal.status == RVVBOX_CERTIFICATE);
    EXPECT(refusal.rule == rule && refusal.offset == offset && refusal.address == 0 && refusal.place == 0 && refusal.reserved == 0);
    for (long given = 0;; given++) {
        refused = given;
        uint32_t status = rvvbox_accept(made, needed, 128, &one, &refusal);
        int was_refused = refused < 0;
        refused = -1;
        EXPECT(!one && refusal.status == status);
        if (status == RVVBOX_CERTIFICATE) EXPECT(refusal.rule == rule && refusal.offset == offset);
        else EXPECT(was_refused && status == RVVBOX_NO_MEMORY && refusal.offset == 0);
        if (!was_refused) break;
    }
}

/* Of a certificate that is cut all bytes are read, and of one with a wrong field those up to the end of that */
static void read_so_far(void) {
    static const struct { size_t at; uint32_t rule, offset; } wrong[] = {
        {0, RVVBOX_CERTIFICATE_VERSION, 2}, {1, RVVBOX_CERTIFICATE_VERSION, 2}, {2, RVVBOX_CERTIFICATE_VERSION, 3},
        {3, RVVBOX_CERTIFICATE_VERSION, 4}, {4, RVVBOX_CERTIFICATE_PARAMETER, 5}, {101, RVVBOX_CERTIFICATE_TOO_MANY, 102}};
    uint8_t bytes[1024];
    size_t length;
    const uint8_t *certificate = certificate_in(&length);
    EXPECT(length < sizeof bytes);
    for (size_t cut = 0; cut < length; cut++) refuses_certificate(certificate, cut, RVVBOX_CERTIFICATE_SHORT, cut);
    for (size_t n = 0; n < sizeof wrong / sizeof *wrong; n++) {
        memcpy(bytes, certificate, length);
        bytes[wrong[n].at] = 9;
        refuses_certificate(bytes, length, wrong[n].rule, wrong[n].offset);
    }
    memcpy(bytes, certificate, length);
    bytes[length] = bytes[length + 1] = 0;
    refuses_certificate(bytes, length + 2, RVVBOX_CERTIFICATE_TRAILING_BYTES, length + 1);
}

static struct rvvbox_parameter takes[8] = {{.kind = RVVBOX_BUFFER, .size = 4096}, {.kind = RVVBOX_SCALAR, .hi = 1024}};

/* A certificate is made for so many bytes of a file, with room for `room` bytes */
static uint32_t makes(const uint8_t *file, size_t file_size, uint32_t vlen, size_t room) {
    memset(made, 7, sizeof made);
    memset(&refusal, 0x55, sizeof refusal);
    needed = 7;
    uint32_t status = rvvbox_make(file, file_size, vlen, takes, room ? made : NULL, room, &needed, &refusal);
    EXPECT(refusal.status == status && refusal.offset == 0 && refusal.bound.low == 0 && refusal.bound.high == 0 && refusal.reserved == 0);
    EXPECT(made[room] == 7 && (status == RVVBOX_DONE ? needed == size : needed == 7 && made[0] == 7));
    return status;
}

/* None is made where this parameter stands at a place */
static void refuses_parameter(struct rvvbox_parameter parameter, uint32_t status, size_t place) {
    struct rvvbox_parameter kept = takes[place];
    takes[place] = parameter;
    EXPECT(makes(bare, bare_size, 128, 4000) == status && refusal.place == place && refusal.rule == 0 && refusal.address == 0);
    takes[place] = kept;
}

/* The certificate that is made of the image without one gives the image; what is refused, and memory too, leaves all as it was */
static void made_of_its_loop(void) {
    bare_size = read_file("bare.elf", bare);
    EXPECT(makes(bare, bare_size, 127, 4000) == RVVBOX_BAD_VLEN && refusal.rule == 0 && refusal.address == 0 && refusal.place == 0);
    refuses_parameter((struct rvvbox_parameter){.kind = 4}, RVVBOX_BAD_KIND, 7);
    refuses_parameter((struct rvvbox_parameter){.kind = RVVBOX_SCALAR, .lo = 1025, .hi = 1024}, RVVBOX_BAD_PARAMETER, 1);
    refuses_parameter((struct rvvbox_parameter){.kind = RVVBOX_READ, .size = (1u << 24) + 1}, RVVBOX_BAD_PARAMETER, 2);
    EXPECT(makes(bare, 51, 128, 4000) == RVVBOX_IMAGE && refusal.rule == RVVBOX_IMAGE_TOO_SHORT && refusal.place == 0);
    EXPECT(makes(image, size, 128, 4000) == RVVBOX_IMAGE && refusal.rule == RVVBOX_IMAGE_CERTIFICATE_THERE);
    takes[0].size = 4095;
    EXPECT(makes(bare, bare_size, 128, 4000) == RVVBOX_NOT_A_LOOP && refusal.address == 0x10008 && refusal.rule == 0);
    takes[0].size = 4096;
    for (long given = 0;; given++) {
        refused = given;
        uint32_t status = makes(bare, bare_size, 128, 4000);
        int was_refused = refused < 0;
        refused = -1;
        if (!was_refused) break;
        EXPECT(status == RVVBOX_NO_MEMORY);
    }
    EXPECT(!memcmp(made, image, size) && made[size] == 7);
    EXPECT(makes(bare, bare_size, 128, 9) == RVVBOX_DONE && !memcmp(made, image, 9));
    EXPECT(makes(bare, bare_size, 128, 0) == RVVBOX_DONE);
}

static uint32_t accept(uint32_t vlen, struct rvvbox_kernel **out) {
    refusal.status = 77;
    uint32_t status = rvvbox_accept(image, size, vlen, out, &refusal);
    EXPECT(refusal.status == status);
    return status;
}

/* The kernel runs, and leaves the words as they were expected */
static void runs_well(struct rvvbox_kernel *one) {
    EXPECT(rvvbox_run(one, arguments, 0, max, &steps, &refusal) == RVVBOX_DONE);
    EXPECT(steps == 2002 && refusal.status == RVVBOX_DONE && !memcmp(words, expected, sizeof words));
    memcpy(words, before, sizeof words);
}

/* Lets go a kernel, for which no memory is asked for */
static void let_go(struct rvvbox_kernel *one) {
    refused = 0;
    rvvbox_free(one);
    EXPECT(refused == 0);
    refused = -1;
}

/* An image is accepted and run twice; what is refused leaves the place for the kernel as it is, and nothing is let go of NULL */
static void kept(void) {
    struct rvvbox_kernel *one = NULL, *first;
    let_go(NULL);
    EXPECT(rvvbox_accept(image, 51, 128, &one, &refusal) == RVVBOX_IMAGE && refusal.rule == RVVBOX_IMAGE_TOO_SHORT && !one);
    EXPECT(accept(128, &one) == RVVBOX_DONE && one);
    first = one;
    EXPECT(accept(256, &one) == RVVBOX_CHECK && one == first);
    runs_well(one);
    runs_well(one);
    EXPECT(accept(128, &one) == RVVBOX_DONE);
    runs_well(one);
    let_go(one);
}

/* Kernels of one image serve one by one, in whatever order they are let go, and the place of another is taken with its kernel let go */
static void shared(void) {
    struct rvvbox_kernel *one = NULL, *second = NULL, *third = NULL;
    EXPECT(accept(128, &one) == RVVBOX_DONE && accept(128, &third) == RVVBOX_DONE);
    EXPECT(rvvbox_share(one, &second) == RVVBOX_DONE && second && second != one);
    EXPECT(rvvbox_share(second, &third) == RVVBOX_DONE);
    let_go(one);
    runs_well(second);
    let_go(second);
    runs_well(third);
    let_go(third);
}

/* Each allocation of an acceptance, of a share and of a run is refused once: want of memory in that call, and words as they were. The
 * kernels can be used afterwards, in the same way as if nothing had been refused, until they are let go */
static void want_of_memory_of_kernels(void) {
    long given = 0, in_shares = 0, in_runs = 0;
    for (int was_refused = 1; was_refused; given++) {
        struct rvvbox_kernel *one = NULL, *second = NULL;
        refused = given;
        uint32_t accepted = accept(128, &one);
        if (accepted == RVVBOX_NO_MEMORY) {
            EXPECT(!one && accept(128, &one) == RVVBOX_DONE);
        }
        uint32_t taken = rvvbox_share(one, &second);
        if (taken == RVVBOX_NO_MEMORY) {
            in_shares++;
            EXPECT(!second && rvvbox_share(one, &second) == RVVBOX_DONE);
        }
        steps = 7;
        uint32_t ran = rvvbox_run(second, arguments, 0, max, &steps, &refusal);
        was_refused = refused < 0;
        refused = -1;
        if (ran == RVVBOX_NO_MEMORY) {
            in_runs++;
            EXPECT(steps == 7 && !memcmp(words, before, sizeof words));
        }
        EXPECT(was_refused == (accepted != RVVBOX_DONE || taken != RVVBOX_DONE || ran != RVVBOX_DONE));
        memcpy(words, before, sizeof words);
        runs_well(one);
        runs_well(second);
        let_go(one);
        let_go(second);
    }
    EXPECT(in_shares > 1 && in_runs > 2 && given > in_shares + in_runs + 2);
}

/* Each allocation of an acceptance is refused once, while the place has a kernel: it keeps that one, which runs as before */
static void want_of_memory_in_place(void) {
    struct rvvbox_kernel *one = NULL;
    EXPECT(accept(128, &one) == RVVBOX_DONE);
    for (long given = 0;; given++) {
        struct rvvbox_kernel *first = one;
        refused = given;
        uint32_t accepted = accept(128, &one);
        int was_refused = refused < 0;
        refused = -1;
        if (!was_refused) break;
        EXPECT(accepted == RVVBOX_NO_MEMORY && one == first);
        runs_well(one);
    }
    runs_well(one);
    let_go(one);
}

/* Each allocation of a try is refused once: want of memory, and nothing changed. Then none is refused, and the run has ended */
static void want_of_memory_in_a_try(void) {
    struct rvvbox_stopped stopped;
    for (long given = 0;; given++) {
        refused = given;
        uint32_t status = tries(max, &stopped);
        int was_refused = refused < 0;
        refused = -1;
        if (!was_refused) break;
        EXPECT(status == RVVBOX_NO_MEMORY && !memcmp(words, before, sizeof words));
    }
    EXPECT(stopped.steps == 2002 && !memcmp(words, expected, sizeof words));
    memcpy(words, before, sizeof words);
}

int main(void) {
    size = read_file("raise_words.elf", image);
    read_file("a.bin", before);
    read_file("expected.bin", expected);
    memcpy(words, before, sizeof words);
    put(arguments);
    wrong_images();
    EXPECT(accept(128, &kernel) == RVVBOX_DONE);
    wrong_arguments();
    overlaps();
    places();
    told();
    tried();
    read_alone();
    explained();
    attached();
    read_so_far();
    made_of_its_loop();
    two_runs();
    kept();
    shared();
    want_of_memory_of_kernels();
    want_of_memory_in_place();
    want_of_memory_in_a_try();
    let_go(kernel);
    return 0;
}
