/* rvvbox: certified RISC-V vector kernels on a host's memory.
 *
 * Link librvvbox_c.a and the kit's liblibc_c.a, which calls the program's malloc, realloc and free. docs/EMBEDDING.md tells what a
 * caller owes. No call keeps a pointer to the caller's memory. Any number of threads may call at once, if no two of them pass the same
 * kernel or session, or memory that one of them writes. Where a length is 0, its pointer may be NULL. `refusal` may be NULL.
 *
 * The numbers of statuses, of rules and of kinds, once given, stay, and new ones come after them. Where the first part of the version is
 * the same, so are the structs and the calls; fields that are `reserved` are 0. The library is for machines of 64 bits. */
#ifndef RVVBOX_H
#define RVVBOX_H

#include <stddef.h>
#include <stdint.h>

#ifdef __cplusplus
extern "C" {
#endif

/* How the functions are declared that stand here whole. The library to install has them once more, for hosts without C's inline. */
#ifndef RVVBOX_INLINE
#define RVVBOX_INLINE static inline
#endif

#define RVVBOX_VERSION_MAJOR 2u
#define RVVBOX_VERSION_MINOR 2u

/* The places of a kernel's arguments, from 0 on: a0 to a7. */
#define RVVBOX_PLACES 8

/* What a call answers. */
enum rvvbox_status {
    RVVBOX_DONE = 0,                   /* the image is accepted, or the run has ended */
    RVVBOX_NO_MEMORY = 1,              /* malloc refused; nothing is kept, and nothing was changed */
    RVVBOX_BAD_VLEN = 2,               /* a length of registers that is not 128, 256 or 512 */
    RVVBOX_BAD_AGNOSTIC = 3,           /* a setting that is not 0 or 1 */
    RVVBOX_BAD_COUNT = 4,              /* not eight of what there is to be for each place */
    RVVBOX_BAD_KIND = 5,               /* an argument of no kind */
    RVVBOX_BAD_RANGE = 6,              /* bytes that are not there: at NULL, beyond the end of memory, or in none of a session's */
    RVVBOX_TOO_LARGE = 7,              /* buffers beyond what a try allows */
    RVVBOX_IMAGE = 8,                  /* the bytes spell no image */
    RVVBOX_NO_CERTIFICATE = 9,         /* the image has no certificate */
    RVVBOX_CERTIFICATE = 10,           /* its certificate can't be read */
    RVVBOX_CHECK = 11,                 /* the check refuses both */
    RVVBOX_WRONG_KIND = 12,            /* an argument of another kind than the parameter */
    RVVBOX_SCALAR_OUT_OF_INTERVAL = 13,
    RVVBOX_WRONG_SIZE = 14,            /* a buffer of another size than the parameter says */
    RVVBOX_BOUND_TOO_LARGE = 15,       /* the run may take more than `max` steps */
    RVVBOX_WRONG_VLEN = 16,            /* accepted for another length of registers */
    RVVBOX_TRAPPED = 17,               /* a tried run met a fault */
    RVVBOX_OUT_OF_STEPS = 18,          /* a tried run did `max` steps and has not ended */
    RVVBOX_NOTHING_KEPT = 19,          /* the session is closed; or another call has it or the kernel now, which a caller may not do */
    RVVBOX_OVERLAP = 20,               /* an argument that is put back shares bytes with another */
    RVVBOX_BAD_PARAMETER = 21,         /* a parameter whose lo is above its hi, or a buffer of more than 16 MiB */
    RVVBOX_NOT_A_LOOP = 22             /* no certificate is made of the words from the entry on */
};

/* The rule that an image breaks, of RVVBOX_IMAGE. */
enum rvvbox_image_rule {
    RVVBOX_IMAGE_TOO_SHORT = 1,
    RVVBOX_IMAGE_BAD_MAGIC = 2,
    RVVBOX_IMAGE_BAD_CLASS = 3,
    RVVBOX_IMAGE_BAD_TYPE = 4,
    RVVBOX_IMAGE_BAD_MACHINE = 5,
    RVVBOX_IMAGE_BAD_FLAGS = 6,
    RVVBOX_IMAGE_BAD_HEADER_TABLE = 7,
    RVVBOX_IMAGE_NOT_STATIC = 8,
    RVVBOX_IMAGE_SEGMENT_OUT_OF_FILE = 9,
    RVVBOX_IMAGE_SEGMENT_OUT_OF_PLACE = 10,
    RVVBOX_IMAGE_SEGMENTS_OVERLAP = 11,
    RVVBOX_IMAGE_WRITE_AND_EXECUTE = 12,
    RVVBOX_IMAGE_TOO_LARGE = 13,
    RVVBOX_IMAGE_ENTRY_NOT_CODE = 14,
    RVVBOX_IMAGE_TWO_CERTIFICATES = 15,
    RVVBOX_IMAGE_CERTIFICATE_THERE = 16
};

/* The rule that a certificate's bytes break, of RVVBOX_CERTIFICATE. No rule is 10. */
enum rvvbox_certificate_rule {
    RVVBOX_CERTIFICATE_SHORT = 1,
    RVVBOX_CERTIFICATE_VERSION = 2,
    RVVBOX_CERTIFICATE_PARAMETER = 3,
    RVVBOX_CERTIFICATE_BLOCK_ORDER = 4,
    RVVBOX_CERTIFICATE_FACT = 5,
    RVVBOX_CERTIFICATE_EQUALITY = 6,
    RVVBOX_CERTIFICATE_BUDGET = 7,
    RVVBOX_CERTIFICATE_TRAILING_BYTES = 8,
    RVVBOX_CERTIFICATE_TOO_MANY = 9,
    RVVBOX_CERTIFICATE_ORDER = 11
};

/* The rule at which the check stops, of RVVBOX_CHECK. No rule is 14. */
enum rvvbox_check_rule {
    RVVBOX_CHECK_WRONG_VLEN = 1,
    RVVBOX_CHECK_NO_ENTRY_BLOCK = 2,
    RVVBOX_CHECK_NOT_CODE = 3,
    RVVBOX_CHECK_ILLEGAL_WORD = 4,
    RVVBOX_CHECK_VTYPE_UNKNOWN = 5,
    RVVBOX_CHECK_ACCESS_NOT_PROVED = 6,
    RVVBOX_CHECK_READ_ONLY = 7,
    RVVBOX_CHECK_TARGET_NOT_A_BLOCK = 8,
    RVVBOX_CHECK_INTERVAL_NOT_PROVED = 9,
    RVVBOX_CHECK_EQUALITY_NOT_PROVED = 10,
    RVVBOX_CHECK_VECTOR_FACT_NOT_PROVED = 11,
    RVVBOX_CHECK_BUDGET_NOT_PROVED = 12,
    RVVBOX_CHECK_BLOCK_TOO_LONG = 13,
    RVVBOX_CHECK_ORDER_NOT_PROVED = 15
};

/* high * 2^64 + low steps. */
struct rvvbox_bound {
    uint64_t low;
    uint64_t high;
};

/* Why a call is refused. What there is not is 0. */
struct rvvbox_refusal {
    uint32_t status;                   /* the answer of the call */
    uint32_t rule;                     /* of an image, a certificate or a check: the rule above */
    uint32_t address;                  /* of RVVBOX_CHECK: the word at which it stopped; of RVVBOX_NOT_A_LOOP: the first that does not fit */
    uint32_t offset;                   /* of RVVBOX_CERTIFICATE: how many bytes of it were read when they broke the rule */
    size_t place;                      /* of an argument or a parameter: its place, from 0 on */
    struct rvvbox_bound bound;         /* of RVVBOX_BOUND_TOO_LARGE: the most steps of the run */
    uint64_t reserved;
};

/* What stands at a place. */
enum rvvbox_kind {
    RVVBOX_NONE = 0,
    RVVBOX_SCALAR = 1,                 /* the number `value` */
    RVVBOX_BUFFER = 2,                 /* `size` bytes, put back after the run */
    RVVBOX_READ = 3                    /* as RVVBOX_BUFFER, and never put back: other threads may read them too */
};

/* What a run is passed at a place. An argument of RVVBOX_BUFFER shares no byte with another. */
struct rvvbox_argument {
    uint32_t kind;
    uint32_t value;
    void *bytes;
    size_t size;
};

/* What a kernel takes at a place: a number from lo to hi, or a buffer of `size` bytes. */
struct rvvbox_parameter {
    uint32_t kind;
    uint32_t lo;
    uint32_t hi;
    uint32_t size;
};

/* The numbers at the eight places. */
struct rvvbox_scalars {
    uint32_t a0, a1, a2, a3, a4, a5, a6, a7;
};

/* The most steps of a run: constant, and factor for each one in a register's value at its start, and the same of a second register. */
struct rvvbox_budget {
    uint32_t constant;
    uint32_t factor;
    uint32_t number;                   /* of the register: 10 is a0 */
    uint32_t second_factor;
    uint32_t second_number;
    uint32_t reserved;
};

/* What came of one run. */
struct rvvbox_ran {
    uint32_t status;
    uint32_t reserved;
    uint64_t steps;
};

/* How an image is tried. */
struct rvvbox_setting {
    uint32_t vlen;                     /* bits of a vector register: 128, 256 or 512 */
    uint32_t agnostic;                 /* agnostic elements: 0 keeps them, 1 fills them with ones */
    uint64_t max;                      /* the most steps that a run may take */
};

/* Where a tried run stopped: the fault of the next step (0 none, 1 an illegal word, 2 a fetch, 3 a load, 4 a store, 5 a jump to no
 * multiple of 4) with its word or address, pc, and the steps done. */
struct rvvbox_stopped {
    uint32_t fault;
    uint32_t number;
    uint32_t pc;
    uint32_t reserved;
    uint64_t steps;
};

/* A kernel: an accepted image, kept for many runs. The library makes each, and rvvbox_free lets it go. A kernel may go from thread to
 * thread, and each has one call at a time: a thread that runs while others do has one of its own, by rvvbox_share. */
struct rvvbox_kernel;

/* How far a session is: whether its run has ended (1) or not (0), and the steps done since it was opened. */
struct rvvbox_progress {
    uint32_t ended;
    uint32_t reserved;
    uint64_t steps;
};

/* The registers of a session's run as they stand, whether it has ended (1) or not (0), and the steps done since it was opened. */
struct rvvbox_registers {
    uint32_t pc;
    uint32_t vl;
    uint32_t vtype;                    /* with vill at bit 31 */
    uint32_t vxrm;
    uint32_t vxsat;
    uint32_t ended;
    uint32_t x[32];
    uint64_t steps;
};

/* A session: a run that stands still between two calls. rvvbox_open makes each, and rvvbox_drop lets it go. It has copies of what it was
 * opened on, so kernel and arguments may go before it does. It may go from thread to thread, and has one call at a time. */
struct rvvbox_session;

/* ---- What the library has. */

/* The version of the library, major * 65536 + minor. A host can use one of the same RVVBOX_VERSION_MAJOR, and of the same
 * RVVBOX_VERSION_MINOR or a higher. */
uint32_t rvvbox_version(void);

/* Puts one more kernel of the same image into `*out`, as rvvbox_accept does, and checks and copies nothing. */
uint32_t rvvbox_share(struct rvvbox_kernel *kernel, struct rvvbox_kernel **out);

/* Lets go a kernel, or does nothing where it is NULL. */
void rvvbox_free(struct rvvbox_kernel *kernel);

/* The bits of a vector register that the kernel was accepted for, or 0 where another call has the kernel. */
uint32_t rvvbox_vlen_of(struct rvvbox_kernel *kernel);

/* Tells what the kernel takes at the eight places, where the answer is RVVBOX_DONE. `count` is 8. */
uint32_t rvvbox_parameters_of(struct rvvbox_kernel *kernel, struct rvvbox_parameter *parameters, size_t count);

/* Tells how many steps a run of the kernel takes at most, by its registers. `budget` is set where the answer is RVVBOX_DONE. */
uint32_t rvvbox_budget_of(struct rvvbox_kernel *kernel, struct rvvbox_budget *budget);

/* Tells the most steps of a run of the kernel with these scalars. `bound` is set where the answer is RVVBOX_DONE. */
uint32_t rvvbox_bound_of(struct rvvbox_kernel *kernel, const struct rvvbox_scalars *scalars, struct rvvbox_bound *bound);

/* Goes on with a session for at most `most` steps, and less only where the run ends; one that has ended stays as it is. `progress` is set
 * where the answer is RVVBOX_DONE. No memory is asked for, and the bound of the run limits the steps of all calls. */
uint32_t rvvbox_go_on(struct rvvbox_session *session, uint64_t most, struct rvvbox_progress *progress);

/* Tells the registers of a session. `registers` is set where the answer is RVVBOX_DONE. */
uint32_t rvvbox_registers_of(struct rvvbox_session *session, struct rvvbox_registers *registers);

/* Tells the byte at an address of a session's memory, whatever the rights. `byte` is set where the answer is RVVBOX_DONE. */
uint32_t rvvbox_byte_of(struct rvvbox_session *session, uint32_t address, uint8_t *byte);

/* Lets go a session wherever its run stands, or does nothing where it is NULL. */
void rvvbox_drop(struct rvvbox_session *session);

/* ---- The same, of pointers that are never NULL, and of arguments taken apart: the functions below call these. */

/* The kind and the number of an argument, and those of all eight. */
struct rvvbox_form {
    uint32_t kind;
    uint32_t value;
};

struct rvvbox_forms {
    struct rvvbox_form a0, a1, a2, a3, a4, a5, a6, a7;
};

/* Where an argument lies in memory, by number. */
struct rvvbox_place {
    uint32_t kind;
    uint32_t value;
    size_t from;
    size_t size;
};

/* What a kernel is to take at the places. */
struct rvvbox_takes {
    struct rvvbox_parameter a0, a1, a2, a3, a4, a5, a6, a7;
};

/* Bytes for each place: those that are read, and those that are put back. */
#define RVVBOX_READS const uint8_t *r0, size_t r0_size, const uint8_t *r1, size_t r1_size, const uint8_t *r2, size_t r2_size, \
    const uint8_t *r3, size_t r3_size, const uint8_t *r4, size_t r4_size, const uint8_t *r5, size_t r5_size, const uint8_t *r6, \
    size_t r6_size, const uint8_t *r7, size_t r7_size
#define RVVBOX_WRITES uint8_t *b0, size_t b0_size, uint8_t *b1, size_t b1_size, uint8_t *b2, size_t b2_size, uint8_t *b3, \
    size_t b3_size, uint8_t *b4, size_t b4_size, uint8_t *b5, size_t b5_size, uint8_t *b6, size_t b6_size, uint8_t *b7, size_t b7_size

uint32_t rvvbox_apart(const struct rvvbox_place *places, size_t count, struct rvvbox_refusal *refusal);
uint32_t rvvbox_check_raw(const uint8_t *image, size_t image_size, uint32_t vlen, struct rvvbox_refusal *refusal);
uint32_t rvvbox_accept_raw(const uint8_t *image, size_t image_size, uint32_t vlen, struct rvvbox_kernel **out,
                           struct rvvbox_refusal *refusal);
uint32_t rvvbox_explain_raw(const uint8_t *image, size_t image_size, uint32_t vlen, uint8_t *text, size_t text_size, size_t *needed);
uint32_t rvvbox_attach_raw(const uint8_t *image, size_t image_size, const uint8_t *certificate, size_t certificate_size, uint8_t *out,
                           size_t out_size, size_t *needed, struct rvvbox_refusal *refusal);
uint32_t rvvbox_make_raw(const uint8_t *image, size_t image_size, uint32_t vlen, const struct rvvbox_takes *takes, uint8_t *out,
                         size_t out_size, size_t *needed, struct rvvbox_refusal *refusal);
uint32_t rvvbox_run_raw(struct rvvbox_kernel *kernel, const struct rvvbox_forms *forms, uint32_t agnostic, uint64_t max, RVVBOX_READS,
                        RVVBOX_WRITES, uint64_t *steps, struct rvvbox_refusal *refusal);
uint32_t rvvbox_open_raw(struct rvvbox_kernel *kernel, const struct rvvbox_forms *forms, uint32_t agnostic, uint64_t max, RVVBOX_READS,
                         struct rvvbox_session **out, struct rvvbox_refusal *refusal);
uint32_t rvvbox_open_again_raw(struct rvvbox_kernel *kernel, const struct rvvbox_forms *forms, uint32_t agnostic, uint64_t max,
                               RVVBOX_READS, struct rvvbox_session *session, struct rvvbox_refusal *refusal);
uint32_t rvvbox_close_raw(struct rvvbox_session *session, const struct rvvbox_forms *forms, RVVBOX_WRITES,
                          struct rvvbox_refusal *refusal);
uint32_t rvvbox_try_raw(const uint8_t *image, size_t image_size, const struct rvvbox_setting *setting, const struct rvvbox_forms *forms,
                        RVVBOX_READS, RVVBOX_WRITES, struct rvvbox_stopped *stopped, struct rvvbox_refusal *refusal);

/* ---- What a host calls, in terms of these. */

/* A number, bytes that are put back, and bytes that are only read, as arguments. */
RVVBOX_INLINE struct rvvbox_argument rvvbox_scalar(uint32_t value) {
    struct rvvbox_argument made = {RVVBOX_SCALAR, 0, NULL, 0};
    made.value = value;
    return made;
}

RVVBOX_INLINE struct rvvbox_argument rvvbox_buffer(void *bytes, size_t size) {
    struct rvvbox_argument made = {RVVBOX_BUFFER, 0, NULL, 0};
    made.bytes = bytes;
    made.size = size;
    return made;
}

RVVBOX_INLINE struct rvvbox_argument rvvbox_read(const void *bytes, size_t size) {
    struct rvvbox_argument made = {RVVBOX_READ, 0, NULL, 0};
    made.bytes = (void *)(uintptr_t)bytes;
    made.size = size;
    return made;
}

/* A pointer, or where there is none that of a byte that is never used. */
static inline uint8_t *rvvbox_or_none(const void *bytes) {
    static uint8_t none;
    return bytes ? (uint8_t *)(uintptr_t)bytes : &none;
}

static inline uint8_t *rvvbox_bytes_if(uint32_t kind, const struct rvvbox_argument *argument) {
    return rvvbox_or_none(argument->kind == kind ? argument->bytes : NULL);
}

static inline size_t rvvbox_size_if(uint32_t kind, const struct rvvbox_argument *argument) {
    return argument->kind == kind ? argument->size : 0;
}

#define RVVBOX_OF(kind, arguments, place) rvvbox_bytes_if(kind, &(arguments)[place]), rvvbox_size_if(kind, &(arguments)[place])
#define RVVBOX_EIGHT(kind, arguments) RVVBOX_OF(kind, arguments, 0), RVVBOX_OF(kind, arguments, 1), RVVBOX_OF(kind, arguments, 2), \
    RVVBOX_OF(kind, arguments, 3), RVVBOX_OF(kind, arguments, 4), RVVBOX_OF(kind, arguments, 5), RVVBOX_OF(kind, arguments, 6), \
    RVVBOX_OF(kind, arguments, 7)

/* Bytes of either kind, at each place. */
#define RVVBOX_EITHER(arguments, place) \
    RVVBOX_OF((arguments)[place].kind == RVVBOX_READ ? RVVBOX_READ : RVVBOX_BUFFER, arguments, place)
#define RVVBOX_ALL(arguments) RVVBOX_EITHER(arguments, 0), RVVBOX_EITHER(arguments, 1), RVVBOX_EITHER(arguments, 2), \
    RVVBOX_EITHER(arguments, 3), RVVBOX_EITHER(arguments, 4), RVVBOX_EITHER(arguments, 5), RVVBOX_EITHER(arguments, 6), \
    RVVBOX_EITHER(arguments, 7)

static inline struct rvvbox_form rvvbox_form_of(const struct rvvbox_argument *argument) {
    struct rvvbox_form form = {argument->kind, argument->value};
    return form;
}

static inline struct rvvbox_forms rvvbox_forms_of(const struct rvvbox_argument *arguments) {
    struct rvvbox_forms forms;
    forms.a0 = rvvbox_form_of(&arguments[0]);
    forms.a1 = rvvbox_form_of(&arguments[1]);
    forms.a2 = rvvbox_form_of(&arguments[2]);
    forms.a3 = rvvbox_form_of(&arguments[3]);
    forms.a4 = rvvbox_form_of(&arguments[4]);
    forms.a5 = rvvbox_form_of(&arguments[5]);
    forms.a6 = rvvbox_form_of(&arguments[6]);
    forms.a7 = rvvbox_form_of(&arguments[7]);
    return forms;
}

/* Whether eight arguments name bytes that are there, and those that are put back lie apart from all others. */
static inline uint32_t rvvbox_named(const struct rvvbox_argument *arguments, struct rvvbox_refusal *refusal) {
    struct rvvbox_place places[RVVBOX_PLACES];
    for (int place = 0; place < RVVBOX_PLACES; place++) {
        places[place].kind = arguments[place].kind;
        places[place].value = arguments[place].value;
        places[place].from = (size_t)(uintptr_t)arguments[place].bytes;
        places[place].size = arguments[place].size;
    }
    return rvvbox_apart(places, RVVBOX_PLACES, refusal);
}

/* Checks the image, and answers the status. `refusal` tells why it is refused. */
RVVBOX_INLINE uint32_t rvvbox_check(const void *image, size_t image_size, uint32_t vlen, struct rvvbox_refusal *refusal) {
    struct rvvbox_refusal untold;
    return rvvbox_check_raw(rvvbox_or_none(image), image_size, vlen, refusal ? refusal : &untold);
}

/* Checks the image, and puts a kernel of it into `*out` where the answer is RVVBOX_DONE. Else `*out` is as it was. `*out` is NULL, or a
 * kernel, which is then let go. */
RVVBOX_INLINE uint32_t rvvbox_accept(const void *image, size_t image_size, uint32_t vlen, struct rvvbox_kernel **out,
                                     struct rvvbox_refusal *refusal) {
    struct rvvbox_refusal untold;
    return rvvbox_accept_raw(rvvbox_or_none(image), image_size, vlen, out, refusal ? refusal : &untold);
}

/* Checks the image, and puts into `text` why it is refused: lines that begin with two spaces and end in a newline, or as much of them
 * as there is room for, with no zero byte behind. `*needed` is how many bytes the whole text has, none where the image is accepted. Where
 * the answer is not RVVBOX_DONE, for want of memory or a length of registers that is none, both are as they were. */
RVVBOX_INLINE uint32_t rvvbox_explain(const void *image, size_t image_size, uint32_t vlen, char *text, size_t text_size,
                                      size_t *needed) {
    return rvvbox_explain_raw(rvvbox_or_none(image), image_size, vlen, rvvbox_or_none(text), text_size, needed);
}

/* Puts the image with a certificate's bytes in a note behind it into `out`, or as much of it as there is room for; `*needed` is how many
 * bytes all of it has, at most 4 MiB. The certificate is not read. Where the answer is not RVVBOX_DONE both are as they were. */
RVVBOX_INLINE uint32_t rvvbox_attach(const void *image, size_t image_size, const void *certificate, size_t certificate_size, void *out,
                                     size_t out_size, size_t *needed, struct rvvbox_refusal *refusal) {
    struct rvvbox_refusal untold;
    return rvvbox_attach_raw(rvvbox_or_none(image), image_size, rvvbox_or_none(certificate), certificate_size, rvvbox_or_none(out), out_size,
                             needed, refusal ? refusal : &untold);
}

/* Makes the certificate of a plain loop at the image's entry (docs/MAKE.md), which takes these eight parameters, and puts the image with it
 * into `out`, or as much of it as there is room for; `*needed` is how many bytes all of it has, at most 4 MiB. rvvbox_accept checks it.
 * Where the answer is not RVVBOX_DONE both are as they were. */
RVVBOX_INLINE uint32_t rvvbox_make(const void *image, size_t image_size, uint32_t vlen, const struct rvvbox_parameter *parameters,
                                   void *out, size_t out_size, size_t *needed, struct rvvbox_refusal *refusal) {
    struct rvvbox_refusal untold;
    struct rvvbox_takes takes;
    takes.a0 = parameters[0];
    takes.a1 = parameters[1];
    takes.a2 = parameters[2];
    takes.a3 = parameters[3];
    takes.a4 = parameters[4];
    takes.a5 = parameters[5];
    takes.a6 = parameters[6];
    takes.a7 = parameters[7];
    return rvvbox_make_raw(rvvbox_or_none(image), image_size, vlen, &takes, rvvbox_or_none(out), out_size, needed,
                           refusal ? refusal : &untold);
}

/* Runs the kernel once on eight arguments, with agnostic elements kept (0) or filled with ones (1). Where the answer is RVVBOX_DONE the
 * run has ended, within its bound, `max` and `*steps` steps, and each RVVBOX_BUFFER is as the kernel left it. Else all memory of the
 * caller is as it was, but for `refusal`. */
RVVBOX_INLINE uint32_t rvvbox_run(struct rvvbox_kernel *kernel, const struct rvvbox_argument *arguments, uint32_t agnostic, uint64_t max,
                                  uint64_t *steps, struct rvvbox_refusal *refusal) {
    struct rvvbox_refusal untold, *told = refusal ? refusal : &untold;
    struct rvvbox_forms forms = rvvbox_forms_of(arguments);
    uint32_t status = rvvbox_named(arguments, told);
    return status ? status : rvvbox_run_raw(kernel, &forms, agnostic, max, RVVBOX_EIGHT(RVVBOX_READ, arguments),
                                            RVVBOX_EIGHT(RVVBOX_BUFFER, arguments), steps, told);
}

/* Runs the kernel for each of `runs`, one run after another, each on the next eight arguments. What came of a run stands in its `runs`;
 * one that is refused changes nothing else. The answer is the first that is not RVVBOX_DONE, which `refusal` tells, or RVVBOX_DONE. */
RVVBOX_INLINE uint32_t rvvbox_run_many(struct rvvbox_kernel *kernel, const struct rvvbox_argument *arguments, uint32_t agnostic,
                                       uint64_t max, struct rvvbox_ran *runs, size_t count, struct rvvbox_refusal *refusal) {
    uint32_t first = RVVBOX_DONE;
    for (size_t run = 0; run < count; run++) {
        struct rvvbox_ran ran = {RVVBOX_DONE, 0, 0};
        ran.status = rvvbox_run(kernel, arguments + RVVBOX_PLACES * run, agnostic, max, &ran.steps, first ? NULL : refusal);
        if (!first) first = ran.status;
        runs[run] = ran;
    }
    return first;
}

/* Opens a run of the kernel on eight arguments, as rvvbox_run would do it, and puts a session of it into `*out` where the answer is
 * RVVBOX_DONE; no step is done yet. Else `*out` is as it was. `*out` is NULL, or a session of any kernel, which then has the new run in
 * place of its own. Where it was closed, its stack and the words that it knows are used again. */
RVVBOX_INLINE uint32_t rvvbox_open(struct rvvbox_kernel *kernel, const struct rvvbox_argument *arguments, uint32_t agnostic, uint64_t max,
                                   struct rvvbox_session **out, struct rvvbox_refusal *refusal) {
    struct rvvbox_refusal untold, *told = refusal ? refusal : &untold;
    struct rvvbox_forms forms = rvvbox_forms_of(arguments);
    uint32_t status = rvvbox_named(arguments, told);
    if (status) return status;
    if (*out) return rvvbox_open_again_raw(kernel, &forms, agnostic, max, RVVBOX_ALL(arguments), *out, told);
    return rvvbox_open_raw(kernel, &forms, agnostic, max, RVVBOX_ALL(arguments), out, told);
}

/* Puts the bytes of `size` addresses of a session's memory into `bytes`, where the answer is RVVBOX_DONE. Else all is as it was. */
RVVBOX_INLINE uint32_t rvvbox_peek(struct rvvbox_session *session, uint32_t address, void *bytes, size_t size) {
    uint8_t byte, *to = (uint8_t *)bytes;
    if (size > 0x100000000u - (uint64_t)address) return RVVBOX_BAD_RANGE;
    for (size_t at = 0; at < size; at++) {
        uint32_t status = rvvbox_byte_of(session, address + (uint32_t)at, &byte);
        if (status) return status;
    }
    for (size_t at = 0; at < size; at++) rvvbox_byte_of(session, address + (uint32_t)at, to + at);
    return RVVBOX_DONE;
}

/* Ends a session's run wherever it stands. Where the answer is RVVBOX_DONE, each RVVBOX_BUFFER is as the run has left it so far, and the
 * session is closed: it is let go next, or given to rvvbox_open for another run. A buffer has the size that stood at its place in
 * rvvbox_open, and one that is not to be put back may be left out. Else all is as it was, but for `refusal`. */
RVVBOX_INLINE uint32_t rvvbox_close(struct rvvbox_session *session, const struct rvvbox_argument *arguments,
                                    struct rvvbox_refusal *refusal) {
    struct rvvbox_refusal untold, *told = refusal ? refusal : &untold;
    struct rvvbox_forms forms = rvvbox_forms_of(arguments);
    uint32_t status = rvvbox_named(arguments, told);
    return status ? status : rvvbox_close_raw(session, &forms, RVVBOX_EIGHT(RVVBOX_BUFFER, arguments), told);
}

/* Runs any image once, accepted or not, with every test at each step. Buffers have at most 16 MiB. Where the answer is RVVBOX_DONE,
 * RVVBOX_TRAPPED or RVVBOX_OUT_OF_STEPS, `stopped` is set, and each RVVBOX_BUFFER is as it was when the run stopped. Else all is as it
 * was, but for `refusal`. */
RVVBOX_INLINE uint32_t rvvbox_try(const void *image, size_t image_size, const struct rvvbox_setting *setting,
                                  const struct rvvbox_argument *arguments, struct rvvbox_stopped *stopped,
                                  struct rvvbox_refusal *refusal) {
    struct rvvbox_refusal untold, *told = refusal ? refusal : &untold;
    struct rvvbox_forms forms = rvvbox_forms_of(arguments);
    uint32_t status = rvvbox_named(arguments, told);
    return status ? status : rvvbox_try_raw(rvvbox_or_none(image), image_size, setting, &forms, RVVBOX_EIGHT(RVVBOX_READ, arguments),
                                            RVVBOX_EIGHT(RVVBOX_BUFFER, arguments), stopped, told);
}

/* ---- Names, as they stand above without what is the same in all. */

#define RVVBOX_NAMED(name) case RVVBOX_##name: return #name;
#define RVVBOX_RULE(of, name) case RVVBOX_##of##_##name: return #name;

/* `BAD_VLEN` of RVVBOX_BAD_VLEN, and `UNKNOWN` of what is no status. */
RVVBOX_INLINE const char *rvvbox_status_name(uint32_t status) {
    switch ((enum rvvbox_status)status) {
        RVVBOX_NAMED(DONE) RVVBOX_NAMED(NO_MEMORY) RVVBOX_NAMED(BAD_VLEN) RVVBOX_NAMED(BAD_AGNOSTIC) RVVBOX_NAMED(BAD_COUNT)
        RVVBOX_NAMED(BAD_KIND) RVVBOX_NAMED(BAD_RANGE) RVVBOX_NAMED(TOO_LARGE) RVVBOX_NAMED(IMAGE) RVVBOX_NAMED(NO_CERTIFICATE)
        RVVBOX_NAMED(CERTIFICATE) RVVBOX_NAMED(CHECK) RVVBOX_NAMED(WRONG_KIND) RVVBOX_NAMED(SCALAR_OUT_OF_INTERVAL) RVVBOX_NAMED(WRONG_SIZE)
        RVVBOX_NAMED(BOUND_TOO_LARGE) RVVBOX_NAMED(WRONG_VLEN) RVVBOX_NAMED(TRAPPED) RVVBOX_NAMED(OUT_OF_STEPS) RVVBOX_NAMED(NOTHING_KEPT)
        RVVBOX_NAMED(OVERLAP) RVVBOX_NAMED(BAD_PARAMETER) RVVBOX_NAMED(NOT_A_LOOP)
    }
    return "UNKNOWN";
}

static inline const char *rvvbox_image_rule_name(uint32_t rule) {
    switch ((enum rvvbox_image_rule)rule) {
        RVVBOX_RULE(IMAGE, TOO_SHORT) RVVBOX_RULE(IMAGE, BAD_MAGIC) RVVBOX_RULE(IMAGE, BAD_CLASS) RVVBOX_RULE(IMAGE, BAD_TYPE)
        RVVBOX_RULE(IMAGE, BAD_MACHINE) RVVBOX_RULE(IMAGE, BAD_FLAGS) RVVBOX_RULE(IMAGE, BAD_HEADER_TABLE) RVVBOX_RULE(IMAGE, NOT_STATIC)
        RVVBOX_RULE(IMAGE, SEGMENT_OUT_OF_FILE) RVVBOX_RULE(IMAGE, SEGMENT_OUT_OF_PLACE) RVVBOX_RULE(IMAGE, SEGMENTS_OVERLAP)
        RVVBOX_RULE(IMAGE, WRITE_AND_EXECUTE) RVVBOX_RULE(IMAGE, TOO_LARGE) RVVBOX_RULE(IMAGE, ENTRY_NOT_CODE)
        RVVBOX_RULE(IMAGE, TWO_CERTIFICATES) RVVBOX_RULE(IMAGE, CERTIFICATE_THERE)
    }
    return "UNKNOWN";
}

static inline const char *rvvbox_certificate_rule_name(uint32_t rule) {
    switch ((enum rvvbox_certificate_rule)rule) {
        RVVBOX_RULE(CERTIFICATE, SHORT) RVVBOX_RULE(CERTIFICATE, VERSION) RVVBOX_RULE(CERTIFICATE, PARAMETER)
        RVVBOX_RULE(CERTIFICATE, BLOCK_ORDER) RVVBOX_RULE(CERTIFICATE, FACT) RVVBOX_RULE(CERTIFICATE, EQUALITY)
        RVVBOX_RULE(CERTIFICATE, BUDGET) RVVBOX_RULE(CERTIFICATE, TRAILING_BYTES) RVVBOX_RULE(CERTIFICATE, TOO_MANY)
        RVVBOX_RULE(CERTIFICATE, ORDER)
    }
    return "UNKNOWN";
}

static inline const char *rvvbox_check_rule_name(uint32_t rule) {
    switch ((enum rvvbox_check_rule)rule) {
        RVVBOX_RULE(CHECK, WRONG_VLEN) RVVBOX_RULE(CHECK, NO_ENTRY_BLOCK) RVVBOX_RULE(CHECK, NOT_CODE) RVVBOX_RULE(CHECK, ILLEGAL_WORD)
        RVVBOX_RULE(CHECK, VTYPE_UNKNOWN) RVVBOX_RULE(CHECK, ACCESS_NOT_PROVED) RVVBOX_RULE(CHECK, READ_ONLY)
        RVVBOX_RULE(CHECK, TARGET_NOT_A_BLOCK) RVVBOX_RULE(CHECK, INTERVAL_NOT_PROVED) RVVBOX_RULE(CHECK, EQUALITY_NOT_PROVED)
        RVVBOX_RULE(CHECK, VECTOR_FACT_NOT_PROVED) RVVBOX_RULE(CHECK, BUDGET_NOT_PROVED) RVVBOX_RULE(CHECK, BLOCK_TOO_LONG)
        RVVBOX_RULE(CHECK, ORDER_NOT_PROVED)
    }
    return "UNKNOWN";
}

/* `TOO_SHORT` of RVVBOX_IMAGE and RVVBOX_IMAGE_TOO_SHORT, and `UNKNOWN` of what is no rule of the status. */
RVVBOX_INLINE const char *rvvbox_rule_name(uint32_t status, uint32_t rule) {
    if (status == RVVBOX_IMAGE) return rvvbox_image_rule_name(rule);
    if (status == RVVBOX_CERTIFICATE) return rvvbox_certificate_rule_name(rule);
    return status == RVVBOX_CHECK ? rvvbox_check_rule_name(rule) : "UNKNOWN";
}

#ifdef __cplusplus
}
#endif

#endif
