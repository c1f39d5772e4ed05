/* A SQLite extension: certified kernels over blobs and columns. README.md tells what each function does.
 *
 * A connection has its kernels by name. SQLite gives a connection one call at a time, and so each kernel has one. A blob that is read and
 * has all of its parameter's bytes is passed as it lies in SQLite's memory, and a written one becomes the result without a copy. A run
 * of many steps goes by slices, and sqlite3_interrupt ends it between two of them. */
#include <sqlite3ext.h>
SQLITE_EXTENSION_INIT1
#include "rvvbox.h"
#include <stdarg.h>
#include <string.h>

typedef sqlite3_int64 int64;

/* A status of the extension's own: the connection is interrupted. */
enum { INTERRUPTED = 1000 };

/* An accepted kernel. A name has one, and so has a fold that goes on. */
typedef struct {
    struct rvvbox_kernel *kernel;
    struct rvvbox_session *session;    /* NULL, or closed: the next run by slices has it */
    struct rvvbox_parameter parameters[RVVBOX_PLACES];
    unsigned holders;
} Kernel;

typedef struct Named {
    struct Named *next;
    Kernel *kernel;
    char name[];
} Named;

/* What a connection has. Each function that is registered holds it. */
typedef struct {
    Named *first;
    uint64_t max_steps;
    unsigned holders;
} Loaded;

static void let_go(Kernel *kernel) {
    if (!kernel || --kernel->holders) return;
    rvvbox_drop(kernel->session);
    rvvbox_free(kernel->kernel);
    sqlite3_free(kernel);
}

static void unload(void *data) {
    Loaded *all = data;
    if (--all->holders) return;
    while (all->first) {
        Named *it = all->first;
        all->first = it->next;
        let_go(it->kernel);
        sqlite3_free(it);
    }
    sqlite3_free(all);
}

/* ---- Errors. */

static void fail(sqlite3_context *context, const char *format, ...) {
    va_list words;
    va_start(words, format);
    char *text = sqlite3_vmprintf(format, words);
    va_end(words);
    if (text) sqlite3_result_error(context, text, -1);
    else sqlite3_result_error_nomem(context);
    sqlite3_free(text);
}

/* Why an image is refused, in lines, or NULL for want of memory. */
static char *explanation(const void *image, size_t size, uint32_t vlen) {
    size_t room = 4096, needed = 0;
    for (;;) {
        char *text = sqlite3_malloc64(room + 1);
        if (!text || rvvbox_explain(image, size, vlen, text, room, &needed)) {
            sqlite3_free(text);
            return NULL;
        }
        if (needed <= room) {
            text[needed ? needed - 1 : 0] = 0;         /* in the place of the last newline */
            return text;
        }
        sqlite3_free(text);
        room = needed;
    }
}

/* A sentence and the explanation of a refused image. */
static char *refused_image(const struct rvvbox_refusal *why, const void *image, size_t size, uint32_t vlen) {
    if (why->status == RVVBOX_BAD_VLEN) return sqlite3_mprintf("vlen is 128, 256 or 512");
    char *lines = explanation(image, size, vlen), at[20] = "";
    if (!lines) return NULL;
    if (why->address) sqlite3_snprintf(sizeof at, at, " at %08x", why->address);
    char *text = sqlite3_mprintf("the image is refused: %s%s%s%s\n%s", rvvbox_status_name(why->status), why->rule ? ", " : "",
                                 why->rule ? rvvbox_rule_name(why->status, why->rule) : "", at, lines);
    sqlite3_free(lines);
    return text;
}

static void refused_run(sqlite3_context *context, const struct rvvbox_refusal *why, const struct rvvbox_argument *arguments,
                        const Kernel *kernel, uint64_t max) {
    const struct rvvbox_parameter *wanted = &kernel->parameters[why->place];
    const struct rvvbox_argument *given = &arguments[why->place];
    int place = (int)why->place;
    switch (why->status) {
        case RVVBOX_NO_MEMORY: sqlite3_result_error_nomem(context); break;
        case INTERRUPTED: sqlite3_result_error_code(context, SQLITE_INTERRUPT); break;
        case RVVBOX_WRONG_KIND: fail(context, "a%d is of another kind than the kernel takes", place); break;
        case RVVBOX_SCALAR_OUT_OF_INTERVAL:
            fail(context, "a%d is %u, and the kernel takes %u to %u", place, given->value, wanted->lo, wanted->hi);
            break;
        case RVVBOX_WRONG_SIZE:
            fail(context, "a%d has %lld bytes, and the kernel takes %u", place, (int64)given->size, wanted->size);
            break;
        case RVVBOX_BOUND_TOO_LARGE:
            fail(context, "the run may take %llu steps, and rvv_max_steps is %llu", why->bound.high ? ~0ull : why->bound.low, max);
            break;
        default: fail(context, "the run is refused: %s", rvvbox_status_name(why->status));
    }
}

/* ---- Kernels by name. */

/* Accepts for the length of registers that is given, or where it is 0 for the one that the image was made for. */
static uint32_t accepted(const void *image, size_t size, uint32_t *vlen, struct rvvbox_kernel **out, struct rvvbox_refusal *why) {
    uint32_t first = *vlen ? *vlen : 128, last = *vlen ? *vlen : 512, status = RVVBOX_BAD_VLEN;
    for (uint32_t bits = first; bits <= last; bits *= 2) {
        *vlen = bits;
        status = rvvbox_accept(image, size, bits, out, why);
        if (status != RVVBOX_CHECK || why->rule != RVVBOX_CHECK_WRONG_VLEN) break;
    }
    return status;
}

/* The vlen at an argument, 0 where there is none. One that is no length is left to the library. */
static uint32_t vlen_at(int count, sqlite3_value **given, int at) {
    if (at >= count || sqlite3_value_type(given[at]) == SQLITE_NULL) return 0;
    int64 bits = sqlite3_value_int64(given[at]);
    return bits > 0 && bits <= 512 ? (uint32_t)bits : 1;
}

static Kernel *made(sqlite3_context *context, sqlite3_value *value, uint32_t vlen) {
    const void *image = sqlite3_value_blob(value);
    size_t size = (size_t)sqlite3_value_bytes(value);
    struct rvvbox_refusal why = {0};
    Kernel *kernel = sqlite3_malloc(sizeof *kernel);
    if (!kernel) {
        sqlite3_result_error_nomem(context);
        return NULL;
    }
    memset(kernel, 0, sizeof *kernel);
    kernel->holders = 1;
    uint32_t status = accepted(image, size, &vlen, &kernel->kernel, &why);
    if (!status) status = rvvbox_parameters_of(kernel->kernel, kernel->parameters, RVVBOX_PLACES);
    if (!status) return kernel;
    let_go(kernel);
    char *text = status == RVVBOX_NO_MEMORY ? NULL : refused_image(&why, image, size, vlen);
    if (text) sqlite3_result_error(context, text, -1);
    else sqlite3_result_error_nomem(context);
    sqlite3_free(text);
    return NULL;
}

static Named *named(Loaded *all, sqlite3_value *value) {
    const char *name = (const char *)sqlite3_value_text(value);
    Named *it = name ? all->first : NULL;
    while (it && strcmp(it->name, name)) it = it->next;
    return it;
}

static Kernel *kernel_of(sqlite3_context *context, sqlite3_value *name) {
    Named *it = named(sqlite3_user_data(context), name);
    if (it) return it->kernel;
    const char *text = (const char *)sqlite3_value_text(name);
    fail(context, "no kernel is loaded as %Q", text);
    return NULL;
}

static void load(sqlite3_context *context, int count, sqlite3_value **given) {
    Loaded *all = sqlite3_user_data(context);
    const char *name = (const char *)sqlite3_value_text(given[0]);
    if (!name || sqlite3_value_type(given[1]) != SQLITE_BLOB) {
        fail(context, "rvv_load takes a name, an image and its vlen");
        return;
    }
    Kernel *kernel = made(context, given[1], vlen_at(count, given, 2));
    if (!kernel) return;
    Named *it = named(all, given[0]);
    if (!it) {
        it = sqlite3_malloc64(sizeof *it + strlen(name) + 1);
        if (!it) {
            let_go(kernel);
            sqlite3_result_error_nomem(context);
            return;
        }
        strcpy(it->name, name);
        it->kernel = NULL;
        it->next = all->first;
        all->first = it;
    }
    let_go(it->kernel);
    it->kernel = kernel;
    sqlite3_result_int(context, (int)rvvbox_vlen_of(kernel->kernel));
}

/* ---- Runs. */

/* A whole number of 32 bits, from -2^31 to 2^32 - 1. */
static int number_of(sqlite3_context *context, sqlite3_value *value, uint32_t *number) {
    int64 wide = sqlite3_value_int64(value);
    *number = (uint32_t)wide;
    if (sqlite3_value_numeric_type(value) == SQLITE_INTEGER && wide >= INT32_MIN && wide <= (int64)UINT32_MAX) return 1;
    const char *text = (const char *)sqlite3_value_text(value);
    fail(context, "%Q is no number of 32 bits", text);
    return 0;
}

/* A blob as an argument. One that is written, or has fewer bytes, is copied to memory of its own, which is `*own`, with zeros behind. */
static int lend_blob(sqlite3_context *context, sqlite3_value *value, const struct rvvbox_parameter *wanted, struct rvvbox_argument *made_of,
                     void **own) {
    size_t size = sqlite3_value_type(value) == SQLITE_NULL ? 0 : (size_t)sqlite3_value_bytes(value);
    const void *bytes = size ? sqlite3_value_blob(value) : NULL;
    if (size > wanted->size || (size == wanted->size && wanted->kind == RVVBOX_READ)) {
        *made_of = rvvbox_read(bytes, size);
        made_of->kind = wanted->kind;
        return 1;
    }
    *own = sqlite3_malloc64(wanted->size ? wanted->size : 1);
    if (!*own) {
        sqlite3_result_error_nomem(context);
        return 0;
    }
    if (size) memcpy(*own, bytes, size);
    memset((uint8_t *)*own + size, 0, wanted->size - size);
    *made_of = rvvbox_buffer(*own, wanted->size);
    made_of->kind = wanted->kind;
    return 1;
}

static int lend(sqlite3_context *context, sqlite3_value *value, const struct rvvbox_parameter *wanted, struct rvvbox_argument *made_of,
                void **own) {
    int type = sqlite3_value_type(value);
    if (wanted->kind >= RVVBOX_BUFFER && (type == SQLITE_BLOB || type == SQLITE_NULL)) return lend_blob(context, value, wanted, made_of, own);
    if (type == SQLITE_NULL) return 1;
    *made_of = type == SQLITE_BLOB ? rvvbox_read(sqlite3_value_blob(value), (size_t)sqlite3_value_bytes(value)) : rvvbox_scalar(0);
    return made_of->kind != RVVBOX_SCALAR || number_of(context, value, &made_of->value);
}

/* The result of a run: the first buffer that it wrote, which SQLite then owns, or its steps. */
static void answer(sqlite3_context *context, const Kernel *kernel, void **own, uint64_t steps) {
    for (int place = 0; place < RVVBOX_PLACES; place++) {
        if (kernel->parameters[place].kind != RVVBOX_BUFFER) continue;
        sqlite3_result_blob64(context, own[place], kernel->parameters[place].size, sqlite3_free);
        own[place] = NULL;
        return;
    }
    sqlite3_result_int64(context, (int64)steps);
}

/* Steps between two looks at whether the connection is interrupted. A step takes some microseconds at most. */
enum { SLICE = 4096 };

/* Whether a run may take more steps than a slice has. */
static int is_long(const Kernel *kernel, const struct rvvbox_argument *arguments) {
    uint32_t at[RVVBOX_PLACES];
    struct rvvbox_scalars scalars;
    struct rvvbox_bound most = {0, 0};
    for (int place = 0; place < RVVBOX_PLACES; place++) at[place] = arguments[place].value;
    memcpy(&scalars, at, sizeof scalars);
    return !rvvbox_bound_of(kernel->kernel, &scalars, &most) && (most.high || most.low > SLICE);
}

/* Whether the connection is interrupted: a statement of its own then ends so, in each version of SQLite. `looking` is NULL for want of
 * memory, which the run's own result will tell if it lasts. */
static int is_interrupted(sqlite3_stmt *looking) {
    int interrupted = looking && sqlite3_step(looking) == SQLITE_INTERRUPT;
    sqlite3_reset(looking);
    return interrupted;
}

static uint32_t run_by_slices(sqlite3_context *context, Kernel *kernel, const struct rvvbox_argument *arguments, uint64_t max,
                              uint64_t *steps, struct rvvbox_refusal *why) {
    struct rvvbox_progress progress = {0};
    sqlite3_stmt *looking = NULL;
    uint32_t status = rvvbox_open(kernel->kernel, arguments, 0, max, &kernel->session, why);
    struct rvvbox_session *session = kernel->session;
    if (status) return status;
    sqlite3_prepare_v2(sqlite3_context_db_handle(context), "SELECT 1", -1, &looking, NULL);
    while (!status && !progress.ended) status = is_interrupted(looking) ? INTERRUPTED : rvvbox_go_on(session, SLICE, &progress);
    sqlite3_finalize(looking);
    if (!status) status = rvvbox_close(session, arguments, why);
    if (status) {
        rvvbox_drop(session);
        kernel->session = NULL;
    }
    *steps = progress.steps;
    return status;
}

/* Runs a kernel, and tells why if it does not: whether it did. */
static int run(sqlite3_context *context, Kernel *kernel, const struct rvvbox_argument *arguments, uint64_t *steps) {
    struct rvvbox_refusal why = {0};
    uint64_t max = ((Loaded *)sqlite3_user_data(context))->max_steps;
    if (is_long(kernel, arguments)) why.status = run_by_slices(context, kernel, arguments, max, steps, &why);
    else why.status = rvvbox_run(kernel->kernel, arguments, 0, max, steps, &why);
    if (why.status) refused_run(context, &why, arguments, kernel, max);
    return !why.status;
}

static void call(sqlite3_context *context, int count, sqlite3_value **given) {
    struct rvvbox_argument arguments[RVVBOX_PLACES] = {{0}};
    void *own[RVVBOX_PLACES] = {NULL};
    uint64_t steps = 0;
    if (count < 1 || count > 1 + RVVBOX_PLACES) {
        fail(context, "rvv_call takes a name and at most eight arguments");
        return;
    }
    Kernel *kernel = kernel_of(context, given[0]);
    int lent = kernel != NULL;
    for (int place = 0; lent && place < count - 1; place++)
        lent = lend(context, given[place + 1], &kernel->parameters[place], &arguments[place], &own[place]);
    if (lent && run(context, kernel, arguments, &steps)) answer(context, kernel, own, steps);
    for (int place = 0; place < RVVBOX_PLACES; place++) sqlite3_free(own[place]);
}

static void bound(sqlite3_context *context, int count, sqlite3_value **given) {
    uint32_t at[RVVBOX_PLACES] = {0};
    struct rvvbox_scalars scalars;
    struct rvvbox_bound most;
    if (count < 1) {
        fail(context, "rvv_bound takes a name and the kernel's numbers");
        return;
    }
    Kernel *kernel = kernel_of(context, given[0]);
    if (!kernel) return;
    int used = 1;
    for (int place = 0; place < RVVBOX_PLACES; place++)
        if (kernel->parameters[place].kind == RVVBOX_SCALAR && used++ < count && !number_of(context, given[used - 1], &at[place])) return;
    if (used != count) {
        fail(context, "the kernel takes %d numbers, and not %d", used - 1, count - 1);
        return;
    }
    memcpy(&scalars, at, sizeof scalars);
    uint32_t status = rvvbox_bound_of(kernel->kernel, &scalars, &most);
    if (status) fail(context, "%s", rvvbox_status_name(status));
    else sqlite3_result_int64(context, most.high || most.low > INT64_MAX ? INT64_MAX : (int64)most.low);
}

static void explain(sqlite3_context *context, int count, sqlite3_value **given) {
    const void *image = sqlite3_value_blob(given[0]);
    size_t size = (size_t)sqlite3_value_bytes(given[0]);
    struct rvvbox_kernel *kernel = NULL;
    struct rvvbox_refusal why = {0};
    uint32_t vlen = vlen_at(count, given, 1), status = accepted(image, size, &vlen, &kernel, &why);
    rvvbox_free(kernel);
    if (!status) return;
    char *text = status == RVVBOX_NO_MEMORY ? NULL : refused_image(&why, image, size, vlen);
    if (text) sqlite3_result_text(context, text, -1, sqlite3_free);
    else sqlite3_result_error_nomem(context);
}

static void max_steps(sqlite3_context *context, int count, sqlite3_value **given) {
    Loaded *all = sqlite3_user_data(context);
    if (count && sqlite3_value_int64(given[0]) >= 0) all->max_steps = (uint64_t)sqlite3_value_int64(given[0]);
    sqlite3_result_int64(context, (int64)all->max_steps);
}

/* ---- Folds. */

/* An aggregate that goes on: the state and the words of the batch so far. */
typedef struct {
    Kernel *kernel;
    uint8_t *state;
    uint32_t *words;
    uint32_t many, most;
    int failed;
} Fold;

static void fold_flush(sqlite3_context *context, Fold *fold) {
    const struct rvvbox_parameter *wanted = fold->kernel->parameters;
    struct rvvbox_argument arguments[RVVBOX_PLACES] = {{0}};
    uint64_t steps = 0;
    arguments[0] = rvvbox_buffer(fold->state, wanted[0].size);
    arguments[1] = rvvbox_read(fold->words, wanted[1].size);
    arguments[2] = rvvbox_scalar(fold->many);
    memset(fold->words + fold->many, 0, wanted[1].size - 4 * (size_t)fold->many);
    fold->many = 0;
    fold->failed = !run(context, fold->kernel, arguments, &steps);
}

/* Begins a fold with the state of its first row. */
static int fold_begin(sqlite3_context *context, Fold *fold, sqlite3_value **given) {
    Kernel *kernel = kernel_of(context, given[0]);
    if (!kernel) return 0;
    const struct rvvbox_parameter *wanted = kernel->parameters;
    size_t size = (size_t)sqlite3_value_bytes(given[1]);
    if (wanted[0].kind != RVVBOX_BUFFER || wanted[1].kind != RVVBOX_READ || wanted[2].kind != RVVBOX_SCALAR || !wanted[2].hi
        || wanted[1].size < 4) {
        fail(context, "the kernel of a fold takes a state, words to read, and how many they are");
        return 0;
    }
    if (size > wanted[0].size) {
        fail(context, "the state has %lld bytes, and the kernel takes %u", (int64)size, wanted[0].size);
        return 0;
    }
    kernel->holders++;
    fold->kernel = kernel;
    fold->most = wanted[2].hi < wanted[1].size / 4 ? wanted[2].hi : wanted[1].size / 4;
    fold->state = sqlite3_malloc64(wanted[0].size);
    fold->words = sqlite3_malloc64(wanted[1].size);
    if (!fold->state || !fold->words) {
        sqlite3_result_error_nomem(context);
        return 0;
    }
    memset(fold->state, 0, wanted[0].size);
    if (size) memcpy(fold->state, sqlite3_value_blob(given[1]), size);
    return 1;
}

static void fold_step(sqlite3_context *context, int count, sqlite3_value **given) {
    (void)count;
    Fold *fold = sqlite3_aggregate_context(context, sizeof *fold);
    if (!fold) {
        sqlite3_result_error_nomem(context);
        return;
    }
    if (fold->failed) return;
    if (!fold->kernel) fold->failed = !fold_begin(context, fold, given);
    if (fold->failed || sqlite3_value_type(given[2]) == SQLITE_NULL) return;
    fold->failed = !number_of(context, given[2], &fold->words[fold->many]);
    if (!fold->failed && ++fold->many == fold->most) fold_flush(context, fold);
}

static void fold_end(sqlite3_context *context) {
    Fold *fold = sqlite3_aggregate_context(context, 0);
    if (!fold) return;
    if (!fold->failed && fold->many) fold_flush(context, fold);
    if (!fold->failed && fold->kernel) {
        sqlite3_result_blob64(context, fold->state, fold->kernel->parameters[0].size, sqlite3_free);
        fold->state = NULL;
    }
    sqlite3_free(fold->state);
    sqlite3_free(fold->words);
    let_go(fold->kernel);
}

/* ---- The extension. */

typedef void (*Function)(sqlite3_context *, int, sqlite3_value **);

static int add(sqlite3 *db, Loaded *all, const char *name, int count, int flags, Function plain, Function step,
               void (*end)(sqlite3_context *)) {
    all->holders++;
    return sqlite3_create_function_v2(db, name, count, SQLITE_UTF8 | flags, all, plain, step, end, unload);
}

__attribute__((visibility("default"))) int sqlite3_rvv_init(sqlite3 *db, char **error, const sqlite3_api_routines *api) {
    SQLITE_EXTENSION_INIT2(api);
    (void)error;
    Loaded *all = sqlite3_malloc(sizeof *all);
    if (!all) return SQLITE_NOMEM;
    *all = (Loaded){NULL, 100000000, 1};
    int status = add(db, all, "rvv_load", 2, SQLITE_DIRECTONLY, load, NULL, NULL);
    if (!status) status = add(db, all, "rvv_load", 3, SQLITE_DIRECTONLY, load, NULL, NULL);
    if (!status) status = add(db, all, "rvv_call", -1, SQLITE_INNOCUOUS, call, NULL, NULL);
    if (!status) status = add(db, all, "rvv_bound", -1, SQLITE_INNOCUOUS, bound, NULL, NULL);
    if (!status) status = add(db, all, "rvv_explain", 1, SQLITE_INNOCUOUS | SQLITE_DETERMINISTIC, explain, NULL, NULL);
    if (!status) status = add(db, all, "rvv_explain", 2, SQLITE_INNOCUOUS | SQLITE_DETERMINISTIC, explain, NULL, NULL);
    if (!status) status = add(db, all, "rvv_max_steps", 0, SQLITE_INNOCUOUS, max_steps, NULL, NULL);
    if (!status) status = add(db, all, "rvv_max_steps", 1, SQLITE_DIRECTONLY, max_steps, NULL, NULL);
    if (!status) status = add(db, all, "rvv_fold", 3, SQLITE_INNOCUOUS, NULL, fold_step, fold_end);
    unload(all);
    return status;
}
