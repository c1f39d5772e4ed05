/* PostgreSQL: certified RISC-V vector kernels on bytea, int4[] and columns. README.md tells what each function does.
 *
 * A backend checks an image once, and keeps the kernel. The library calls nothing of PostgreSQL, so no error leaves it midway. Runs longer
 * than rvvbox.slice steps go by a session and may be cancelled between two slices. A slice of the slowest
 * steps takes some milliseconds. */
#include "postgres.h"

#include <limits.h>
#include <stdlib.h>

#include "catalog/pg_type.h"
#include "fmgr.h"
#include "libpq/pqformat.h"
#include "miscadmin.h"
#include "utils/array.h"
#include "utils/builtins.h"
#include "utils/guc.h"
#include "utils/memutils.h"

#include "rvvbox.h"

PG_MODULE_MAGIC;
void _PG_init(void);

static int max_steps = 100000000;
static int slice = 4096;

/* A run takes some 200 KB and lets them go. Where they lie at the end of the heap, glibc would give them back to the system each time, and a
 * map took twice as long. Once a block of its own is let go, glibc keeps twice as much as that had. */
static void keep_memory(void) {
    void *volatile block = malloc(1 << 20);
    free(block);
}

void _PG_init(void) {
    DefineCustomIntVariable("rvvbox.max_steps", "The most steps that one run of a kernel may take.", NULL, &max_steps, 100000000, 0, INT_MAX,
                            PGC_USERSET, 0, NULL, NULL, NULL);
    DefineCustomIntVariable("rvvbox.slice", "How many steps a run takes between two looks at whether it is cancelled.", NULL, &slice, 4096,
                            1, INT_MAX, PGC_USERSET, 0, NULL, NULL, NULL);
    MarkGUCPrefixReserved("rvvbox");
    keep_memory();
}

/* ---- Kernels. */

/* An accepted kernel with its image. It lives as long as its memory context. */
typedef struct Kernel {
    struct Kernel *next;
    struct rvvbox_kernel *kernel;
    struct rvvbox_session *session;     /* NULL, or closed: the next run by slices has it */
    struct rvvbox_parameter parameters[RVVBOX_PLACES];
    uint32 vlen;
    Size size;
    uint8 image[FLEXIBLE_ARRAY_MEMBER];
} Kernel;

/* Those that the backend keeps, at most KEPT; a further one lives as long as the function that asked. */
enum { KEPT = 64 };
static Kernel *kept;
static int kept_count;

static void kernel_gone(void *kernel) {
    rvvbox_drop(((Kernel *)kernel)->session);
    rvvbox_free(((Kernel *)kernel)->kernel);
}

/* Accepts for the length of registers that the image was made for. */
static uint32 accepted(const void *image, Size size, uint32 *vlen, struct rvvbox_kernel **out, struct rvvbox_refusal *why) {
    uint32 status = RVVBOX_BAD_VLEN;
    for (*vlen = 128; *vlen <= 512; *vlen *= 2) {
        status = rvvbox_accept(image, size, *vlen, out, why);
        if (*vlen == 512 || status != RVVBOX_CHECK || why->rule != RVVBOX_CHECK_WRONG_VLEN) break;
    }
    return status;
}

static void no_memory(void) {
    ereport(ERROR, errcode(ERRCODE_OUT_OF_MEMORY), errmsg("rvvbox: out of memory"));
}

/* Why an image is refused, in lines. */
static char *explanation(const void *image, Size size, uint32 vlen) {
    size_t room = 4096, needed = 0;
    for (;;) {
        char *text = palloc(room + 1);
        if (rvvbox_explain(image, size, vlen, text, room, &needed)) no_memory();
        if (needed <= room) {
            text[needed ? needed - 1 : 0] = 0;
            return text;
        }
        pfree(text);
        room = needed;
    }
}

/* The name of a refusal, its rule and its address. */
static char *reason(const struct rvvbox_refusal *why) {
    char *name = psprintf("%s%s%s", rvvbox_status_name(why->status), why->rule ? ", " : "",
                          why->rule ? rvvbox_rule_name(why->status, why->rule) : "");
    return why->address ? psprintf("%s at %08x", name, why->address) : name;
}

static void refused_image(const struct rvvbox_refusal *why, const void *image, Size size, uint32 vlen) {
    if (why->status == RVVBOX_NO_MEMORY) no_memory();
    ereport(ERROR, errcode(ERRCODE_INVALID_BINARY_REPRESENTATION), errmsg("rvvbox: the image is refused: %s", reason(why)),
            errdetail_internal("%s", explanation(image, size, vlen)),
            why->status == RVVBOX_NO_CERTIFICATE ? errhint("certify cc makes images with certificates.") : 0);
}

static Kernel *kernel_new(MemoryContext in, const uint8 *image, Size size) {
    Kernel *kernel = MemoryContextAllocZero(in, offsetof(Kernel, image) + size);
    MemoryContextCallback *last = MemoryContextAllocZero(in, sizeof *last);
    struct rvvbox_refusal why = {0};
    memcpy(kernel->image, image, size);
    kernel->size = size;
    last->func = kernel_gone;
    last->arg = kernel;
    MemoryContextRegisterResetCallback(in, last);
    why.status = accepted(kernel->image, size, &kernel->vlen, &kernel->kernel, &why);
    if (!why.status) why.status = rvvbox_parameters_of(kernel->kernel, kernel->parameters, RVVBOX_PLACES);
    if (why.status) refused_image(&why, image, size, kernel->vlen);
    return kernel;
}

static bool is_of(const Kernel *kernel, const uint8 *image, Size size) {
    return kernel->size == size && memcmp(kernel->image, image, size) == 0;
}

/* The kernel of an image: one that is kept, or a new one. A new one is made in a context of its own, so that an image that is refused
 * leaves nothing behind. */
static Kernel *kernel_of(MemoryContext in, const uint8 *image, Size size) {
    for (Kernel *it = kept; it; it = it->next)
        if (is_of(it, image, size)) return it;
    if (kept_count == KEPT) return kernel_new(in, image, size);
    MemoryContext own = AllocSetContextCreate(CurrentMemoryContext, "rvvbox kernel", ALLOCSET_SMALL_SIZES);
    Kernel *made = kernel_new(own, image, size);
    MemoryContextSetParent(own, TopMemoryContext);
    made->next = kept;
    kept = made;
    kept_count++;
    return made;
}

/* The kernel of a function's first argument, looked up once where the image stays the same. */
static Kernel *kernel_of_call(FunctionCallInfo fcinfo) {
    bytea *image = PG_GETARG_BYTEA_PP(0);
    const uint8 *bytes = (uint8 *)VARDATA_ANY(image);
    Size size = VARSIZE_ANY_EXHDR(image);
    Kernel *kernel = fcinfo->flinfo->fn_extra;
    if (!kernel || !is_of(kernel, bytes, size)) fcinfo->flinfo->fn_extra = kernel = kernel_of(fcinfo->flinfo->fn_mcxt, bytes, size);
    PG_FREE_IF_COPY(image, 0);
    return kernel;
}

/* ---- Runs. */

static void refused_run(const struct rvvbox_refusal *why, const Kernel *kernel, const struct rvvbox_argument *arguments) {
    const struct rvvbox_parameter *wanted = &kernel->parameters[why->place];
    const struct rvvbox_argument *given = &arguments[why->place];
    int place = (int)why->place;
    switch (why->status) {
        case RVVBOX_NO_MEMORY: no_memory(); break;
        case RVVBOX_SCALAR_OUT_OF_INTERVAL:
            ereport(ERROR, errcode(ERRCODE_NUMERIC_VALUE_OUT_OF_RANGE), errmsg("rvvbox: a%d is %u", place, given->value),
                    errdetail("The kernel takes %u to %u.", wanted->lo, wanted->hi));
            break;
        case RVVBOX_WRONG_SIZE:
            ereport(ERROR, errcode(ERRCODE_STRING_DATA_LENGTH_MISMATCH), errmsg("rvvbox: a%d has %zu bytes", place, given->size),
                    errdetail("The kernel takes %u.", wanted->size));
            break;
        case RVVBOX_BOUND_TOO_LARGE:
            ereport(ERROR, errcode(ERRCODE_PROGRAM_LIMIT_EXCEEDED),
                    errmsg("rvvbox: the run may take " UINT64_FORMAT " steps", why->bound.high ? PG_UINT64_MAX : why->bound.low),
                    errdetail("rvvbox.max_steps is %d.", max_steps), errhint("Raise rvvbox.max_steps."));
            break;
        default: ereport(ERROR, errcode(ERRCODE_INVALID_PARAMETER_VALUE), errmsg("rvvbox: the run is refused: %s", reason(why)));
    }
}

/* A run by slices, in the session that the one before left. A run that is cancelled puts nothing back, and its session is let go. */
static uint32 run_by_slices(Kernel *kernel, const struct rvvbox_argument *arguments, struct rvvbox_refusal *why) {
    struct rvvbox_progress progress = {0};
    uint32 status = rvvbox_open(kernel->kernel, arguments, 0, (uint64)max_steps, &kernel->session, why);
    struct rvvbox_session *session = kernel->session;
    if (status) return status;
    kernel->session = NULL;
    PG_TRY();
    {
        while (!status && !progress.ended) {
            CHECK_FOR_INTERRUPTS();
            status = rvvbox_go_on(session, (uint64)slice, &progress);
        }
        if (!status) status = rvvbox_close(session, arguments, why);
        if (!status) kernel->session = session;
    }
    PG_FINALLY();
    {
        if (!kernel->session) rvvbox_drop(session);
    }
    PG_END_TRY();
    return status;
}

/* Whether a run may take more steps than a slice has. */
static bool is_long(Kernel *kernel, const struct rvvbox_argument *arguments) {
    uint32 at[RVVBOX_PLACES];
    struct rvvbox_scalars scalars;
    struct rvvbox_bound bound = {0, 0};
    for (int place = 0; place < RVVBOX_PLACES; place++) at[place] = arguments[place].value;
    memcpy(&scalars, at, sizeof scalars);
    return !rvvbox_bound_of(kernel->kernel, &scalars, &bound) && (bound.high || bound.low > (uint64)slice);
}

static void run(Kernel *kernel, const struct rvvbox_argument *arguments) {
    struct rvvbox_refusal why = {0};
    uint64_t steps = 0;
    if (is_long(kernel, arguments)) why.status = run_by_slices(kernel, arguments, &why);
    else why.status = rvvbox_run(kernel->kernel, arguments, 0, (uint64)max_steps, &steps, &why);
    if (why.status) refused_run(&why, kernel, arguments);
    CHECK_FOR_INTERRUPTS();
}

static uint32 number(int64 wide) {
    if (wide < INT_MIN || wide > (int64)PG_UINT32_MAX)
        ereport(ERROR, errcode(ERRCODE_NUMERIC_VALUE_OUT_OF_RANGE), errmsg("rvvbox: " INT64_FORMAT " is no number of 32 bits", wide));
    return (uint32)wide;
}

/* The numbers of an int8[], without nulls. */
typedef struct {
    const int64 *at;
    int count, used;
} Numbers;

static Numbers numbers_of(ArrayType *array) {
    Numbers made = {(const int64 *)ARR_DATA_PTR(array), ArrayGetNItems(ARR_NDIM(array), ARR_DIMS(array)), 0};
    if (array_contains_nulls(array)) ereport(ERROR, errcode(ERRCODE_NULL_VALUE_NOT_ALLOWED), errmsg("rvvbox: a number is null"));
    return made;
}

static uint32 next_number(Numbers *numbers) {
    if (numbers->used == numbers->count)
        ereport(ERROR, errcode(ERRCODE_INVALID_PARAMETER_VALUE), errmsg("rvvbox: the kernel takes more than %d numbers", numbers->count));
    return number(numbers->at[numbers->used++]);
}

static void all_used(const Numbers *numbers) {
    if (numbers->used < numbers->count)
        ereport(ERROR, errcode(ERRCODE_INVALID_PARAMETER_VALUE), errmsg("rvvbox: the kernel takes %d numbers, not %d", numbers->used,
                                                                        numbers->count));
}

PG_FUNCTION_INFO_V1(rvvbox_explain_sql);
PG_FUNCTION_INFO_V1(rvvbox_bound_sql);
PG_FUNCTION_INFO_V1(rvvbox_run_sql);
PG_FUNCTION_INFO_V1(rvvbox_map_sql);
PG_FUNCTION_INFO_V1(rvvbox_fold_step);
PG_FUNCTION_INFO_V1(rvvbox_fold_combine);
PG_FUNCTION_INFO_V1(rvvbox_fold_serial);
PG_FUNCTION_INFO_V1(rvvbox_fold_deserial);
PG_FUNCTION_INFO_V1(rvvbox_fold_final);

Datum rvvbox_explain_sql(PG_FUNCTION_ARGS) {
    bytea *image = PG_GETARG_BYTEA_PP(0);
    struct rvvbox_kernel *kernel = NULL;
    struct rvvbox_refusal why = {0};
    uint32 vlen, status = accepted(VARDATA_ANY(image), VARSIZE_ANY_EXHDR(image), &vlen, &kernel, &why);
    rvvbox_free(kernel);
    if (!status) PG_RETURN_NULL();
    if (status == RVVBOX_NO_MEMORY) no_memory();
    PG_RETURN_TEXT_P(cstring_to_text(psprintf("%s\n%s", reason(&why), explanation(VARDATA_ANY(image), VARSIZE_ANY_EXHDR(image), vlen))));
}

Datum rvvbox_bound_sql(PG_FUNCTION_ARGS) {
    Kernel *kernel = kernel_of_call(fcinfo);
    Numbers numbers = numbers_of(PG_GETARG_ARRAYTYPE_P(1));
    uint32 at[RVVBOX_PLACES] = {0};
    struct rvvbox_scalars scalars;
    struct rvvbox_refusal why = {0};
    struct rvvbox_bound bound;
    for (int place = 0; place < RVVBOX_PLACES; place++)
        if (kernel->parameters[place].kind == RVVBOX_SCALAR) at[place] = next_number(&numbers);
    all_used(&numbers);
    memcpy(&scalars, at, sizeof scalars);
    why.status = rvvbox_bound_of(kernel->kernel, &scalars, &bound);
    if (why.status) ereport(ERROR, errmsg("rvvbox: %s", reason(&why)));
    PG_RETURN_INT64(bound.high || bound.low > PG_INT64_MAX ? PG_INT64_MAX : (int64)bound.low);
}

/* A bytea as an argument. A written one is a new bytea, whose bytes become the result; one that is too short has zeros behind. */
static struct rvvbox_argument lent(const struct rvvbox_parameter *wanted, bytea *given, bytea **written) {
    Size size = given ? VARSIZE_ANY_EXHDR(given) : 0;
    struct rvvbox_argument made = rvvbox_read(given ? VARDATA_ANY(given) : NULL, size);
    made.kind = wanted->kind;
    if (size > wanted->size || (size == wanted->size && wanted->kind == RVVBOX_READ)) return made;
    *written = palloc0(VARHDRSZ + wanted->size);
    SET_VARSIZE(*written, VARHDRSZ + wanted->size);
    if (size) memcpy(VARDATA(*written), VARDATA_ANY(given), size);
    made.bytes = VARDATA(*written);
    made.size = wanted->size;
    return made;
}

/* (image, buffers, numbers): buffers and numbers fill the kernel's places for them in turn. The answer is the first buffer written. */
Datum rvvbox_run_sql(PG_FUNCTION_ARGS) {
    Kernel *kernel = kernel_of_call(fcinfo);
    Numbers numbers = numbers_of(PG_GETARG_ARRAYTYPE_P(2));
    struct rvvbox_argument arguments[RVVBOX_PLACES] = {{0}};
    Datum *buffers;
    bool *nulls;
    int count, used = 0;
    bytea *answer = NULL;
    deconstruct_array(PG_GETARG_ARRAYTYPE_P(1), BYTEAOID, -1, false, TYPALIGN_INT, &buffers, &nulls, &count);
    for (int place = 0; place < RVVBOX_PLACES; place++) {
        const struct rvvbox_parameter *wanted = &kernel->parameters[place];
        bytea *own = NULL, *given = NULL;
        if (wanted->kind == RVVBOX_SCALAR) arguments[place] = rvvbox_scalar(next_number(&numbers));
        if (wanted->kind < RVVBOX_BUFFER) continue;
        if (used < count && !nulls[used]) given = DatumGetByteaPP(buffers[used]);
        used++;
        arguments[place] = lent(wanted, given, &own);
        if (wanted->kind == RVVBOX_BUFFER && !answer) answer = own;
    }
    all_used(&numbers);
    if (used < count)
        ereport(ERROR, errcode(ERRCODE_INVALID_PARAMETER_VALUE), errmsg("rvvbox: the kernel takes %d buffers, not %d", used, count));
    run(kernel, arguments);
    if (!answer) PG_RETURN_NULL();
    PG_RETURN_BYTEA_P(answer);
}

/* ---- Maps. */

/* Columns of a map, and what each run has: the kernel writes `out`, reads the columns, and takes the count first of its numbers. */
typedef struct {
    Kernel *kernel;
    int32 *out;
    const int32 *columns[RVVBOX_PLACES];
    struct rvvbox_argument arguments[RVVBOX_PLACES];
    int count_place, out_place;
    uint32 most;
    int32 *rooms;                      /* for the buffers of a run that has fewer bytes than they take, or NULL till there is one */
} Map;

/* Fills the places: the written one, the columns that are read, and the numbers behind the count. */
static void map_places(Map *map, int columns, Numbers *numbers) {
    int used = 0;
    map->count_place = map->out_place = -1;
    map->most = PG_UINT32_MAX;
    for (int place = 0; place < RVVBOX_PLACES; place++) {
        const struct rvvbox_parameter *wanted = &map->kernel->parameters[place];
        bool is_count = wanted->kind == RVVBOX_SCALAR && map->count_place < 0;
        if (is_count) map->count_place = place;
        if (wanted->kind == RVVBOX_SCALAR) map->arguments[place] = rvvbox_scalar(is_count ? 0 : next_number(numbers));
        if (wanted->kind == RVVBOX_BUFFER && map->out_place < 0) map->out_place = place;
        else if (wanted->kind == RVVBOX_READ) used++;
        else if (wanted->kind != RVVBOX_BUFFER && !is_count) continue;
        map->most = Min(map->most, is_count ? wanted->hi : wanted->size / 4);
    }
    all_used(numbers);
    if (map->out_place < 0 || map->count_place < 0 || used != columns || map->most == 0)
        ereport(ERROR, errcode(ERRCODE_INVALID_PARAMETER_VALUE),
                errmsg("rvvbox: the kernel of a map writes a column, reads %d, and takes their count", columns));
}

/* Memory for all buffers of a run. */
static int32 *map_rooms(const Kernel *kernel) {
    Size size = 4;
    for (int place = 0; place < RVVBOX_PLACES; place++) size += kernel->parameters[place].size + 4;
    return palloc(size);
}

/* The arguments of the run of `many` elements from one on. Where they fill the parameters, no byte is copied. */
static void map_run(Map *map, uint32 from, uint32 many) {
    int used = 0;
    int32 *room = NULL;
    map->arguments[map->count_place].value = many;
    for (int place = 0; place < RVVBOX_PLACES; place++) {
        const struct rvvbox_parameter *wanted = &map->kernel->parameters[place];
        if (wanted->kind != RVVBOX_READ && place != map->out_place) continue;
        const int32 *at = (wanted->kind == RVVBOX_READ ? map->columns[used++] : map->out) + from;
        if ((Size)many * 4 != wanted->size) {
            if (!map->rooms) map->rooms = map_rooms(map->kernel);
            if (!room) room = map->rooms;
            memset(room, 0, wanted->size);
            at = memcpy(room, at, (Size)many * 4);
            room += (wanted->size + 3) / 4;
        }
        map->arguments[place] = rvvbox_read(at, wanted->size);
        map->arguments[place].kind = wanted->kind;
    }
    run(map->kernel, map->arguments);
    if (map->arguments[map->out_place].bytes != map->out + from) memcpy(map->out + from, map->arguments[map->out_place].bytes, (Size)many * 4);
}

static ArrayType *new_column(int count) {
    Size size = ARR_OVERHEAD_NONULLS(1) + sizeof(int32) * (Size)count;
    ArrayType *made = palloc0(size);
    SET_VARSIZE(made, size);
    made->ndim = 1;
    made->elemtype = INT4OID;
    ARR_DIMS(made)[0] = count;
    ARR_LBOUND(made)[0] = 1;
    return made;
}

Datum rvvbox_map_sql(PG_FUNCTION_ARGS) {
    Map map = {.kernel = kernel_of_call(fcinfo)};
    Numbers numbers = numbers_of(PG_GETARG_ARRAYTYPE_P(1));
    int columns = PG_NARGS() - 2, count = 0;
    map_places(&map, columns, &numbers);
    for (int i = 0; i < columns; i++) {
        ArrayType *array = PG_GETARG_ARRAYTYPE_P(2 + i);
        int items = ArrayGetNItems(ARR_NDIM(array), ARR_DIMS(array));
        if ((i && items != count) || array_contains_nulls(array))
            ereport(ERROR, errcode(ERRCODE_ARRAY_SUBSCRIPT_ERROR), errmsg("rvvbox: the columns of a map are of one length, without nulls"));
        count = items;
        map.columns[i] = (const int32 *)ARR_DATA_PTR(array);
    }
    if (!count) PG_RETURN_ARRAYTYPE_P(construct_empty_array(INT4OID));
    ArrayType *made = new_column(count);
    map.out = (int32 *)ARR_DATA_PTR(made);
    for (uint32 from = 0; from < (uint32)count; from += Min(map.most, (uint32)count - from))
        map_run(&map, from, Min(map.most, (uint32)count - from));
    PG_RETURN_ARRAYTYPE_P(made);
}

/* ---- Folds. */

/* A fold that goes on: its kernels, its state, and the words of the batch so far. */
typedef struct {
    Kernel *fold, *merge;
    uint32 many, most;
    Size state_size, words_size;
    uint8 *state;
    uint32 *words;
} Fold;

static MemoryContext aggregate_memory(FunctionCallInfo fcinfo) {
    MemoryContext in;
    if (!AggCheckCallContext(fcinfo, &in)) elog(ERROR, "rvvbox: no call of an aggregate");
    return in;
}

static Fold *fold_new(MemoryContext in, const uint8 *image, Size size, const uint8 *merge, Size merge_size) {
    Fold *made = MemoryContextAllocZero(in, sizeof *made);
    made->fold = kernel_of(in, image, size);
    made->merge = kernel_of(in, merge, merge_size);
    const struct rvvbox_parameter *p = made->fold->parameters, *q = made->merge->parameters;
    if (p[0].kind != RVVBOX_BUFFER || p[1].kind != RVVBOX_READ || p[2].kind != RVVBOX_SCALAR || p[1].size < 4 || p[2].hi == 0)
        ereport(ERROR, errcode(ERRCODE_INVALID_PARAMETER_VALUE),
                errmsg("rvvbox: the kernel of a fold takes a state, words to read, and how many they are"));
    if (q[0].kind != RVVBOX_BUFFER || q[1].kind != RVVBOX_READ || q[0].size != p[0].size || q[1].size != p[0].size)
        ereport(ERROR, errcode(ERRCODE_INVALID_PARAMETER_VALUE), errmsg("rvvbox: the kernel of a merge takes two states of the fold"));
    made->most = Min(p[2].hi, p[1].size / 4);
    made->state_size = p[0].size;
    made->words_size = p[1].size;
    made->state = MemoryContextAllocZero(in, p[0].size);
    made->words = MemoryContextAllocZero(in, p[1].size);
    return made;
}

/* Runs the fold on the words so far. */
static void fold_flush(Fold *fold) {
    struct rvvbox_argument arguments[RVVBOX_PLACES] = {rvvbox_buffer(fold->state, fold->state_size),
                                                       rvvbox_read(fold->words, fold->words_size), rvvbox_scalar(fold->many)};
    if (!fold->many) return;
    memset(fold->words + fold->many, 0, fold->words_size - 4 * (Size)fold->many);
    fold->many = 0;
    run(fold->fold, arguments);
}

/* The state of one fold into that of another. */
static void fold_merge(Fold *into, Fold *from) {
    fold_flush(into);
    fold_flush(from);
    struct rvvbox_argument arguments[RVVBOX_PLACES] = {rvvbox_buffer(into->state, into->state_size),
                                                       rvvbox_read(from->state, from->state_size)};
    run(into->merge, arguments);
}

static Fold *fold_begin(FunctionCallInfo fcinfo) {
    bytea *image = PG_GETARG_BYTEA_PP(1), *merge = PG_GETARG_BYTEA_PP(2), *state = PG_GETARG_BYTEA_PP(3);
    Fold *made = fold_new(aggregate_memory(fcinfo), (uint8 *)VARDATA_ANY(image), VARSIZE_ANY_EXHDR(image), (uint8 *)VARDATA_ANY(merge),
                          VARSIZE_ANY_EXHDR(merge));
    Size size = VARSIZE_ANY_EXHDR(state);
    if (size > made->state_size)
        ereport(ERROR, errcode(ERRCODE_STRING_DATA_LENGTH_MISMATCH), errmsg("rvvbox: the state has %zu bytes", size),
                errdetail("The kernel takes %zu.", made->state_size));
    memcpy(made->state, VARDATA_ANY(state), size);
    return made;
}

Datum rvvbox_fold_step(PG_FUNCTION_ARGS) {
    Fold *fold = PG_ARGISNULL(0) ? NULL : (Fold *)PG_GETARG_POINTER(0);
    if (!fold) {
        if (PG_ARGISNULL(1) || PG_ARGISNULL(2) || PG_ARGISNULL(3)) PG_RETURN_NULL();
        fold = fold_begin(fcinfo);
    }
    if (!PG_ARGISNULL(4)) {
        fold->words[fold->many++] = (uint32)PG_GETARG_INT32(4);
        if (fold->many == fold->most) fold_flush(fold);
    }
    PG_RETURN_POINTER(fold);
}

Datum rvvbox_fold_combine(PG_FUNCTION_ARGS) {
    Fold *into = PG_ARGISNULL(0) ? NULL : (Fold *)PG_GETARG_POINTER(0), *from = PG_ARGISNULL(1) ? NULL : (Fold *)PG_GETARG_POINTER(1);
    MemoryContext in = aggregate_memory(fcinfo);
    if (!from && !into) PG_RETURN_NULL();
    if (!from) PG_RETURN_POINTER(into);
    if (into) {
        fold_merge(into, from);
        PG_RETURN_POINTER(into);
    }
    fold_flush(from);
    into = fold_new(in, from->fold->image, from->fold->size, from->merge->image, from->merge->size);
    memcpy(into->state, from->state, into->state_size);
    PG_RETURN_POINTER(into);
}

Datum rvvbox_fold_serial(PG_FUNCTION_ARGS) {
    Fold *fold = (Fold *)PG_GETARG_POINTER(0);
    StringInfoData told;
    fold_flush(fold);
    pq_begintypsend(&told);
    pq_sendint32(&told, fold->fold->size);
    pq_sendbytes(&told, (char *)fold->fold->image, fold->fold->size);
    pq_sendint32(&told, fold->merge->size);
    pq_sendbytes(&told, (char *)fold->merge->image, fold->merge->size);
    pq_sendbytes(&told, (char *)fold->state, fold->state_size);
    PG_RETURN_BYTEA_P(pq_endtypsend(&told));
}

Datum rvvbox_fold_deserial(PG_FUNCTION_ARGS) {
    bytea *given = PG_GETARG_BYTEA_PP(0);
    StringInfoData told;
    aggregate_memory(fcinfo);
    initStringInfo(&told);
    appendBinaryStringInfo(&told, VARDATA_ANY(given), VARSIZE_ANY_EXHDR(given));
    Size size = pq_getmsgint(&told, 4);
    const char *image = pq_getmsgbytes(&told, size);
    Size merge_size = pq_getmsgint(&told, 4);
    const char *merge = pq_getmsgbytes(&told, merge_size);
    /* (It lives until it is combined, so the memory of the row will do.) */
    Fold *made = fold_new(CurrentMemoryContext, (const uint8 *)image, size, (const uint8 *)merge, merge_size);
    memcpy(made->state, pq_getmsgbytes(&told, made->state_size), made->state_size);
    pfree(told.data);
    PG_RETURN_POINTER(made);
}

Datum rvvbox_fold_final(PG_FUNCTION_ARGS) {
    if (PG_ARGISNULL(0)) PG_RETURN_NULL();
    Fold *fold = (Fold *)PG_GETARG_POINTER(0);
    fold_flush(fold);
    bytea *made = palloc(VARHDRSZ + fold->state_size);
    SET_VARSIZE(made, VARHDRSZ + fold->state_size);
    memcpy(VARDATA(made), fold->state, fold->state_size);
    PG_RETURN_BYTEA_P(made);
}
