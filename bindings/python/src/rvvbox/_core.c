/* The part of the package that calls the library: kernels, runs and sessions on the memory of Python's objects.
 *
 * No byte is copied here but those of the last batch of a map. The interpreter's lock is let go while a kernel runs. The library is
 * loaded by `load`. */
#define PY_SSIZE_T_CLEAN
#include <Python.h>
#include <structmember.h>
#include <dlfcn.h>
#include <stdbool.h>
#include <string.h>

#include "rvvbox.h"

#define METHOD(name, function, how, told) {name, (PyCFunction)(void (*)(void))function, how, told}

/* ---- The library. */

/* Every function of the header that is called, by its name there. */
#define FUNCTIONS(HAS) HAS(version) HAS(accept) HAS(explain) HAS(attach) HAS(share) HAS(free) HAS(parameters_of) HAS(budget_of) \
    HAS(bound_of) HAS(apart) HAS(run) HAS(try) HAS(open) HAS(go_on) HAS(registers_of) HAS(peek) HAS(close) HAS(drop) HAS(status_name) HAS(rule_name)

#define POINTER(name) __typeof__(rvvbox_##name) *name;
static struct {
    FUNCTIONS(POINTER)
} lib;

/* What makes an exception of a refusal, and what the package's `whole` and `COUNT` are: `set_up` keeps them. */
static PyObject *make_error, *whole_type, *count_mark;

static PyObject *core_load(PyObject *module, PyObject *path) {
    (void)module;
    PyObject *bytes = NULL;
    if (!PyUnicode_FSConverter(path, &bytes)) return NULL;
    void *opened = dlopen(PyBytes_AS_STRING(bytes), RTLD_NOW | RTLD_LOCAL);
    Py_DECREF(bytes);
    if (!opened) return PyErr_Format(PyExc_ImportError, "%s", dlerror());
#define FIND(name) lib.name = (__typeof__(lib.name))(uintptr_t)dlsym(opened, "rvvbox_" #name);
    FUNCTIONS(FIND)
    uint32_t version = lib.version ? lib.version() : 0, needed = RVVBOX_VERSION_MAJOR << 16 | RVVBOX_VERSION_MINOR;
    if (version >> 16 != RVVBOX_VERSION_MAJOR || version < needed)
        return PyErr_Format(PyExc_ImportError, "the library has interface %u.%u, and the package needs %u.%u", version >> 16,
                            version & 0xffff, RVVBOX_VERSION_MAJOR, RVVBOX_VERSION_MINOR);
#define IS_THERE(name) \
    if (!lib.name) return PyErr_Format(PyExc_ImportError, "the library has no rvvbox_" #name);
    FUNCTIONS(IS_THERE)
    return Py_BuildValue("II", version >> 16, version & 0xffff);
}

static PyObject *core_set_up(PyObject *module, PyObject *args) {
    (void)module;
    PyObject *error, *whole, *count;
    if (!PyArg_ParseTuple(args, "OOO", &error, &whole, &count)) return NULL;
    make_error = Py_NewRef(error);
    whole_type = Py_NewRef(whole);
    count_mark = Py_NewRef(count);
    Py_RETURN_NONE;
}

/* Raises what the package makes of a refusal. `given` is what stood at its place, a number or a count of bytes; `image` and `vlen` are
 * those of a refused image, else NULL and 0; `kernel` is the kernel or NULL. */
static PyObject *refuse(const struct rvvbox_refusal *why, uint64_t given, PyObject *image, uint32_t vlen, PyObject *kernel) {
    if (!make_error) return PyErr_Format(PyExc_RuntimeError, "status %u", why->status);
    const char *status = lib.status_name(why->status), *rule = why->rule ? lib.rule_name(why->status, why->rule) : NULL;
    PyObject *error = PyObject_CallFunction(make_error, "szIInKKKOIO", status, rule, why->address, why->offset, (Py_ssize_t)why->place,
                                            why->bound.low, why->bound.high, given, image ? image : Py_None, vlen,
                                            kernel ? kernel : Py_None);
    if (!error) return NULL;
    PyErr_SetObject((PyObject *)Py_TYPE(error), error);
    Py_DECREF(error);
    return NULL;
}

static PyObject *refuse_status(uint32_t status, PyObject *kernel) {
    struct rvvbox_refusal why = {.status = status};
    return refuse(&why, 0, NULL, 0, kernel);
}

/* ---- Arguments. */

/* Eight arguments, and what Python lent for them. */
struct lent {
    struct rvvbox_argument at[RVVBOX_PLACES];
    Py_buffer views[RVVBOX_PLACES];
    unsigned viewed;                   /* a bit for each place */
};

static void give_back(struct lent *lent) {
    for (int place = 0; lent->viewed; place++, lent->viewed >>= 1)
        if (lent->viewed & 1) PyBuffer_Release(&lent->views[place]);
}

/* A number from -2^31 to 2^32 - 1, as the 32 bits of a register. */
static bool number_of(PyObject *given, int place, uint32_t *number) {
    int overflow;
    PyObject *index = PyNumber_Index(given);
    if (!index) return false;
    long long wide = PyLong_AsLongLongAndOverflow(index, &overflow);
    Py_DECREF(index);
    if (overflow || wide < INT32_MIN || wide > UINT32_MAX) {
        PyErr_Format(PyExc_OverflowError, "a%d is no number of 32 bits: %R", place, given);
        return false;
    }
    *number = (uint32_t)wide;
    return true;
}

/* Lends one object's bytes. Those that are put back have to be writable. */
static bool lend_bytes(struct lent *lent, int place, PyObject *given, uint32_t kind) {
    Py_buffer *view = &lent->views[place];
    if (PyObject_GetBuffer(given, view, kind == RVVBOX_BUFFER ? PyBUF_WRITABLE : PyBUF_SIMPLE)) return false;
    lent->viewed |= 1u << place;
    lent->at[place] = (struct rvvbox_argument){kind, 0, view->buf, (size_t)view->len};
    return true;
}

/* What an object is as an argument, where a parameter of the kind `wanted` stands. An object of another kind is passed as what it is, so
 * that the library refuses it. */
static bool lend(struct lent *lent, int place, PyObject *given, uint32_t wanted) {
    if (given == Py_None) return true;
    if (wanted != RVVBOX_SCALAR && PyObject_CheckBuffer(given))
        return lend_bytes(lent, place, given, wanted == RVVBOX_BUFFER ? RVVBOX_BUFFER : RVVBOX_READ);
    if (PyIndex_Check(given)) {
        lent->at[place].kind = RVVBOX_SCALAR;
        return number_of(given, place, &lent->at[place].value);
    }
    if (PyObject_CheckBuffer(given)) return lend_bytes(lent, place, given, RVVBOX_READ);
    PyErr_Format(PyExc_TypeError, "a%d is a number, a buffer or None, and not %.100s", place, Py_TYPE(given)->tp_name);
    return false;
}

/* The number or the count of bytes at a place. */
static uint64_t given_at(const struct rvvbox_argument *arguments, size_t place) {
    if (place >= RVVBOX_PLACES) return 0;
    return arguments[place].kind == RVVBOX_SCALAR ? arguments[place].value : arguments[place].size;
}

/* ---- Kernels. */

typedef struct {
    PyObject_HEAD
    struct rvvbox_kernel *root;        /* shared and asked under the interpreter's lock, and never run */
    struct rvvbox_kernel **idle;       /* kernels of the same image that no run has now */
    Py_ssize_t idle_count, idle_room;
    struct rvvbox_parameter parameters[RVVBOX_PLACES];
    int places;                        /* up to the last that is not empty */
    uint32_t vlen, agnostic;
    unsigned long long max_steps;
    PyObject *image;
} Kernel;

static bool is_made(const Kernel *self) {
    if (!self->root) PyErr_SetString(PyExc_ValueError, "the kernel was not made");
    return self->root != NULL;
}

/* A kernel for a run. Each run that goes on has one, so that threads need no lock of their own. */
static struct rvvbox_kernel *taken(Kernel *self) {
    struct rvvbox_kernel *kernel = NULL;
    if (self->idle_count) return self->idle[--self->idle_count];
    if (!is_made(self)) return NULL;
    uint32_t status = lib.share(self->root, &kernel);
    if (!status) return kernel;
    refuse_status(status, (PyObject *)self);
    return NULL;
}

static void put_back(Kernel *self, struct rvvbox_kernel *kernel) {
    if (self->idle_count == self->idle_room) {
        Py_ssize_t room = self->idle_room ? 2 * self->idle_room : 4;
        struct rvvbox_kernel **more = PyMem_Realloc(self->idle, (size_t)room * sizeof *more);
        if (!more) {
            lib.free(kernel);
            return;
        }
        self->idle = more;
        self->idle_room = room;
    }
    self->idle[self->idle_count++] = kernel;
}

static void kernel_dealloc(Kernel *self) {
    while (self->idle_count) lib.free(self->idle[--self->idle_count]);
    PyMem_Free(self->idle);
    if (self->root) lib.free(self->root);
    Py_XDECREF(self->image);
    Py_TYPE(self)->tp_free((PyObject *)self);
}

/* Accepts for the length of registers that is given, or where it is 0 for the one that the image was made for. */
static uint32_t accepted(PyObject *image, uint32_t *vlen, struct rvvbox_kernel **out, struct rvvbox_refusal *why) {
    uint32_t first = *vlen ? *vlen : 128, last = *vlen ? *vlen : 512, status = RVVBOX_BAD_VLEN;
    for (*vlen = first; *vlen <= last; *vlen *= 2) {
        Py_BEGIN_ALLOW_THREADS
        status = lib.accept(PyBytes_AS_STRING(image), (size_t)PyBytes_GET_SIZE(image), *vlen, out, why);
        Py_END_ALLOW_THREADS
        if (*vlen == last || status != RVVBOX_CHECK || why->rule != RVVBOX_CHECK_WRONG_VLEN) break;
    }
    return status;
}

static int kernel_init(Kernel *self, PyObject *args, PyObject *named) {
    static char *names[] = {"image", "vlen", "agnostic", "max_steps", NULL};
    PyObject *image;
    struct rvvbox_kernel *kernel = NULL;
    struct rvvbox_refusal why = {0};
    uint32_t vlen, agnostic;
    unsigned long long max_steps;
    if (!PyArg_ParseTupleAndKeywords(args, named, "O!IIK", names, &PyBytes_Type, &image, &vlen, &agnostic, &max_steps)) return -1;
    why.status = accepted(image, &vlen, &kernel, &why);
    if (self->root) {
        lib.free(kernel);
        PyErr_SetString(PyExc_TypeError, "a kernel is made once");
        return -1;
    }
    if (!why.status) why.status = lib.parameters_of(kernel, self->parameters, RVVBOX_PLACES);
    if (why.status) {
        lib.free(kernel);
        refuse(&why, 0, image, vlen, NULL);
        return -1;
    }
    self->root = kernel;
    self->image = Py_NewRef(image);
    self->vlen = vlen;
    self->agnostic = agnostic;
    self->max_steps = max_steps;
    for (int place = 0; place < RVVBOX_PLACES; place++)
        if (self->parameters[place].kind != RVVBOX_NONE) self->places = place + 1;
    return 0;
}

/* The parameters, each of kind, lo, hi and size. */
static PyObject *kernel_parameters(Kernel *self, PyObject *unused) {
    (void)unused;
    PyObject *made = PyTuple_New(self->places);
    for (int place = 0; made && place < self->places; place++) {
        const struct rvvbox_parameter *it = &self->parameters[place];
        PyObject *one = Py_BuildValue("IIII", it->kind, it->lo, it->hi, it->size);
        if (!one) Py_CLEAR(made);
        else PyTuple_SET_ITEM(made, place, one);
    }
    return made;
}

static PyObject *kernel_bound(Kernel *self, PyObject *const *args, Py_ssize_t count) {
    uint32_t at[RVVBOX_PLACES] = {0};
    struct rvvbox_scalars scalars;
    struct rvvbox_bound bound = {0, 0};
    Py_ssize_t used = 0;
    if (!is_made(self)) return NULL;
    for (int place = 0; place < self->places; place++) {
        if (self->parameters[place].kind != RVVBOX_SCALAR) continue;
        if (used < count && !number_of(args[used], place, &at[place])) return NULL;
        used++;
    }
    if (used != count) return PyErr_Format(PyExc_TypeError, "the kernel takes %zd numbers, not %zd", used, count);
    memcpy(&scalars, at, sizeof scalars);
    uint32_t status = lib.bound_of(self->root, &scalars, &bound);
    if (status) return refuse_status(status, (PyObject *)self);
    if (!bound.high) return PyLong_FromUnsignedLongLong(bound.low);
    unsigned char digits[16];
    memcpy(digits, &bound.low, 8);
    memcpy(digits + 8, &bound.high, 8);
    return _PyLong_FromByteArray(digits, sizeof digits, 1, 0);
}

static PyObject *kernel_budget(Kernel *self, PyObject *unused) {
    (void)unused;
    struct rvvbox_budget budget;
    if (!is_made(self)) return NULL;
    uint32_t status = lib.budget_of(self->root, &budget);
    if (status) return refuse_status(status, (PyObject *)self);
    return Py_BuildValue("IIIII", budget.constant, budget.factor, budget.number, budget.second_factor, budget.second_number);
}

/* `max_steps` of a call's words, or the kernel's own. */
static bool max_of(Kernel *self, PyObject *const *args, Py_ssize_t count, PyObject *names, unsigned long long *max) {
    *max = self->max_steps;
    Py_ssize_t named = names ? PyTuple_GET_SIZE(names) : 0;
    for (Py_ssize_t i = 0; i < named; i++) {
        if (PyUnicode_CompareWithASCIIString(PyTuple_GET_ITEM(names, i), "max_steps")) {
            PyErr_Format(PyExc_TypeError, "no argument is named %R", PyTuple_GET_ITEM(names, i));
            return false;
        }
        if (args[count + i] == Py_None) continue;
        *max = PyLong_AsUnsignedLongLong(args[count + i]);
        if (PyErr_Occurred()) return false;
    }
    return true;
}

static bool lend_all(Kernel *self, struct lent *lent, PyObject *const *args, Py_ssize_t count) {
    if (count != self->places) {
        PyErr_Format(PyExc_TypeError, "the kernel takes %d arguments, not %zd", self->places, count);
        return false;
    }
    memset(lent->at, 0, sizeof lent->at);
    lent->viewed = 0;
    for (int place = 0; place < count; place++) {
        if (lend(lent, place, args[place], self->parameters[place].kind)) continue;
        give_back(lent);
        return false;
    }
    return true;
}

static PyObject *kernel_run(Kernel *self, PyObject *const *args, Py_ssize_t count, PyObject *names) {
    struct lent lent;
    struct rvvbox_refusal why = {0};
    unsigned long long max;
    uint64_t steps = 0;
    uint32_t status;
    if (!max_of(self, args, count, names, &max) || !lend_all(self, &lent, args, count)) return NULL;
    struct rvvbox_kernel *kernel = taken(self);
    if (!kernel) {
        give_back(&lent);
        return NULL;
    }
    Py_BEGIN_ALLOW_THREADS
    status = lib.run(kernel, lent.at, self->agnostic, max, &steps, &why);
    Py_END_ALLOW_THREADS
    put_back(self, kernel);
    give_back(&lent);
    return status ? refuse(&why, given_at(lent.at, why.place), NULL, 0, (PyObject *)self) : PyLong_FromUnsignedLongLong(steps);
}

/* ---- Maps. */

enum { TOGETHER = 32 };                /* runs between two looks at the interpreter's signals */

/* A map: arguments, and of each column the bytes of an element. */
struct map {
    struct lent lent;
    size_t item[RVVBOX_PLACES];        /* 0 where no column stands */
    int count_place;                   /* or -1 */
    size_t elements, batch;
};

/* Lends a column. Its elements are those of its own format. */
static bool lend_column(struct map *map, int place, PyObject *given, uint32_t kind) {
    Py_buffer *view = &map->lent.views[place];
    if (PyObject_GetBuffer(given, view, (kind == RVVBOX_BUFFER ? PyBUF_WRITABLE : 0) | PyBUF_ND | PyBUF_FORMAT)) return false;
    map->lent.viewed |= 1u << place;
    map->lent.at[place] = (struct rvvbox_argument){kind, 0, view->buf, (size_t)view->len};
    map->item[place] = view->itemsize > 0 ? (size_t)view->itemsize : 1;
    return true;
}

static bool lend_one(Kernel *self, struct map *map, int place, PyObject *given) {
    const struct rvvbox_parameter *wanted = &self->parameters[place];
    if (given == count_mark) {
        map->lent.at[place].kind = RVVBOX_SCALAR;
        map->count_place = place;
        return true;
    }
    if (PyObject_TypeCheck(given, (PyTypeObject *)whole_type)) {
        PyObject *inner = PyObject_GetAttrString(given, "buffer");
        bool lent = inner && lend(&map->lent, place, inner, wanted->kind);
        Py_XDECREF(inner);
        return lent;
    }
    if ((wanted->kind == RVVBOX_BUFFER || wanted->kind == RVVBOX_READ) && PyObject_CheckBuffer(given))
        return lend_column(map, place, given, wanted->kind);
    return lend(&map->lent, place, given, wanted->kind);
}

/* How many elements the columns have, and how many a run takes at most. */
static bool measured(Kernel *self, struct map *map, size_t batch) {
    size_t most = batch ? batch : SIZE_MAX;
    bool any = false;
    for (int place = 0; place < self->places; place++) {
        if (!map->item[place]) continue;
        size_t here = map->lent.at[place].size / map->item[place], room = self->parameters[place].size / map->item[place];
        if (any && here != map->elements) {
            PyErr_Format(PyExc_ValueError, "a%d has %zu elements, and a column before it %zu", place, here, map->elements);
            return false;
        }
        any = true;
        map->elements = here;
        if (batch && batch > room) {
            PyErr_Format(PyExc_ValueError, "a batch of %zu elements, and a%d takes %zu", batch, place, room);
            return false;
        }
        if (room < most) most = room;
    }
    if (map->count_place >= 0 && !batch && self->parameters[map->count_place].hi < most) most = self->parameters[map->count_place].hi;
    map->batch = most;
    if (any && most) return true;
    PyErr_SetString(PyExc_ValueError, any ? "a run takes no element" : "no argument is a column");
    return false;
}

/* The arguments of the run that begins at an element, with all its bytes in the columns. */
static void run_at(Kernel *self, const struct map *map, size_t from, struct rvvbox_argument *arguments) {
    memcpy(arguments, map->lent.at, sizeof map->lent.at);
    for (int place = 0; place < self->places; place++) {
        if (!map->item[place]) continue;
        arguments[place].bytes = (uint8_t *)map->lent.at[place].bytes + from * map->item[place];
        arguments[place].size = map->batch * map->item[place];
    }
    if (map->count_place >= 0) arguments[map->count_place].value = (uint32_t)map->batch;
}

/* Whether the elements of a whole batch are all that each column's parameter takes, so that a run needs no copy. */
static bool fits(const Kernel *self, const struct map *map) {
    for (int place = 0; place < self->places; place++)
        if (map->item[place] && map->batch * map->item[place] != self->parameters[place].size) return false;
    return true;
}

/* One run of fewer bytes than the parameters say: on copies with zeros behind. */
static uint32_t run_padded(Kernel *self, struct rvvbox_kernel *kernel, const struct map *map, size_t from, size_t many, uint8_t *room,
                           unsigned long long max, uint64_t *steps, struct rvvbox_refusal *why) {
    struct rvvbox_argument arguments[RVVBOX_PLACES];
    memcpy(arguments, map->lent.at, sizeof arguments);
    uint8_t *at = room;
    for (int place = 0; place < self->places; place++) {
        if (!map->item[place]) continue;
        size_t bytes = many * map->item[place], size = self->parameters[place].size;
        if (bytes) memcpy(at, (uint8_t *)map->lent.at[place].bytes + from * map->item[place], bytes);
        memset(at + bytes, 0, size - bytes);
        arguments[place].bytes = at;
        arguments[place].size = size;
        at += size;
    }
    if (map->count_place >= 0) arguments[map->count_place].value = (uint32_t)many;
    uint32_t status = lib.run(kernel, arguments, self->agnostic, max, steps, why);
    for (int place = 0; !status && place < self->places; place++)
        if (map->item[place] && arguments[place].kind == RVVBOX_BUFFER && many)
            memcpy((uint8_t *)map->lent.at[place].bytes + from * map->item[place], arguments[place].bytes, many * map->item[place]);
    return status;
}

/* The next runs of a map, at most TOGETHER. `*from` moves on, and `*steps` grows. */
static uint32_t run_some(Kernel *self, struct rvvbox_kernel *kernel, const struct map *map, size_t *from, uint8_t *room,
                         unsigned long long max, uint64_t *steps, struct rvvbox_refusal *why) {
    struct rvvbox_argument arguments[RVVBOX_PLACES];
    uint32_t status = RVVBOX_DONE;
    for (int i = 0; i < TOGETHER && !status && *from < map->elements; i++) {
        uint64_t took = 0;
        size_t rest = map->elements - *from, many = rest < map->batch ? rest : map->batch;
        if (room && (many < map->batch || !fits(self, map))) {
            status = run_padded(self, kernel, map, *from, many, room, max, &took, why);
        } else {
            run_at(self, map, *from, arguments);
            status = lib.run(kernel, arguments, self->agnostic, max, &took, why);
        }
        *from += many;
        *steps += took;
    }
    return status;
}

/* The bytes of one run's columns, for copies, or NULL with no error where no run needs a copy. */
static uint8_t *room_for(Kernel *self, const struct map *map) {
    if (fits(self, map) && map->elements % map->batch == 0) return NULL;
    size_t bytes = 1;
    for (int place = 0; place < self->places; place++)
        if (map->item[place]) bytes += self->parameters[place].size;
    uint8_t *room = PyMem_Malloc(bytes);
    if (!room) PyErr_NoMemory();
    return room;
}

static PyObject *map_all(Kernel *self, struct rvvbox_kernel *kernel, const struct map *map, unsigned long long max) {
    struct rvvbox_refusal why = {0};
    size_t from = 0;
    uint64_t steps = 0;
    uint32_t status = RVVBOX_DONE;
    uint8_t *room = room_for(self, map);
    if (!room && PyErr_Occurred()) return NULL;
    while (!status && from < map->elements && !PyErr_CheckSignals()) {
        Py_BEGIN_ALLOW_THREADS
        status = run_some(self, kernel, map, &from, room, max, &steps, &why);
        Py_END_ALLOW_THREADS
    }
    PyMem_Free(room);
    if (status) return refuse(&why, given_at(map->lent.at, why.place), NULL, 0, (PyObject *)self);
    return PyErr_Occurred() ? NULL : PyLong_FromUnsignedLongLong(steps);
}

/* Whether what is written lies apart from all else, in the columns as a whole. */
static bool lies_apart(Kernel *self, const struct map *map) {
    struct rvvbox_place places[RVVBOX_PLACES];
    struct rvvbox_refusal why = {0};
    for (int place = 0; place < RVVBOX_PLACES; place++) {
        const struct rvvbox_argument *it = &map->lent.at[place];
        places[place] = (struct rvvbox_place){it->kind, it->value, (size_t)(uintptr_t)it->bytes, it->size};
    }
    uint32_t status = lib.apart(places, RVVBOX_PLACES, &why);
    if (status) refuse(&why, 0, NULL, 0, (PyObject *)self);
    return !status;
}

static PyObject *kernel_map(Kernel *self, PyObject *args) {
    struct map map = {.count_place = -1};
    PyObject *columns, *max_given;
    Py_ssize_t batch;
    unsigned long long max = self->max_steps;
    if (!PyArg_ParseTuple(args, "O!nO", &PyTuple_Type, &columns, &batch, &max_given)) return NULL;
    if (max_given != Py_None && ((max = PyLong_AsUnsignedLongLong(max_given)), PyErr_Occurred())) return NULL;
    if (batch < 0) return PyErr_Format(PyExc_ValueError, "a batch of %zd elements", batch);
    if (PyTuple_GET_SIZE(columns) != self->places)
        return PyErr_Format(PyExc_TypeError, "the kernel takes %d arguments, not %zd", self->places, PyTuple_GET_SIZE(columns));
    bool lent = true;
    for (int place = 0; lent && place < self->places; place++) lent = lend_one(self, &map, place, PyTuple_GET_ITEM(columns, place));
    PyObject *made = NULL;
    struct rvvbox_kernel *kernel = lent && measured(self, &map, (size_t)batch) && lies_apart(self, &map) ? taken(self) : NULL;
    if (kernel) {
        made = map_all(self, kernel, &map, max);
        put_back(self, kernel);
    }
    give_back(&map.lent);
    return made;
}

/* ---- Sessions. */

typedef struct {
    PyObject_HEAD
    struct rvvbox_session *session;    /* NULL once it is let go */
    struct lent lent;                  /* what the run was opened on: its buffers are lent until the session is let go */
    bool busy;                         /* a call has the session now, on some thread */
} Session;

static PyTypeObject Session_type;

static PyObject *kernel_session(Kernel *self, PyObject *const *args, Py_ssize_t count, PyObject *names) {
    struct rvvbox_refusal why = {0};
    unsigned long long max;
    if (!max_of(self, args, count, names, &max)) return NULL;
    Session *made = PyObject_New(Session, &Session_type);
    if (!made) return NULL;
    made->session = NULL;
    made->busy = false;
    made->lent.viewed = 0;
    struct rvvbox_kernel *kernel = lend_all(self, &made->lent, args, count) ? taken(self) : NULL;
    if (!kernel) {
        Py_DECREF(made);
        return NULL;
    }
    uint32_t status;
    Py_BEGIN_ALLOW_THREADS
    status = lib.open(kernel, made->lent.at, self->agnostic, max, &made->session, &why);
    Py_END_ALLOW_THREADS
    put_back(self, kernel);
    if (!status) return (PyObject *)made;
    refuse(&why, given_at(made->lent.at, why.place), NULL, 0, (PyObject *)self);
    Py_DECREF(made);
    return NULL;
}

/* Lets go the session, and the buffers. */
static void let_go(Session *self) {
    if (self->session) lib.drop(self->session);
    self->session = NULL;
    give_back(&self->lent);
}

static void session_dealloc(Session *self) {
    let_go(self);
    PyObject_Free(self);
}

/* Whether a call may have the session. */
static bool session_is_free(Session *self) {
    if (!self->session) PyErr_SetString(PyExc_ValueError, "the session is closed");
    else if (self->busy) refuse_status(RVVBOX_NOTHING_KEPT, NULL);
    else return true;
    return false;
}

static PyObject *session_go_on(Session *self, PyObject *most_given) {
    struct rvvbox_progress progress = {0};
    uint32_t status;
    unsigned long long most = PyLong_AsUnsignedLongLong(most_given);
    if (PyErr_Occurred() || !session_is_free(self)) return NULL;
    self->busy = true;
    Py_BEGIN_ALLOW_THREADS
    status = lib.go_on(self->session, most, &progress);
    Py_END_ALLOW_THREADS
    self->busy = false;
    return status ? refuse_status(status, NULL) : Py_BuildValue("NK", PyBool_FromLong(progress.ended), progress.steps);
}

static PyObject *session_registers(Session *self, PyObject *unused) {
    (void)unused;
    struct rvvbox_registers at;
    if (!session_is_free(self)) return NULL;
    uint32_t status = lib.registers_of(self->session, &at);
    if (status) return refuse_status(status, NULL);
    PyObject *x = PyTuple_New(32);
    for (int i = 0; x && i < 32; i++) {
        PyObject *one = PyLong_FromUnsignedLong(at.x[i]);
        if (!one) Py_CLEAR(x);
        else PyTuple_SET_ITEM(x, i, one);
    }
    return x ? Py_BuildValue("INIIII", at.pc, x, at.vl, at.vtype, at.vxrm, at.vxsat) : NULL;
}

/* An address from 0 to 2^32 - 1 and a size from 0 on. */
static PyObject *session_peek(Session *self, PyObject *args) {
    struct rvvbox_refusal why = {.status = RVVBOX_BAD_RANGE, .place = RVVBOX_PLACES};      /* (No argument is at fault.) */
    unsigned long long address;
    Py_ssize_t size;
    if (!PyArg_ParseTuple(args, "Kn", &address, &size) || !session_is_free(self)) return NULL;
    if (size < 0) return PyErr_Format(PyExc_ValueError, "a size of %zd bytes", size);
    why.address = (uint32_t)address;
    if (address > UINT32_MAX || (uint64_t)size > UINT32_MAX + 1ull - address) return refuse(&why, (uint64_t)size, NULL, 0, NULL);
    PyObject *bytes = PyBytes_FromStringAndSize(NULL, size);
    if (!bytes) return NULL;
    why.status = lib.peek(self->session, (uint32_t)address, PyBytes_AS_STRING(bytes), (size_t)size);
    if (!why.status) return bytes;
    Py_DECREF(bytes);
    return refuse(&why, (uint64_t)size, NULL, 0, NULL);
}

/* Lets the session go. Where the argument is true, each writable buffer first becomes what the run left of it so far. */
static PyObject *session_close(Session *self, PyObject *put) {
    struct rvvbox_refusal why = {0};
    int puts = PyObject_IsTrue(put);
    if (puts < 0) return NULL;
    if (!self->session) Py_RETURN_NONE;
    if (!session_is_free(self)) return NULL;
    uint32_t status = puts ? lib.close(self->session, self->lent.at, &why) : RVVBOX_DONE;
    let_go(self);
    return status ? refuse(&why, given_at(self->lent.at, why.place), NULL, 0, NULL) : Py_NewRef(Py_None);
}

static PyMethodDef session_methods[] = {METHOD("go_on", session_go_on, METH_O, NULL),
                                        METHOD("registers", session_registers, METH_NOARGS, NULL),
                                        METHOD("peek", session_peek, METH_VARARGS, NULL),
                                        METHOD("close", session_close, METH_O, NULL),
                                        {NULL, NULL, 0, NULL}};

static PyTypeObject Session_type = {
    PyVarObject_HEAD_INIT(NULL, 0).tp_name = "rvvbox._core.Session",
    .tp_basicsize = sizeof(Session),
    .tp_flags = Py_TPFLAGS_DEFAULT,
    .tp_dealloc = (destructor)session_dealloc,
    .tp_methods = session_methods,
};


/* ---- Calls without a kernel. */

static PyObject *core_explain(PyObject *module, PyObject *args) {
    (void)module;
    PyObject *image, *told = NULL;
    unsigned vlen;
    if (!PyArg_ParseTuple(args, "O!I", &PyBytes_Type, &image, &vlen)) return NULL;
    size_t room = 4096, needed = 0;
    while (!told) {
        char *text = PyMem_Malloc(room);
        if (!text) return PyErr_NoMemory();
        uint32_t status = lib.explain(PyBytes_AS_STRING(image), (size_t)PyBytes_GET_SIZE(image), vlen, text, room, &needed);
        if (!status && needed <= room) told = PyUnicode_DecodeUTF8(text, (Py_ssize_t)needed, "replace");
        PyMem_Free(text);
        if (status) return refuse_status(status, NULL);
        if (needed <= room) break;
        room = needed;
    }
    return told;
}

/* What an object is as an argument of an image without parameters: bytes that can be written are put back. */
static bool lend_any(struct lent *lent, int place, PyObject *given) {
    if (given == Py_None) return true;
    if (PyObject_CheckBuffer(given)) {
        if (lend_bytes(lent, place, given, RVVBOX_BUFFER)) return true;
        PyErr_Clear();
        if (!PyIndex_Check(given)) return lend_bytes(lent, place, given, RVVBOX_READ);
    }
    lent->at[place].kind = RVVBOX_SCALAR;
    return number_of(given, place, &lent->at[place].value);
}

static PyObject *core_try(PyObject *module, PyObject *args) {
    (void)module;
    PyObject *image, *given;
    struct rvvbox_setting setting;
    struct rvvbox_stopped stopped = {0};
    struct rvvbox_refusal why = {0};
    struct lent lent = {.viewed = 0};
    uint32_t status;
    unsigned long long max;
    if (!PyArg_ParseTuple(args, "O!IIKO!", &PyBytes_Type, &image, &setting.vlen, &setting.agnostic, &max, &PyTuple_Type, &given))
        return NULL;
    setting.max = max;
    if (PyTuple_GET_SIZE(given) > RVVBOX_PLACES) return PyErr_Format(PyExc_TypeError, "a run takes at most 8 arguments");
    for (int place = 0; place < PyTuple_GET_SIZE(given); place++) {
        if (lend_any(&lent, place, PyTuple_GET_ITEM(given, place))) continue;
        give_back(&lent);
        return NULL;
    }
    Py_BEGIN_ALLOW_THREADS
    status = lib.try(PyBytes_AS_STRING(image), (size_t)PyBytes_GET_SIZE(image), &setting, lent.at, &stopped, &why);
    Py_END_ALLOW_THREADS
    give_back(&lent);
    if (status != RVVBOX_DONE && status != RVVBOX_TRAPPED && status != RVVBOX_OUT_OF_STEPS)
        return refuse(&why, given_at(lent.at, why.place), status == RVVBOX_IMAGE ? image : NULL, setting.vlen, NULL);
    return Py_BuildValue("sIIIK", lib.status_name(status), stopped.fault, stopped.number, stopped.pc, stopped.steps);
}

static PyObject *core_attach(PyObject *module, PyObject *args) {
    (void)module;
    PyObject *image, *certificate;
    struct rvvbox_refusal why = {0};
    size_t needed = 0;
    if (!PyArg_ParseTuple(args, "O!O!", &PyBytes_Type, &image, &PyBytes_Type, &certificate)) return NULL;
    size_t room = (size_t)PyBytes_GET_SIZE(image) + (size_t)PyBytes_GET_SIZE(certificate) + 256;
    for (;;) {
        PyObject *out = PyBytes_FromStringAndSize(NULL, (Py_ssize_t)room);
        if (!out) return NULL;
        uint32_t status = lib.attach(PyBytes_AS_STRING(image), (size_t)PyBytes_GET_SIZE(image), PyBytes_AS_STRING(certificate),
                                     (size_t)PyBytes_GET_SIZE(certificate), PyBytes_AS_STRING(out), room, &needed, &why);
        if (!status && needed <= room) {
            _PyBytes_Resize(&out, (Py_ssize_t)needed);
            return out;
        }
        Py_DECREF(out);
        if (status) return refuse(&why, 0, NULL, 0, NULL);
        room = needed;
    }
}

/* ---- The module. */

PyDoc_STRVAR(run_told,
             "run($self, /, *arguments, max_steps=None)\n--\n\n"
             "Runs the kernel once, on the bytes of the buffers themselves, and answers its steps.\n\n"
             "There is an argument for each of `parameters`. Buffers that the kernel writes are as it left them. `max_steps` is the\n"
             "kernel's own where it is None. Raises RunRefused or NoMemory, and then no buffer has changed. Raises BufferError or\n"
             "ValueError where bytes do not lie together or can't be written, TypeError for what is no argument, and OverflowError\n"
             "where a number has more than 32 bits.");

PyDoc_STRVAR(bound_told, "bound($self, /, *numbers)\n--\n\n"
                         "The most steps of a run with these numbers, one for each scalar parameter in turn.");

static PyMethodDef kernel_methods[] = {METHOD("_parameters", kernel_parameters, METH_NOARGS, NULL),
                                       METHOD("bound", kernel_bound, METH_FASTCALL, bound_told),
                                       METHOD("_budget", kernel_budget, METH_NOARGS, NULL),
                                       METHOD("run", kernel_run, METH_FASTCALL | METH_KEYWORDS, run_told),
                                       METHOD("_map", kernel_map, METH_VARARGS, NULL),
                                       METHOD("_session", kernel_session, METH_FASTCALL | METH_KEYWORDS, NULL),
                                       {NULL, NULL, 0, NULL}};

static PyMemberDef kernel_members[] = {{"image", T_OBJECT_EX, offsetof(Kernel, image), READONLY, "the image's bytes"},
                                       {"vlen", T_UINT, offsetof(Kernel, vlen), READONLY, "bits of a vector register"},
                                       {"_agnostic", T_UINT, offsetof(Kernel, agnostic), READONLY, NULL},
                                       {"max_steps", T_ULONGLONG, offsetof(Kernel, max_steps), READONLY, "the most steps of a run"},
                                       {NULL, 0, 0, 0, NULL}};

static PyTypeObject Kernel_type = {
    PyVarObject_HEAD_INIT(NULL, 0).tp_name = "rvvbox._core.Kernel",
    .tp_basicsize = sizeof(Kernel),
    .tp_flags = Py_TPFLAGS_DEFAULT | Py_TPFLAGS_BASETYPE,
    .tp_new = PyType_GenericNew,
    .tp_init = (initproc)kernel_init,
    .tp_dealloc = (destructor)kernel_dealloc,
    .tp_methods = kernel_methods,
    .tp_members = kernel_members,
};

static PyMethodDef functions[] = {METHOD("load", core_load, METH_O, NULL),
                                  METHOD("set_up", core_set_up, METH_VARARGS, NULL),
                                  METHOD("explain", core_explain, METH_VARARGS, NULL),
                                  METHOD("try_run", core_try, METH_VARARGS, NULL),
                                  METHOD("attach", core_attach, METH_VARARGS, NULL),
                                  {NULL, NULL, 0, NULL}};

static struct PyModuleDef definition = {PyModuleDef_HEAD_INIT, .m_name = "rvvbox._core", .m_size = -1, .m_methods = functions};

PyMODINIT_FUNC PyInit__core(void) {
    PyObject *module = PyModule_Create(&definition);
    if (!module || PyModule_AddType(module, &Kernel_type)) return NULL;
    if (PyType_Ready(&Session_type)) return NULL;
    return module;
}
