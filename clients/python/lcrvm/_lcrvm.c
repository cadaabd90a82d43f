/* Stores and transactions for Python, over liblcrvm, by the limited API of Python 3.8 alone.

   Each call notes what it has done before the interpreter looks for signals again: so an exception never comes between
   a begin, a commit or an abort and the note of it. Calls that may wait let other threads run meanwhile. */
#define Py_LIMITED_API 0x03080000
#define PY_SSIZE_T_CLEAN
#include <Python.h>
#include <structmember.h>

#include <math.h>
#include <pthread.h>
#include <stdbool.h>
#include <stdint.h>
#include <stdio.h>
#include <sys/syscall.h>
#include <time.h>
#include <unistd.h>

#include "lcrvm.h"

enum { CLOSED = 100, MOST_SEGMENTS = 16, MOST_THREADS = 16, PAGE_BYTES = 256 };

/* Seconds: how long the main thread waits before it looks for signals, alone or at first, and at most; how long the
   end of the interpreter waits for threads that are within a call; and what counts as for ever. */
static const double first_wait = 0.1, longest_wait = 1, last_wait = 5, for_ever = 4e6;

enum state { NEW, OPEN, COMMITTED, ABORTED, UNKNOWN };

static const char *const state_names[] = {"new", "open", "committed", "aborted", "unknown"};

typedef struct transaction Transaction;

typedef struct store {
    PyObject_HEAD
    struct lcrvm_store *handle; /* NULL once it is closed */
    struct lcrvm_geometry geometry;
    unsigned forks;   /* of this process at the opening */
    unsigned inside;  /* calls that run while other threads of Python do */
    unsigned waiting; /* threads that wait to begin */
    bool closing;     /* a thread is within its end */
    bool ending;      /* the interpreter ends, and no call is begun */
    bool durable;
    double timeout;
    PyObject *path, *weak; /* the list of weak references, from Python 3.9 on */
    Transaction *open;
    struct store *next;
} Store;

/* Bytes that the caller changes in place. */
struct view {
    struct view *next;
    uint32_t segment, offset, length;
    char *bytes;
    PyObject *array, *pin, *given; /* the pin keeps the bytes where they are, whatever becomes of `given` */
};

struct transaction {
    PyObject_HEAD
    PyObject *weak;
    Store *store;
    Transaction *next; /* open transaction of the store */
    uint32_t node, number, writing[MOST_SEGMENTS], reading[MOST_SEGMENTS];
    size_t writing_count, reading_count;
    bool durable;
    bool inside; /* a thread is within a call of it */
    bool cut;    /* its store was closed while it was open */
    double timeout;
    enum state state;
    struct lcrvm_record placed;
    unsigned long owner;
    struct view *views;
};

static PyObject *make_error, *geometry_type, *commit_type, *delivered_type, *delivery_type, *stats_type;
static PyObject *transaction_type;
static Store *stores;  /* the open ones */
static unsigned forks; /* how many forks this process is after */

static void count_fork(void)
{
    forks++;
}

static double now(void)
{
    struct timespec at;

    clock_gettime(CLOCK_MONOTONIC, &at);
    return (double)at.tv_sec + 1e-9 * (double)at.tv_nsec;
}

/* ---- calls */

/* Makes `call` while other threads of Python run, and keeps in `why` why it did nothing. */
#define FREELY(store, why, call)                       \
    do {                                               \
        PyThreadState *thread_;                        \
        (store)->inside++;                             \
        thread_ = PyEval_SaveThread();                 \
        if (((why)->status = (call)) != LCRVM_OK)      \
            *(why) = *lcrvm_fault_of(NULL);            \
        PyEval_RestoreThread(thread_);                 \
        (store)->inside--;                             \
    } while (0)

/* Makes a call in memory likewise, but keeps other threads waiting if none of them is in the store. */
#define QUICKLY(store, why, call)                      \
    do {                                               \
        if ((store)->inside > 0)                       \
            FREELY(store, why, call);                  \
        else if (((why)->status = (call)) != LCRVM_OK) \
            *(why) = *lcrvm_fault_of(NULL);            \
    } while (0)

static void pause_briefly(void)
{
    const struct timespec briefly = {0, 1000000};

    Py_BEGIN_ALLOW_THREADS
    nanosleep(&briefly, NULL);
    Py_END_ALLOW_THREADS
}

/* ---- errors and results */

static PyObject *none(void)
{
    Py_INCREF(Py_None);
    return Py_None;
}

static PyObject *number_or_none(bool is_number, unsigned long long number)
{
    return is_number ? PyLong_FromUnsignedLongLong(number) : none();
}

/* Raises why a call did nothing. `thread` is the thread that has the lock, or 0. */
static PyObject *fail_of(const struct lcrvm_fault *why, unsigned long thread)
{
    const bool has_area = why->status != LCRVM_OUT_OF_SEGMENT || why->has_area;
    PyObject *text = PyUnicode_DecodeUTF8(why->text, (Py_ssize_t)strlen(why->text), "replace");
    PyObject *error = PyObject_CallFunction(
        make_error, "iNKKKNKKKNi", (int)why->status, text, why->segment, why->sequence, why->applied,
        number_or_none(has_area, why->area), why->words, why->tail, why->need, number_or_none(thread != 0, thread),
        why->error);

    if (error != NULL)
        PyErr_SetObject((PyObject *)Py_TYPE(error), error);
    Py_XDECREF(error);
    return NULL;
}

static PyObject *fail(const struct lcrvm_fault *why)
{
    return fail_of(why, 0);
}

/* Raises `status` with `text`, of which the library was not asked. */
static PyObject *refuse(int status, const char *text)
{
    struct lcrvm_fault why = {.status = (enum lcrvm_status)status};

    snprintf(why.text, sizeof why.text, "%s", text);
    return fail(&why);
}

static PyObject *none_or_fail(const struct lcrvm_fault *why)
{
    return why->status == LCRVM_OK ? none() : fail(why);
}

/* Makes a named tuple of `values`, which it takes. No code of Python runs, in which a signal could be seen. */
static PyObject *named_tuple(PyObject *type, PyObject *values)
{
    PyObject *it = NULL;

    if (values != NULL)
        it = PyObject_CallMethod((PyObject *)&PyTuple_Type, "__new__", "OO", type, values);
    Py_XDECREF(values);
    return it;
}

/* ---- arguments */

static int take_number(PyObject *given, uint64_t most, uint64_t *number)
{
    PyObject *whole = PyNumber_Index(given);
    bool is_within;

    if (whole == NULL)
        return 0;
    *number = PyLong_AsUnsignedLongLong(whole);
    is_within = PyErr_Occurred() == NULL && *number <= most;
    if (!is_within) {
        PyErr_Clear();
        PyErr_Format(PyExc_ValueError, "%S is not a number from 0 to %llu", whole, (unsigned long long)most);
    }
    Py_DECREF(whole);
    return is_within;
}

static int take_64(PyObject *given, void *number)
{
    return take_number(given, UINT64_MAX, number);
}

static int take_32(PyObject *given, void *number)
{
    uint64_t wide;

    if (!take_number(given, UINT32_MAX, &wide))
        return 0;
    *(uint32_t *)number = (uint32_t)wide;
    return 1;
}

static int take_seconds(PyObject *given, void *seconds)
{
    const double it = PyFloat_AsDouble(given);

    if (PyErr_Occurred() != NULL)
        return 0;
    *(double *)seconds = it;
    if (!(it >= 0))
        PyErr_Format(PyExc_ValueError, "a timeout of %S seconds: give 0 or more", given);
    return it >= 0;
}

static bool take_segments(PyObject *given, uint32_t *segments, size_t *count)
{
    PyObject *items = PySequence_Tuple(given);
    const Py_ssize_t length = items != NULL ? PyTuple_Size(items) : 0;
    bool is_good = items != NULL && length <= MOST_SEGMENTS;

    if (items != NULL && !is_good)
        PyErr_SetString(PyExc_ValueError, "a store has 16 segments at most");
    for (Py_ssize_t i = 0; i < length && is_good; i++)
        is_good = take_32(PyTuple_GetItem(items, i), &segments[i]);
    *count = (size_t)length;
    Py_XDECREF(items);
    return is_good;
}

static int take_geometry(PyObject *given, void *geometry)
{
    struct lcrvm_geometry *it = geometry;
    PyObject *size = PySequence_Tuple(given);
    const int is_good = size != NULL && PyArg_ParseTuple(size, "O&O&O&O&:Geometry", take_32, &it->segments, take_32,
                                                         &it->pages, take_32, &it->words, take_32, &it->nodes);

    it->size = sizeof *it;
    it->threads = MOST_THREADS;
    Py_XDECREF(size);
    return is_good;
}

/* Returns the bytes of `data`, any buffer, as they are now. */
static PyObject *bytes_of(PyObject *data)
{
    PyObject *view, *bytes;

    if (Py_TYPE(data) == &PyBytes_Type)
        return Py_INCREF(data), data;
    view = PyMemoryView_FromObject(data);
    bytes = view != NULL ? PyBytes_FromObject(view) : NULL;
    Py_XDECREF(view);
    return bytes;
}

/* ---- the begin and the end of transactions */

static bool is_live(const Store *store)
{
    if (store->forks != forks)
        return refuse(LCRVM_FORKED, ""), false;
    if (store->handle == NULL || store->ending)
        return refuse(CLOSED, ""), false;
    return true;
}

/* Lets one thread at a time into the calls of a transaction. `leave` lets it out. */
static bool enter(Transaction *self)
{
    if (!is_live(self->store))
        return false;
    if (self->inside)
        return refuse(LCRVM_OUT_OF_TURN, "another thread is within a call of this transaction"), false;
    if (self->state != OPEN)
        return refuse(LCRVM_OUT_OF_TURN, "the transaction is not open"), false;
    return self->inside = true;
}

static bool leave(Transaction *self, const struct lcrvm_fault *why)
{
    self->inside = false;
    return why->status == LCRVM_OK || fail(why) != NULL;
}

static void free_view(struct view *view)
{
    PyObject *done = PyObject_CallMethod(view->given, "release", NULL);

    if (done == NULL)
        PyErr_Clear(); /* a view that was made of it stays, and writes nowhere */
    Py_XDECREF(done);
    Py_DECREF(view->given);
    Py_DECREF(view->pin);
    Py_DECREF(view->array);
    free(view);
}

/* Ends the transaction in `state`, and releases its views, so that nobody writes there in vain. */
static void finish(Transaction *self, enum state state)
{
    Transaction **at = &self->store->open;
    PyObject *type, *value, *traceback;

    while (*at != self)
        at = &(*at)->next;
    *at = self->next;
    self->state = state;
    PyErr_Fetch(&type, &value, &traceback);
    while (self->views != NULL) {
        struct view *view = self->views;

        self->views = view->next;
        free_view(view);
    }
    PyErr_Restore(type, value, traceback);
}

static void give_up(Transaction *self)
{
    struct lcrvm_fault why;

    self->inside = true;
    QUICKLY(self->store, &why, lcrvm_abort(self->store->handle, self->node, &self->number));
    self->inside = false;
    finish(self, ABORTED);
}

/* Finds the part of the bytes `from` to `to` that `view` has, if it is of `segment`; segment 0 stands for each. */
static bool meets(const struct view *view, uint32_t segment, uint64_t from, uint64_t to, uint32_t *low, uint32_t *count)
{
    const uint64_t end = (uint64_t)view->offset + view->length, high = end < to ? end : to;

    *low = from > view->offset ? (uint32_t)from : view->offset;
    *count = (uint32_t)(high - *low);
    return (segment == 0 || segment == view->segment) && *low < high;
}

/* Writes the part of the bytes `from` to `to` that the views have. */
static void write_views(Transaction *self, uint32_t segment, uint64_t from, uint64_t to, struct lcrvm_fault *why)
{
    uint32_t low, count;

    why->status = LCRVM_OK;
    for (const struct view *it = self->views; it != NULL && why->status == LCRVM_OK; it = it->next)
        if (meets(it, segment, from, to, &low, &count))
            QUICKLY(self->store, why, lcrvm_write(self->store->handle, self->node, self->number, it->segment, low,
                                                  it->bytes + (low - it->offset), count));
}

static void try_begin(Transaction *self, double seconds, struct lcrvm_fault *why)
{
    const uint32_t milliseconds = seconds < for_ever ? (uint32_t)ceil(seconds * 1000) : UINT32_MAX;

    if (milliseconds == 0)
        QUICKLY(self->store, why, lcrvm_begin(self->store->handle, self->node, &self->number, self->writing,
                                              self->writing_count, self->reading, self->reading_count, 0));
    else
        FREELY(self->store, why, lcrvm_begin(self->store->handle, self->node, &self->number, self->writing,
                                             self->writing_count, self->reading, self->reading_count, milliseconds));
}

/* Waits for the locks; false if a signal's handler has raised, or if the store was closed meanwhile. The main thread
   looks for signals, and loses its turn each time. So it looks ever less often while other threads wait too. */
static bool wait_for_locks(Transaction *self, double until, struct lcrvm_fault *why)
{
    const bool is_main = syscall(SYS_gettid) == getpid();
    double begun = now(), most = is_main ? first_wait : for_ever;

    for (; why->status == LCRVM_BUSY && begun < until; begun = now()) {
        const double left = until - begun, wait = left < most ? left : most;

        try_begin(self, wait, why);
        if (why->status != LCRVM_BUSY || now() - begun < wait) /* told early: it would wait for itself */
            return true;
        if (PyErr_CheckSignals() != 0 || !is_live(self->store))
            return false;
        if (is_main)
            most = self->store->waiting == 1 ? first_wait : 2 * most > longest_wait ? longest_wait : 2 * most;
    }
    return true;
}

/* Begins, now or after a wait of the transaction's timeout at most; false as wait_for_locks says. */
static bool begin_waiting(Transaction *self, struct lcrvm_fault *why)
{
    bool is_answered = true;

    try_begin(self, 0, why);
    if (why->status == LCRVM_BUSY) {
        self->store->waiting++;
        is_answered = wait_for_locks(self, now() + self->timeout, why);
        self->store->waiting--;
    }
    return is_answered;
}

/* Returns the thread that has a segment, or 0. */
static unsigned long holder_of(const Store *store, uint64_t segment)
{
    for (const Transaction *it = store->open; it != NULL; it = it->next) {
        for (size_t i = 0; i < it->writing_count; i++)
            if (it->writing[i] == segment)
                return it->owner;
        for (size_t i = 0; i < it->reading_count; i++)
            if (it->reading[i] == segment)
                return it->owner;
    }
    return 0;
}

static bool begin(Transaction *self)
{
    Store *store = self->store;
    struct lcrvm_fault why;
    bool is_answered;

    if (!is_live(store))
        return false;
    if (self->state == OPEN || self->inside)
        return refuse(LCRVM_OUT_OF_TURN, "the transaction is open already"), false;
    self->inside = true;
    is_answered = begin_waiting(self, &why);
    self->inside = false;
    if (!is_answered)
        return false;
    if (why.status != LCRVM_OK)
        return fail_of(&why, why.status == LCRVM_BUSY ? holder_of(store, why.segment) : 0), false;
    self->owner = PyThread_get_thread_ident();
    self->state = OPEN;
    self->next = store->open;
    store->open = self;
    self->cut = store->ending; /* the end began while this thread waited */
    if (self->cut)
        give_up(self);
    return !self->cut || is_live(store);
}

/* Commits. If that is refused it aborts the transaction. */
static bool commit(Transaction *self)
{
    struct lcrvm_fault why;

    if (!enter(self))
        return false;
    self->placed = (struct lcrvm_record){0, 0};
    write_views(self, 0, 0, UINT64_MAX, &why);
    if (why.status == LCRVM_OK)
        FREELY(self->store, &why,
               lcrvm_commit(self->store->handle, self->node, &self->number, self->durable, &self->placed));
    self->inside = false;
    if (why.status == LCRVM_OK)
        finish(self, COMMITTED);
    else if (self->number == LCRVM_NO_TRANSACTION)
        finish(self, UNKNOWN);
    else
        give_up(self);
    return why.status == LCRVM_OK || fail(&why) != NULL;
}

static PyObject *transaction_begin(Transaction *self, PyObject *unused)
{
    (void)unused;
    if (!begin(self))
        return NULL;
    Py_INCREF(self);
    return (PyObject *)self;
}

static PyObject *transaction_commit(Transaction *self, PyObject *unused)
{
    (void)unused;
    if (!commit(self))
        return NULL;
    if (self->placed.words == 0)
        return none();
    return named_tuple(commit_type, Py_BuildValue("KK", (unsigned long long)self->placed.place,
                                                  (unsigned long long)self->placed.words));
}

static PyObject *transaction_abort(Transaction *self, PyObject *unused)
{
    (void)unused;
    if (self->inside && self->store->forks == forks)
        return refuse(LCRVM_OUT_OF_TURN, "another thread is within a call of this transaction");
    if (self->state == OPEN)
        give_up(self);
    return none();
}

static PyObject *transaction_exit(Transaction *self, PyObject *args)
{
    PyObject *kind, *value, *traceback;

    if (!PyArg_UnpackTuple(args, "__exit__", 3, 3, &kind, &value, &traceback))
        return NULL;
    if (kind != Py_None)
        return transaction_abort(self, NULL);
    if (self->cut)
        return refuse(CLOSED, "the transaction was aborted");
    return self->state != OPEN || commit(self) ? none() : NULL;
}

/* ---- bytes */

static PyObject *read_bytes(Transaction *self, uint32_t segment, uint32_t offset, uint32_t length)
{
    struct lcrvm_fault why;
    PyObject *bytes;

    if (length > self->store->geometry.pages * PAGE_BYTES)
        return refuse(LCRVM_OUT_OF_SEGMENT, "");
    bytes = PyBytes_FromStringAndSize(NULL, length);
    if (bytes == NULL || !enter(self))
        return Py_XDECREF(bytes), NULL;
    write_views(self, segment, offset, (uint64_t)offset + length, &why);
    if (why.status == LCRVM_OK)
        QUICKLY(self->store, &why, lcrvm_read(self->store->handle, self->node, self->number, segment, offset,
                                              PyBytes_AsString(bytes), length));
    if (!leave(self, &why))
        Py_CLEAR(bytes);
    return bytes;
}

/* Sets the range of `bytes` and writes them, here and in the views. It takes `bytes`, which may be NULL. */
static bool write_bytes(Transaction *self, uint32_t segment, uint32_t offset, PyObject *bytes)
{
    struct lcrvm_fault why = {.status = LCRVM_OUT_OF_SEGMENT};
    const size_t length = bytes != NULL ? (size_t)PyBytes_Size(bytes) : 0;
    const char *from = bytes != NULL ? PyBytes_AsString(bytes) : NULL;
    uint32_t low, count;

    if (bytes == NULL || !enter(self))
        return Py_XDECREF(bytes), false;
    if (length <= UINT32_MAX)
        QUICKLY(self->store, &why, lcrvm_put(self->store->handle, self->node, self->number, segment, offset, from,
                                             (uint32_t)length));
    for (struct view *it = self->views; it != NULL && why.status == LCRVM_OK; it = it->next)
        if (meets(it, segment, offset, (uint64_t)offset + length, &low, &count))
            memcpy(it->bytes + (low - it->offset), from + (low - offset), count);
    Py_DECREF(bytes);
    return leave(self, &why);
}

/* Takes the place of t[segment, start:stop], as of a sequence of the segment's length. */
static bool take_slice(const Transaction *self, PyObject *key, uint32_t *segment, uint32_t *offset, uint32_t *length)
{
    Py_ssize_t start, stop, step;

    if (!PyTuple_Check(key) || PyTuple_Size(key) != 2 || !PySlice_Check(PyTuple_GetItem(key, 1)))
        return PyErr_SetString(PyExc_TypeError, "bytes are t[segment, start:stop]"), false;
    if (!take_32(PyTuple_GetItem(key, 0), segment))
        return false;
    if (PySlice_Unpack(PyTuple_GetItem(key, 1), &start, &stop, &step) != 0)
        return false;
    if (step != 1)
        return PyErr_SetString(PyExc_ValueError, "bytes are t[segment, start:stop], with no step"), false;
    *length = (uint32_t)PySlice_AdjustIndices(self->store->geometry.pages * PAGE_BYTES, &start, &stop, step);
    *offset = (uint32_t)start;
    return true;
}

static PyObject *transaction_get(Transaction *self, PyObject *key)
{
    uint32_t segment, offset, length;

    return take_slice(self, key, &segment, &offset, &length) ? read_bytes(self, segment, offset, length) : NULL;
}

static int transaction_set(Transaction *self, PyObject *key, PyObject *data)
{
    uint32_t segment, offset, length;
    PyObject *bytes;

    if (data == NULL)
        return PyErr_SetString(PyExc_TypeError, "bytes of a segment cannot be deleted"), -1;
    if (!take_slice(self, key, &segment, &offset, &length))
        return -1;
    bytes = bytes_of(data);
    if (bytes != NULL && PyBytes_Size(bytes) != (Py_ssize_t)length) {
        PyErr_Format(PyExc_ValueError, "%zd bytes for a slice of %zd", PyBytes_Size(bytes), (Py_ssize_t)length);
        Py_CLEAR(bytes);
    }
    return write_bytes(self, segment, offset, bytes) ? 0 : -1;
}

/* Takes the arguments of a call on a place. */
static bool take_place(PyObject *args, PyObject *named, const char *format, uint32_t *segment, uint32_t *offset,
                       uint32_t *length)
{
    static char *names[] = {"segment", "offset", "length", NULL};

    return PyArg_ParseTupleAndKeywords(args, named, format, names, take_32, segment, take_32, offset, take_32, length);
}

static PyObject *transaction_read(Transaction *self, PyObject *args, PyObject *named)
{
    uint32_t segment, offset, length;

    if (!take_place(args, named, "O&O&O&:read", &segment, &offset, &length))
        return NULL;
    return read_bytes(self, segment, offset, length);
}

static bool set_range(Transaction *self, uint32_t segment, uint32_t offset, uint32_t length)
{
    struct lcrvm_fault why;

    if (!enter(self))
        return false;
    QUICKLY(self->store, &why, lcrvm_set_range(self->store->handle, self->node, self->number, segment, offset, length));
    return leave(self, &why);
}

static PyObject *transaction_set_range(Transaction *self, PyObject *args, PyObject *named)
{
    uint32_t segment, offset, length;

    if (!take_place(args, named, "O&O&O&:set_range", &segment, &offset, &length))
        return NULL;
    return set_range(self, segment, offset, length) ? none() : NULL;
}

static PyObject *transaction_write(Transaction *self, PyObject *args, PyObject *named)
{
    static char *names[] = {"segment", "offset", "data", NULL};
    uint32_t segment, offset;
    PyObject *data;

    if (!PyArg_ParseTupleAndKeywords(args, named, "O&O&O:write", names, take_32, &segment, take_32, &offset, &data))
        return NULL;
    return write_bytes(self, segment, offset, bytes_of(data)) ? none() : NULL;
}

static PyObject *transaction_read_into(Transaction *self, PyObject *args, PyObject *named)
{
    static char *names[] = {"segment", "offset", "buffer", NULL};
    uint32_t segment, offset;
    PyObject *buffer, *view, *flat = NULL, *bytes = NULL;
    Py_ssize_t size = 0;
    int status = -1;

    if (!PyArg_ParseTupleAndKeywords(args, named, "O&O&O:read_into", names, take_32, &segment, take_32, &offset,
                                     &buffer))
        return NULL;
    view = PyMemoryView_FromObject(buffer);
    if (view != NULL)
        flat = PyObject_CallMethod(view, "cast", "s", "B");
    if (flat != NULL) {
        size = PyObject_Size(flat);
        bytes = read_bytes(self, segment, offset, size < UINT32_MAX ? (uint32_t)size : UINT32_MAX);
    }
    if (bytes != NULL)
        status = PySequence_SetSlice(flat, 0, size, bytes);
    Py_XDECREF(bytes);
    Py_XDECREF(flat);
    Py_XDECREF(view);
    return status == 0 ? none() : NULL;
}

static struct view *new_view(PyObject *bytes, uint32_t segment, uint32_t offset, uint32_t length)
{
    struct view *view = calloc(1, sizeof *view);

    if (view == NULL)
        return PyErr_NoMemory(), NULL;
    *view = (struct view){.segment = segment, .offset = offset, .length = length};
    view->array = PyByteArray_FromObject(bytes);
    view->pin = view->array != NULL ? PyMemoryView_FromObject(view->array) : NULL;
    view->given = view->pin != NULL ? PyMemoryView_FromObject(view->array) : NULL;
    if (view->given != NULL)
        return view->bytes = PyByteArray_AsString(view->array), view;
    Py_XDECREF(view->pin);
    Py_XDECREF(view->array);
    free(view);
    return NULL;
}

static PyObject *transaction_view(Transaction *self, PyObject *args, PyObject *named)
{
    uint32_t segment, offset, length, low, count;
    struct view *view;
    PyObject *bytes;

    if (!take_place(args, named, "O&O&O&:view", &segment, &offset, &length))
        return NULL;
    for (const struct view *it = self->views; it != NULL; it = it->next)
        if (meets(it, segment, offset, (uint64_t)offset + length, &low, &count))
            return PyErr_SetString(PyExc_ValueError, "some of these bytes are in a view already: use that one"), NULL;
    bytes = set_range(self, segment, offset, length) ? read_bytes(self, segment, offset, length) : NULL;
    view = bytes != NULL ? new_view(bytes, segment, offset, length) : NULL;
    Py_XDECREF(bytes);
    if (view == NULL)
        return NULL;
    if (!enter(self)) /* the collector ran a call that ended it */
        return free_view(view), NULL;
    self->inside = false;
    view->next = self->views;
    self->views = view;
    Py_INCREF(view->given);
    return view->given;
}

static PyObject *transaction_state(Transaction *self, void *unused)
{
    (void)unused;
    return PyUnicode_FromString(state_names[self->state]);
}

static PyObject *transaction_repr(Transaction *self)
{
    return PyUnicode_FromFormat("<lcrvm.Transaction %s of %R>", state_names[self->state], self->store);
}

static void warn(const char *format, PyObject *store)
{
    if (PyErr_WarnFormat(PyExc_ResourceWarning, 1, format, store) != 0)
        PyErr_WriteUnraisable(NULL);
}

static void clear_weak(PyObject *self, PyObject *weak)
{
    if (weak != NULL)
        PyObject_ClearWeakRefs(self);
}

static void free_object(PyObject *self)
{
    PyTypeObject *type = Py_TYPE(self);

    ((freefunc)PyType_GetSlot(type, Py_tp_free))(self);
    Py_DECREF(type);
}

static void transaction_free(Transaction *self)
{
    PyObject *type, *value, *traceback;

    clear_weak((PyObject *)self, self->weak);
    PyErr_Fetch(&type, &value, &traceback);
    if (self->state == OPEN) {
        give_up(self);
        if (self->store->forks == forks)
            warn("a transaction of %R was dropped open, and so aborted", (PyObject *)self->store);
    }
    Py_DECREF(self->store);
    PyErr_Restore(type, value, traceback);
    free_object((PyObject *)self);
}

/* ---- the begin and the end of stores */

static PyObject *store_new(PyTypeObject *type, PyObject *args, PyObject *named)
{
    static char *names[] = {"path", "geometry", "durable", "timeout", NULL};
    struct lcrvm_geometry geometry;
    struct lcrvm_options options = {.size = sizeof options, .geometry = &geometry};
    struct lcrvm_fault why = {.size = sizeof why};
    PyObject *path = NULL, *size = Py_None;
    double timeout = 5;
    int durable = 1;
    Store *self;

    if (!PyArg_ParseTupleAndKeywords(args, named, "O|OpO&:Store", names, &path, &size, &durable, take_seconds,
                                     &timeout))
        return NULL;
    if (size == Py_None)
        options.geometry = NULL;
    else if (!take_geometry(size, &geometry))
        return NULL;
    self = (Store *)((allocfunc)PyType_GetSlot(type, Py_tp_alloc))(type, 0);
    if (self == NULL || !PyUnicode_FSConverter(path, &self->path))
        return Py_XDECREF(self), NULL;
    self->forks = forks;
    self->durable = durable;
    self->timeout = timeout;
    Py_BEGIN_ALLOW_THREADS
    lcrvm_open(PyBytes_AsString(self->path), &options, &self->handle, &why);
    Py_END_ALLOW_THREADS
    if (self->handle == NULL)
        return fail(&why), Py_DECREF(self), NULL;
    self->geometry = *lcrvm_geometry_of(self->handle);
    self->next = stores;
    stores = self;
    return (PyObject *)self;
}

static void forget(Store *self)
{
    Store **at = &stores;

    while (*at != NULL && *at != self)
        at = &(*at)->next;
    if (*at != NULL)
        *at = self->next;
}

/* Finds a transaction that another thread has open or is within. */
static const Transaction *other_open(const Store *self)
{
    const Transaction *it = self->open;

    while (it != NULL && !it->inside && it->owner == PyThread_get_thread_ident())
        it = it->next;
    return it;
}

/* Aborts each transaction, unless a thread is within a call of it. */
static void cut_open(Store *self)
{
    Transaction *it = self->open;

    while (it != NULL) {
        if (it->inside) {
            it = it->next;
            continue;
        }
        it->cut = true;
        Py_INCREF(it);
        give_up(it);
        Py_DECREF(it);
        it = self->open; /* others may have ended theirs meanwhile */
    }
}

/* Ends a store that no other thread is within. A parent's store is not flushed, and its transactions go on. */
static void end(Store *self, struct lcrvm_fault *why)
{
    struct lcrvm_store *handle = self->handle;
    const bool is_own = self->forks == forks;

    if (is_own)
        cut_open(self);
    self->handle = NULL;
    self->closing = true;
    Py_BEGIN_ALLOW_THREADS
    lcrvm_close(handle, why);
    Py_END_ALLOW_THREADS
    self->closing = false;
    if (is_own && why->status == LCRVM_BUSY)
        self->handle = handle;
    else
        forget(self);
    if (!is_own)
        why->status = LCRVM_OK;
}

/* True if another thread is within the store, or has a transaction. */
static bool is_used(const Store *self)
{
    if (self->forks != forks)
        return false;
    return self->closing || (self->handle != NULL && (self->inside > 0 || other_open(self) != NULL));
}

/* Raises why a store cannot be closed: a transaction of another thread, or its call. */
static PyObject *fail_of_others(const Store *self)
{
    const Transaction *it = other_open(self);
    struct lcrvm_fault why = {.status = LCRVM_BUSY, .text = "the store is not closed"};

    if (it != NULL)
        why.segment = it->writing_count > 0 ? it->writing[0] : it->reading_count > 0 ? it->reading[0] : 0;
    return fail_of(&why, it != NULL ? it->owner : 0);
}

static PyObject *store_close(Store *self, PyObject *unused)
{
    const double until = now() + self->timeout;
    struct lcrvm_fault why = {.size = sizeof why};

    (void)unused;
    while (is_used(self)) {
        if (now() >= until)
            return fail_of_others(self);
        pause_briefly();
        if (PyErr_CheckSignals() != 0)
            return NULL;
    }
    if (self->handle != NULL)
        end(self, &why);
    return none_or_fail(&why);
}

static PyObject *store_exit(Store *self, PyObject *args)
{
    (void)args;
    return store_close(self, NULL);
}

/* Ends a store at the end of the interpreter. It gives threads within some time to leave, and aborts what they have
   open. If one does not leave, it makes durable what was committed. */
static void end_anyway(Store *self, struct lcrvm_fault *why)
{
    const double until = now() + last_wait;

    self->ending = true;
    while (self->forks == forks && (self->closing || self->inside > 0) && now() < until) {
        cut_open(self);
        pause_briefly();
    }
    if (self->handle != NULL && (self->forks != forks || self->inside == 0))
        end(self, why);
    for (uint32_t node = 0; node < self->geometry.nodes && self->handle != NULL && why->status == LCRVM_OK; node++)
        FREELY(self, why, lcrvm_flush(self->handle, node, NULL));
    forget(self);
}

static PyObject *end_all(PyObject *module, PyObject *unused)
{
    struct lcrvm_fault first = {.size = sizeof first};

    (void)module, (void)unused;
    while (stores != NULL) {
        struct lcrvm_fault why = {.size = sizeof why};
        Store *self = stores;

        Py_INCREF(self);
        end_anyway(self, &why);
        Py_DECREF(self);
        if (first.status == LCRVM_OK)
            first = why;
    }
    return none_or_fail(&first);
}

static PyObject *store_path(Store *self, void *unused)
{
    (void)unused;
    return PyUnicode_DecodeFSDefaultAndSize(PyBytes_AsString(self->path), PyBytes_Size(self->path));
}

static void store_free(Store *self)
{
    PyObject *type, *value, *traceback, *path;
    struct lcrvm_fault why = {.size = sizeof why};

    clear_weak((PyObject *)self, self->weak);
    PyErr_Fetch(&type, &value, &traceback);
    if (self->handle != NULL) {
        end(self, &why);
        path = store_path(self, NULL);
        if (self->forks == forks && path != NULL)
            warn("the store %R was dropped open, and so closed", path);
        Py_XDECREF(path);
        if (why.status != LCRVM_OK) {
            fail(&why);
            PyErr_WriteUnraisable(NULL);
        }
    }
    Py_XDECREF(self->path);
    PyErr_Restore(type, value, traceback);
    free_object((PyObject *)self);
}

/* ---- the other calls of stores */

static PyObject *store_transaction(Store *self, PyObject *writing, PyObject *named)
{
    static char *names[] = {"reading", "durable", "timeout", "node", NULL};
    PyObject *empty = PyTuple_New(0), *reading = empty, *durable = Py_None, *timeout = Py_None;
    Transaction *it = NULL;
    uint32_t node = 0;

    if (empty != NULL && PyArg_ParseTupleAndKeywords(empty, named, "|$OOOO&:transaction", names, &reading, &durable,
                                                     &timeout, take_32, &node) && is_live(self))
        it = (Transaction *)PyType_GenericAlloc((PyTypeObject *)transaction_type, 0);
    if (it != NULL) {
        Py_INCREF(self);
        it->store = self;
        it->node = node;
        it->number = LCRVM_NO_TRANSACTION;
        it->timeout = self->timeout;
        if (PyErr_Occurred() != NULL || (timeout != Py_None && !take_seconds(timeout, &it->timeout)) ||
            !take_segments(writing, it->writing, &it->writing_count) ||
            !take_segments(reading, it->reading, &it->reading_count))
            Py_CLEAR(it);
        else /* a transaction that only reads waits for no device, unless that is asked for */
            it->durable = durable == Py_None ? self->durable && it->writing_count > 0 : PyObject_IsTrue(durable) != 0;
    }
    Py_XDECREF(empty);
    return (PyObject *)it;
}

typedef enum lcrvm_status Counts(struct lcrvm_store *, uint32_t, uint64_t *);

static PyObject *count_of(Store *self, PyObject *args, PyObject *named, const char *format, Counts *call)
{
    static char *names[] = {"node", NULL};
    struct lcrvm_fault why;
    uint64_t count = 0;
    uint32_t node = 0;

    if (!PyArg_ParseTupleAndKeywords(args, named, format, names, take_32, &node) || !is_live(self))
        return NULL;
    FREELY(self, &why, call(self->handle, node, &count));
    return why.status == LCRVM_OK ? PyLong_FromUnsignedLongLong(count) : fail(&why);
}

static PyObject *store_flush(Store *self, PyObject *args, PyObject *named)
{
    return count_of(self, args, named, "|O&:flush", lcrvm_flush);
}

static PyObject *store_truncate(Store *self, PyObject *args, PyObject *named)
{
    return count_of(self, args, named, "|O&:truncate", lcrvm_truncate);
}

static PyObject *store_trim(Store *self, PyObject *args, PyObject *named)
{
    return count_of(self, args, named, "|O&:trim", lcrvm_trim);
}

static PyObject *store_stats(Store *self, PyObject *args, PyObject *named)
{
    static char *names[] = {"node", NULL};
    struct lcrvm_counters it = {.size = sizeof it};
    struct lcrvm_fault why;
    uint32_t node = 0;

    if (!PyArg_ParseTupleAndKeywords(args, named, "|O&:stats", names, take_32, &node) || !is_live(self))
        return NULL;
    QUICKLY(self, &why, lcrvm_stats(self->handle, node, &it));
    if (why.status != LCRVM_OK)
        return fail(&why);
    return named_tuple(stats_type, Py_BuildValue("kKKKKKKd", (unsigned long)it.open, (unsigned long long)it.log_words,
                                                 (unsigned long long)it.commits, (unsigned long long)it.flushes,
                                                 (unsigned long long)it.flushed, (unsigned long long)it.truncations,
                                                 (unsigned long long)it.waits, 1e-6 * (double)it.longest_wait));
}

typedef enum lcrvm_status Moves(struct lcrvm_store *, uint32_t, uint32_t);

static PyObject *move_token(Store *self, PyObject *args, PyObject *named, const char *format, Moves *call)
{
    static char *names[] = {"node", "segment", NULL};
    struct lcrvm_fault why;
    uint32_t node, segment;

    if (!PyArg_ParseTupleAndKeywords(args, named, format, names, take_32, &node, take_32, &segment) || !is_live(self))
        return NULL;
    FREELY(self, &why, call(self->handle, node, segment));
    return none_or_fail(&why);
}

static PyObject *store_leave(Store *self, PyObject *args, PyObject *named)
{
    return move_token(self, args, named, "O&O&:leave", lcrvm_leave);
}

static PyObject *store_arrive(Store *self, PyObject *args, PyObject *named)
{
    return move_token(self, args, named, "O&O&:arrive", lcrvm_arrive);
}

static PyObject *store_deliver(Store *self, PyObject *args, PyObject *named)
{
    static char *names[] = {"node", "record", "segment", "to", NULL};
    struct lcrvm_delivered done = {LCRVM_IGNORED, 0};
    struct lcrvm_fault why;
    uint32_t node, segment, to;
    uint64_t record;
    PyObject *delivery, *applied;

    if (!PyArg_ParseTupleAndKeywords(args, named, "O&O&O&O&:deliver", names, take_32, &node, take_64, &record, take_32,
                                     &segment, take_32, &to) || !is_live(self))
        return NULL;
    FREELY(self, &why, lcrvm_deliver(self->handle, node, record, segment, to, &done));
    if (why.status != LCRVM_OK)
        return fail(&why);
    delivery = PyObject_CallFunction(delivery_type, "i", (int)done.delivery);
    applied = number_or_none(done.delivery == LCRVM_APPLIED, done.applied);
    return named_tuple(delivered_type, Py_BuildValue("NN", delivery, applied));
}

static PyObject *store_copy(Store *self, PyObject *args, PyObject *named)
{
    static char *names[] = {"path", "geometry", NULL};
    struct lcrvm_fault why = {.size = sizeof why};
    struct lcrvm_geometry geometry;
    PyObject *given, *path = NULL, *size = Py_None, *answer = NULL;

    if (!PyArg_ParseTupleAndKeywords(args, named, "O|O:copy", names, &given, &size) ||
        (size != Py_None && !take_geometry(size, &geometry)) || !PyUnicode_FSConverter(given, &path))
        return NULL;
    if (is_live(self)) {
        FREELY(self, &why,
               lcrvm_copy(self->handle, PyBytes_AsString(path), size != Py_None ? &geometry : NULL));
        answer = none_or_fail(&why);
    }
    Py_DECREF(path);
    return answer;
}

static PyObject *store_enter(Store *self, PyObject *unused)
{
    (void)unused;
    if (!is_live(self))
        return NULL;
    Py_INCREF(self);
    return (PyObject *)self;
}

static PyObject *store_closed(Store *self, void *unused)
{
    (void)unused;
    return PyBool_FromLong(self->handle == NULL);
}

static PyObject *store_geometry(Store *self, void *unused)
{
    const struct lcrvm_geometry *size = &self->geometry;

    (void)unused;
    return named_tuple(geometry_type, Py_BuildValue("kkkk", (unsigned long)size->segments, (unsigned long)size->pages,
                                                    (unsigned long)size->words, (unsigned long)size->nodes));
}

static PyObject *store_repr(Store *self)
{
    PyObject *path = store_path(self, NULL), *text = NULL;

    if (path != NULL)
        text = PyUnicode_FromFormat("<lcrvm.Store %R%s>", path, self->handle == NULL ? " closed" : "");
    Py_XDECREF(path);
    return text;
}

/* ---- the module */

static PyObject *create(PyObject *module, PyObject *args)
{
    struct lcrvm_geometry geometry;
    const struct lcrvm_options options = {.size = sizeof options, .geometry = &geometry};
    struct lcrvm_fault why = {.size = sizeof why};
    PyObject *given, *path = NULL;

    (void)module;
    if (!PyArg_ParseTuple(args, "OO&:create", &given, take_geometry, &geometry) || !PyUnicode_FSConverter(given, &path))
        return NULL;
    Py_BEGIN_ALLOW_THREADS
    lcrvm_create(PyBytes_AsString(path), &options, &why);
    Py_END_ALLOW_THREADS
    Py_DECREF(path);
    return none_or_fail(&why);
}

/* Takes the function in Python that makes errors, and the types of results. */
static PyObject *use(PyObject *module, PyObject *args)
{
    (void)module;
    if (!PyArg_ParseTuple(args, "OOOOOO:use", &make_error, &geometry_type, &commit_type, &delivered_type,
                          &delivery_type, &stats_type))
        return NULL;
    Py_INCREF(args); /* so they live as long as the interpreter */
    return none();
}

static PyObject *not_made(PyTypeObject *type, PyObject *args, PyObject *named)
{
    (void)type, (void)args, (void)named;
    return PyErr_SetString(PyExc_TypeError, "a transaction is made by Store.transaction"), NULL;
}

#define CALL(name, function, flags, text) {name, (PyCFunction)(void (*)(void))(function), flags, text}
#define NAMED (METH_VARARGS | METH_KEYWORDS)

static PyMethodDef transaction_calls[] = {
    CALL("begin", transaction_begin, METH_NOARGS,
         "begin($self, /)\n--\n\nLocks the segments, and returns the transaction. `with` does so by itself.\n\n"
         "If another thread has one of them it waits, for the timeout at most, and then raises Busy. It raises Busy\n"
         "at once if this thread would wait for itself. A signal's handler runs meanwhile, at most 100 ms late, or a\n"
         "second if other threads wait too. After its end a transaction may begin again."),
    CALL("commit", transaction_commit, METH_NOARGS,
         "commit($self, /)\n--\n\nCommits, durably unless it was made with durable=False.\n\n"
         "Returns the Commit, or None if nothing was changed. If it raises, the transaction is aborted; but after\n"
         "DeviceFault the state is 'unknown', and the next opening tells."),
    CALL("abort", transaction_abort, METH_NOARGS,
         "abort($self, /)\n--\n\nGives up the changes. It does nothing to a transaction that is not open."),
    CALL("read", transaction_read, NAMED,
         "read($self, /, segment, offset, length)\n--\n\nReturns bytes, with what this transaction has changed."),
    CALL("read_into", transaction_read_into, NAMED,
         "read_into($self, /, segment, offset, buffer)\n--\n\nFills a writable buffer, as a bytearray, with bytes."),
    CALL("write", transaction_write, NAMED,
         "write($self, /, segment, offset, data)\n--\n\nWrites bytes, or those of any buffer."),
    CALL("view", transaction_view, NAMED,
         "view($self, /, segment, offset, length)\n--\n\nReturns a memoryview of bytes, to be changed in place.\n\n"
         "Reads and the commit see the changes there. The end of the transaction releases it."),
    CALL("set_range", transaction_set_range, NAMED,
         "set_range($self, /, segment, offset, length)\n--\n\nSays that these bytes are about to change.\n\n"
         "`write` and `view` do so by themselves. Ranges that touch are one, and a transaction may have 64."),
    CALL("__enter__", transaction_begin, METH_NOARGS, NULL),
    CALL("__exit__", transaction_exit, METH_VARARGS, NULL),
    {NULL, NULL, 0, NULL}};

static PyGetSetDef transaction_values[] = {
    {"state", (getter)transaction_state, NULL, "'new', 'open', 'committed', 'aborted', or after DeviceFault 'unknown'.",
     NULL},
    {NULL, NULL, NULL, NULL, NULL}};

static PyMemberDef transaction_members[] = {
    {"__weaklistoffset__", T_PYSSIZET, offsetof(Transaction, weak), READONLY, NULL}, {NULL, 0, 0, 0, NULL}};

static PyType_Slot transaction_slots[] = {
    {Py_tp_doc, "Changes that are committed together, or not at all; made by Store.transaction.\n\n"
                "In a `with` it begins, and it is committed at the end, or aborted if the block raises.\n"
                "t[segment, start:stop] are bytes, which may be assigned. One thread at a time uses it.\n\n"
                "A KeyboardInterrupt leaves each call done or not done, never half: `state` says which. In Python\n"
                "3.8 and 3.9 it may leave a `with` without a call of its end. Then the transaction is open until it\n"
                "is aborted or dropped."},
    {Py_tp_new, not_made},
    {Py_tp_dealloc, transaction_free},
    {Py_tp_repr, transaction_repr},
    {Py_tp_methods, transaction_calls},
    {Py_tp_getset, transaction_values},
    {Py_tp_members, transaction_members},
    {Py_mp_subscript, transaction_get},
    {Py_mp_ass_subscript, transaction_set},
    {0, NULL}};

static PyMethodDef store_calls[] = {
    CALL("transaction", store_transaction, NAMED,
         "transaction($self, /, *writing, reading=(), durable=None, timeout=None, node=0)\n--\n\n"
         "Makes a transaction that locks segments for writing, and others for reading alone.\n\n"
         "timeout is how many seconds the begin may wait. A durable commit is on the disk when it is answered, with\n"
         "all that it read. With durable=False it is in memory: the next durable commit, a flush, the close, or the\n"
         "interpreter's end makes it durable, and a kill or os._exit before that loses it. Both are by default as the\n"
         "store was opened. But a transaction that only reads is durable only if durable=True says so: what it saw\n"
         "may be lost."),
    CALL("flush", store_flush, NAMED,
         "flush($self, /, node=0)\n--\n\nMakes all commits durable; returns how many there were since the opening."),
    CALL("truncate", store_truncate, NAMED,
         "truncate($self, /, node=0)\n--\n\nWrites the pages and empties the log; returns how often it was emptied.\n\n"
         "A log that is full is emptied by the commit that finds it so."),
    CALL("copy", store_copy, NAMED,
         "copy($self, /, path, geometry=None)\n--\n\n"
         "Makes a store of its own in another folder, with each commit that is done.\n\n"
         "Open transactions go on; their changes are not in the copy. It may be larger: as many nodes, and no fewer\n"
         "segments, pages and words."),
    CALL("close", store_close, METH_NOARGS,
         "close($self, /)\n--\n\nMakes all commits durable and ends the store. A second time it does nothing.\n\n"
         "It aborts the open transactions of this thread. If another thread has one it waits, for the timeout of the\n"
         "store at most, and then raises Busy. In a forked child it ends the child's copy alone."),
    CALL("leave", store_leave, NAMED,
         "leave($self, /, node, segment)\n--\n\nTakes the segment's token from the node."),
    CALL("arrive", store_arrive, NAMED,
         "arrive($self, /, node, segment)\n--\n\nGives the node the token that is on its way."),
    CALL("deliver", store_deliver, NAMED,
         "deliver($self, /, node, record, segment, to)\n--\n\nBrings a durable record of a node to another node.\n\n"
         "Records have numbers from 1 on. It is for one segment, and returns Delivered."),
    CALL("trim", store_trim, NAMED,
         "trim($self, /, node=0)\n--\n\nDrops the durable records that all nodes have applied; returns how many.\n\n"
         "Each truncation does so for its node."),
    CALL("stats", store_stats, NAMED,
         "stats($self, /, node=0)\n--\n\nCounts what a node has done since the opening, as Stats."),
    CALL("__enter__", store_enter, METH_NOARGS, NULL),
    CALL("__exit__", store_exit, METH_VARARGS, NULL),
    {NULL, NULL, 0, NULL}};

static PyGetSetDef store_values[] = {
    {"closed", (getter)store_closed, NULL, "True once it was closed.", NULL},
    {"path", (getter)store_path, NULL, "The folder, as it was given.", NULL},
    {"geometry", (getter)store_geometry, NULL, "How large it is.", NULL},
    {NULL, NULL, NULL, NULL, NULL}};

static PyMemberDef store_members[] = {
    {"__weaklistoffset__", T_PYSSIZET, offsetof(Store, weak), READONLY, NULL}, {NULL, 0, 0, 0, NULL}};

static PyType_Slot store_slots[] = {
    {Py_tp_doc, "Store(path, geometry=None, durable=True, timeout=5.0)\n--\n\nA store that is open; see lcrvm.open.\n\n"
                "If nobody closes it, it is closed when it is dropped, or when the interpreter ends. A forked child\n"
                "cannot use the stores of its parent."},
    {Py_tp_new, store_new},
    {Py_tp_dealloc, store_free},
    {Py_tp_repr, store_repr},
    {Py_tp_methods, store_calls},
    {Py_tp_getset, store_values},
    {Py_tp_members, store_members},
    {0, NULL}};

static PyType_Spec transaction_spec = {"lcrvm.Transaction", sizeof(Transaction), 0, Py_TPFLAGS_DEFAULT,
                                       transaction_slots};
static PyType_Spec store_spec = {"lcrvm.Store", sizeof(Store), 0, Py_TPFLAGS_DEFAULT, store_slots};

static PyMethodDef calls[] = {{"create", create, METH_VARARGS, NULL},
                              {"use", use, METH_VARARGS, NULL},
                              {"end_all", end_all, METH_NOARGS, NULL},
                              {NULL, NULL, 0, NULL}};

static struct PyModuleDef definition = {PyModuleDef_HEAD_INIT, "_lcrvm", NULL, -1, calls, NULL, NULL, NULL, NULL};

PyMODINIT_FUNC PyInit__lcrvm(void)
{
    PyObject *module = PyModule_Create(&definition), *store_type = PyType_FromSpec(&store_spec);

    transaction_type = PyType_FromSpec(&transaction_spec);
    if (module == NULL || store_type == NULL || transaction_type == NULL || pthread_atfork(NULL, NULL, count_fork) != 0)
        return NULL;
    Py_INCREF(transaction_type);
    if (PyModule_AddObject(module, "Store", store_type) != 0 ||
        PyModule_AddObject(module, "Transaction", transaction_type) != 0)
        return NULL;
    return module;
}
