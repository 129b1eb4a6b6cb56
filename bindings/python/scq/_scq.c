/* The queue of Python's package scq, over the library and its bell. Objects pass through it by
 * reference: a buffer has the address of one, whose count the buffer has a part in.
 *
 * All calls of the library are made with the interpreter's lock held, by one port, so that a call is
 * whole for Python's threads, and scq.h's rule of one call at a time is kept. Only who sleeps does so
 * without the lock, and then makes no call of the library.
 */
#define PY_SSIZE_T_CLEAN
#include <Python.h>

#include "scq_bell.h"

#include <math.h>
#include <pthread.h>
#include <stdint.h>
#include <structmember.h>
#include <sys/eventfd.h>
#include <unistd.h>

/* Lines of the bell: items stand on topic 0, and on no topic it is told that all are done. */
enum { ITEMS = 0, ROOM = SCQ_FREE, DONE = 1 };

/* How long the main thread sleeps before it looks for signals. */
#define SLICE UINT64_C(50000000)

/* What rings for tasks. The bell keeps it as long as it is used itself. */
typedef struct watch {
    scq_watch of_bell;
    int fd;
    int is_used;
    struct watch *next;
} watch;

typedef struct Queue {
    PyObject_HEAD
    scq_port port;
    scq_bell bell;
    watch *watches;
    uint32_t buffers;
    uint32_t room;
    uint32_t standing; /* how many items */
    uint64_t unfinished;
    unsigned long generation; /* how often the process had been forked */
    int is_open;
    int is_shut;
} Queue;

static PyObject *Full, *Empty, *ShutDown;
static unsigned long main_thread, generation;

static void forked(void) { generation++; }

/* Whether a call may be made: not of one that has no queue, as where its opening failed, nor of the
 * parent's after a fork. */
static int may(const Queue *queue) {
    if (queue->is_open && queue->generation == generation) return 1;
    PyErr_SetString(PyExc_RuntimeError, queue->is_open ? "the queue is the parent process's"
                                                       : "the queue wasn't opened");
    return 0;
}

/* Where the object of a buffer stands. */
static PyObject **object_of(const Queue *queue, uint32_t index) {
    void *const at = queue->port.memory.base + queue->port.memory.stride * index;
    return at;
}

/* Puts an item if there is room. */
static uint32_t put_now(Queue *queue, PyObject **item) {
    scq_held held;
    uint32_t answer;
    if (queue->is_shut) return SCQ_ENDED;
    answer = scq_lend(&queue->port, &held);
    if (answer != SCQ_OK) return answer;
    *object_of(queue, held.index) = *item;
    answer = scq_send(&queue->port, held.index, ITEMS, NULL);
    if (answer != SCQ_OK) {
        *object_of(queue, held.index) = NULL;
        scq_give_back(&queue->port, held.index);
        return answer;
    }
    Py_INCREF(*item);
    queue->standing++;
    queue->unfinished++;
    scq_bell_ring(&queue->bell, ITEMS);
    return SCQ_OK;
}

/* Gets an item if there is one. */
static uint32_t get_now(Queue *queue, PyObject **item) {
    scq_held held;
    const uint32_t answer = scq_take(&queue->port, ITEMS, &held);
    if (answer == SCQ_EMPTY && queue->is_shut) return SCQ_ENDED;
    if (answer != SCQ_OK) return answer;
    *item = *object_of(queue, held.index);
    *object_of(queue, held.index) = NULL;
    queue->standing--;
    scq_give_back(&queue->port, held.index);
    scq_bell_ring(&queue->bell, ROOM);
    return SCQ_OK;
}

/* Whether all is done. */
static uint32_t look_done(Queue *queue, PyObject **none) {
    (void)none;
    return queue->unfinished == 0 ? SCQ_OK : SCQ_EMPTY;
}

typedef uint32_t look(Queue *queue, PyObject **item);

/* Looks until it is answered otherwise than Empty or Full, or the time is over. Writes the answer,
 * and answers 0 where a signal's handler raised. */
static int wait_for(Queue *queue, uint32_t line, look *call, PyObject **item, uint64_t nanoseconds,
                    uint32_t *answer) {
    const scq_lines lines = scq_line(line);
    const uint64_t until = scq_bell_until(nanoseconds);
    const int is_main = PyThread_get_thread_ident() == main_thread;
    int in_time = 1;
    while (in_time) {
        uint64_t end = until;
        scq_bell_enter(&queue->bell, lines);
        *answer = call(queue, item);
        if (scq_bell_is_through(*answer)) {
            scq_bell_leave(&queue->bell, lines);
            return 1;
        }
        if (is_main && scq_bell_until(SLICE) < until) end = scq_bell_until(SLICE);
        Py_BEGIN_ALLOW_THREADS
        in_time = scq_bell_sleep(&queue->bell, lines, end) || end != until;
        Py_END_ALLOW_THREADS
        scq_bell_wake_up(&queue->bell, lines);
        if (!may(queue)) return 0;
        *answer = call(queue, item);
        if (scq_bell_is_through(*answer)) return 1;
        if (is_main && PyErr_CheckSignals() != 0) return 0;
    }
    return 1;
}

/* Raises what an answer stands for. */
static PyObject *refused(uint32_t answer) {
    if (answer == SCQ_FULL) PyErr_SetNone(Full);
    else if (answer == SCQ_EMPTY) PyErr_SetNone(Empty);
    else if (answer == SCQ_ENDED) PyErr_SetNone(ShutDown);
    else PyErr_SetString(PyExc_RuntimeError, scq_text(answer));
    return NULL;
}

/* The nanoseconds of block and timeout. Answers 0 where it raised. */
static int read_time(PyObject *block, PyObject *timeout, uint64_t *nanoseconds) {
    const int waits = block == NULL ? 1 : PyObject_IsTrue(block);
    double seconds;
    if (waits < 0) return 0;
    *nanoseconds = waits ? SCQ_FOREVER : 0;
    if (!waits || timeout == NULL || timeout == Py_None) return 1;
    seconds = PyFloat_AsDouble(timeout);
    if (seconds == -1 && PyErr_Occurred()) return 0;
    if (!(seconds >= 0)) {
        PyErr_SetString(PyExc_ValueError, "'timeout' must be a non-negative number");
        return 0;
    }
    if (seconds < 9e9) *nanoseconds = (uint64_t)ceil(seconds * 1e9);
    return 1;
}

/* Calls once, and then waits. Answers whether it was answered OK; else it raised. */
static int asked(Queue *queue, uint32_t line, look *call, PyObject **item, uint64_t nanoseconds) {
    uint32_t answer;
    if (!may(queue)) return 0;
    answer = call(queue, item);
    if (answer == SCQ_OK) return 1;
    if (!scq_bell_is_through(answer) && nanoseconds != 0 &&
        !wait_for(queue, line, call, item, nanoseconds, &answer))
        return 0;
    if (answer != SCQ_OK) refused(answer);
    return answer == SCQ_OK;
}

/* Reads arguments by place or by name, as many as there are names. Answers 0 where it raised. */
static int read_words(const char *call, PyObject *const *words, Py_ssize_t count, PyObject *keywords,
                      const char *const *names, PyObject **to, Py_ssize_t most, Py_ssize_t least) {
    const Py_ssize_t named = keywords == NULL ? 0 : PyTuple_GET_SIZE(keywords);
    Py_ssize_t k, at;
    if (count > most) {
        PyErr_Format(PyExc_TypeError, "%s() takes at most %zd arguments", call, most);
        return 0;
    }
    for (k = 0; k < most; k++) to[k] = k < count ? words[k] : NULL;
    for (k = 0; k < named; k++) {
        PyObject *const keyword = PyTuple_GET_ITEM(keywords, k);
        for (at = 0; at < most; at++)
            if (PyUnicode_CompareWithASCIIString(keyword, names[at]) == 0) break;
        if (at == most || to[at] != NULL) {
            PyErr_Format(PyExc_TypeError, "%s() got an unexpected argument '%U'", call, keyword);
            return 0;
        }
        to[at] = words[count + k];
    }
    for (k = 0; k < least; k++)
        if (to[k] == NULL) {
            PyErr_Format(PyExc_TypeError, "%s() wants the argument '%s'", call, names[k]);
            return 0;
        }
    return 1;
}

static PyObject *Queue_put(Queue *self, PyObject *const *words, Py_ssize_t count,
                           PyObject *keywords) {
    static const char *const names[] = {"item", "block", "timeout"};
    PyObject *to[3];
    uint64_t nanoseconds;
    if (!read_words("put", words, count, keywords, names, to, 3, 1) ||
        !read_time(to[1], to[2], &nanoseconds) || !asked(self, ROOM, put_now, &to[0], nanoseconds))
        return NULL;
    Py_RETURN_NONE;
}

static PyObject *Queue_get(Queue *self, PyObject *const *words, Py_ssize_t count,
                           PyObject *keywords) {
    static const char *const names[] = {"block", "timeout"};
    PyObject *to[2], *item;
    uint64_t nanoseconds;
    if (!read_words("get", words, count, keywords, names, to, 2, 0) ||
        !read_time(to[0], to[1], &nanoseconds) || !asked(self, ITEMS, get_now, &item, nanoseconds))
        return NULL;
    return item;
}

static PyObject *Queue_put_nowait(Queue *self, PyObject *item) {
    if (!asked(self, ROOM, put_now, &item, 0)) return NULL;
    Py_RETURN_NONE;
}

static PyObject *Queue_get_nowait(Queue *self, PyObject *none) {
    PyObject *item;
    (void)none;
    return asked(self, ITEMS, get_now, &item, 0) ? item : NULL;
}

static PyObject *Queue_qsize(Queue *self, PyObject *none) {
    (void)none;
    return PyLong_FromUnsignedLong(self->standing);
}

static PyObject *Queue_empty(Queue *self, PyObject *none) {
    (void)none;
    return PyBool_FromLong(self->standing == 0);
}

static PyObject *Queue_full(Queue *self, PyObject *none) {
    (void)none;
    return PyBool_FromLong(self->standing == self->room);
}

/* So many items are done. */
static void finish(Queue *queue, uint64_t count) {
    queue->unfinished -= count;
    if (queue->unfinished == 0) scq_bell_ring_all(&queue->bell, scq_line(DONE));
}

static PyObject *Queue_task_done(Queue *self, PyObject *none) {
    (void)none;
    if (!may(self)) return NULL;
    if (self->unfinished == 0) {
        PyErr_SetString(PyExc_ValueError, "task_done() called too many times");
        return NULL;
    }
    finish(self, 1);
    Py_RETURN_NONE;
}

static PyObject *Queue_join(Queue *self, PyObject *none) {
    (void)none;
    if (!asked(self, DONE, look_done, NULL, SCQ_FOREVER)) return NULL;
    Py_RETURN_NONE;
}

/* Lets go of all that stands in the queue. What that runs may call the queue again. */
static uint32_t drop_all(Queue *queue) {
    PyObject *item;
    uint32_t count = 0;
    for (; get_now(queue, &item) == SCQ_OK; count++) Py_DECREF(item);
    return count;
}

static PyObject *Queue_shutdown(Queue *self, PyObject *const *words, Py_ssize_t count,
                                PyObject *keywords) {
    static const char *const names[] = {"immediate"};
    PyObject *to[1];
    int is_immediate;
    if (!may(self) || !read_words("shutdown", words, count, keywords, names, to, 1, 0)) return NULL;
    is_immediate = to[0] == NULL ? 0 : PyObject_IsTrue(to[0]);
    if (is_immediate < 0) return NULL;
    self->is_shut = 1;
    scq_bell_finish(&self->bell, scq_lines_both(scq_line(ITEMS), scq_line(ROOM)));
    /* Watches are rung by that too. What is dropped counts as done, of what isn't yet. */
    if (is_immediate) {
        const uint32_t dropped = drop_all(self);
        finish(self, dropped < self->unfinished ? dropped : self->unfinished);
    }
    Py_RETURN_NONE;
}

/* -- For tasks: a watch is named by its eventfd -------------------------------------------- */

static void ring_watch(void *with) {
    const uint64_t one = 1;
    const watch *const rung = with;
    if (write(rung->fd, &one, sizeof one) < 0) return; /* it is readable already */
}

static watch *watch_of(Queue *queue, PyObject *fd) {
    const long wanted = PyLong_AsLong(fd);
    watch *at = queue->watches;
    if (wanted == -1 && PyErr_Occurred()) return NULL;
    while (at != NULL && (at->fd != wanted || !at->is_used)) at = at->next;
    if (at == NULL) PyErr_SetString(PyExc_ValueError, "no watch of the queue");
    return at;
}

static PyObject *Queue_watch(Queue *self, PyObject *none) {
    watch *at = self->watches;
    (void)none;
    if (!may(self)) return NULL;
    while (at != NULL && at->is_used) at = at->next;
    if (at == NULL) {
        at = PyMem_RawCalloc(1, sizeof *at);
        if (at == NULL) return PyErr_NoMemory();
        at->fd = eventfd(0, EFD_CLOEXEC | EFD_NONBLOCK);
        if (at->fd < 0) {
            PyMem_RawFree(at);
            return PyErr_SetFromErrno(PyExc_OSError);
        }
        at->of_bell.ring = ring_watch;
        at->of_bell.with = at;
        at->next = self->watches;
        self->watches = at;
        scq_bell_watch(&self->bell, &at->of_bell);
    }
    at->is_used = 1;
    return PyLong_FromLong(at->fd);
}

static PyObject *Queue_arm(Queue *self, PyObject *const *words, Py_ssize_t count) {
    watch *at;
    unsigned long line;
    if (!may(self)) return NULL;
    if (count != 2) {
        PyErr_SetString(PyExc_TypeError, "_arm() takes two arguments");
        return NULL;
    }
    at = watch_of(self, words[0]);
    line = PyLong_AsUnsignedLong(words[1]);
    if (PyErr_Occurred()) return NULL;
    scq_bell_arm(&self->bell, &at->of_bell, scq_line((uint32_t)line));
    Py_RETURN_NONE;
}

static PyObject *Queue_unwatch(Queue *self, PyObject *fd) {
    uint64_t rung;
    watch *const at = watch_of(self, fd);
    if (at == NULL) return NULL;
    scq_bell_disarm(&self->bell, &at->of_bell);
    if (read(at->fd, &rung, sizeof rung) < 0) rung = 0; /* it wasn't rung */
    at->is_used = 0;
    Py_RETURN_NONE;
}

/* -- The type ------------------------------------------------------------------------------ */

static PyObject *Queue_new(PyTypeObject *type, PyObject *words, PyObject *keywords) {
    static char *names[] = {"maxsize", NULL};
    Py_ssize_t room = 64;
    uint32_t order = 1, answer, k;
    scq_options options = {0};
    scq_held held;
    Queue *self;
    if (!PyArg_ParseTupleAndKeywords(words, keywords, "|n:Queue", names, &room)) return NULL;
    if (room < 1 || room > 1 << SCQ_MAX_ORDER) {
        PyErr_Format(PyExc_ValueError, "maxsize isn't from 1 to %d", 1 << SCQ_MAX_ORDER);
        return NULL;
    }
    self = (Queue *)type->tp_alloc(type, 0);
    if (self == NULL) return NULL;
    self->port = SCQ_NONE;
    self->room = (uint32_t)room;
    self->generation = generation;
    while (UINT32_C(1) << order < self->room) order++;
    options.order = order;
    options.size = sizeof(PyObject *);
    options.hold = UINT32_C(1) << order;
    answer = scq_open_with(&options, &self->port, 1);
    if (answer == SCQ_OK && scq_bell_init(&self->bell) != SCQ_OK) {
        scq_close(&self->port);
        answer = SCQ_NO_MEMORY;
    }
    if (answer != SCQ_OK) {
        if (answer == SCQ_NO_MEMORY) PyErr_NoMemory();
        else refused(answer);
        Py_DECREF(self);
        return NULL;
    }
    self->is_open = 1;
    self->buffers = options.hold;
    /* The port keeps the buffers that are more than the room. */
    for (k = self->room; k < self->buffers; k++)
        if (scq_lend(&self->port, &held) != SCQ_OK) Py_FatalError("scq: a new queue has no buffer");
    return (PyObject *)self;
}

/* What stands in the queue. */
static int Queue_traverse(Queue *self, visitproc visit, void *arg) {
    uint32_t k;
    Py_VISIT(Py_TYPE(self));
    for (k = 0; self->is_open && k < self->buffers; k++) Py_VISIT(*object_of(self, k));
    return 0;
}

static int Queue_clear(Queue *self) {
    if (self->is_open && self->generation == generation) drop_all(self);
    return 0;
}

static void Queue_dealloc(Queue *self) {
    PyTypeObject *const type = Py_TYPE(self);
    watch *at, *next;
    PyObject_GC_UnTrack(self);
    Queue_clear(self);
    for (at = self->watches; at != NULL; at = next) {
        next = at->next;
        close(at->fd);
        PyMem_RawFree(at);
    }
    /* The queue of a parent process isn't touched. */
    if (self->is_open && self->generation == generation) {
        scq_bell_free(&self->bell);
        scq_close(&self->port);
    }
    type->tp_free(self);
    Py_DECREF(type);
}

#define CALL(name) (PyCFunction)(void (*)(void))Queue_##name

static PyMethodDef methods[] = {
    {"put", CALL(put), METH_FASTCALL | METH_KEYWORDS,
     "put(item, block=True, timeout=None)\n--\n\nPuts an item, and waits for room."},
    {"get", CALL(get), METH_FASTCALL | METH_KEYWORDS,
     "get(block=True, timeout=None)\n--\n\nGets the item that has stood longest, and waits for one."},
    {"put_nowait", CALL(put_nowait), METH_O, "Puts an item if there is room, or raises Full."},
    {"get_nowait", CALL(get_nowait), METH_NOARGS, "Gets an item if there is one, or raises Empty."},
    {"qsize", CALL(qsize), METH_NOARGS, "How many items stand in the queue."},
    {"empty", CALL(empty), METH_NOARGS, "Whether none does."},
    {"full", CALL(full), METH_NOARGS, "Whether there is no room."},
    {"task_done", CALL(task_done), METH_NOARGS, "What was got is done, of one item."},
    {"join", CALL(join), METH_NOARGS, "Waits until all that was put is done."},
    {"shutdown", CALL(shutdown), METH_FASTCALL | METH_KEYWORDS,
     "shutdown(immediate=False)\n--\n\nNothing is put any more; what stands there can be got, or is "
     "let go of at once. Who waits is told."},
    {"_watch", CALL(watch), METH_NOARGS, "The eventfd of a watch that nobody uses."},
    {"_arm", CALL(arm), METH_FASTCALL, "The next ring for a line makes an eventfd readable."},
    {"_unwatch", CALL(unwatch), METH_O, "Lets go of a watch."},
    {"__class_getitem__", Py_GenericAlias, METH_O | METH_CLASS, NULL},
    {0}};

static PyMemberDef members[] = {
    {"maxsize", T_UINT, offsetof(Queue, room), READONLY, "How many items there is room for."},
    {"unfinished_tasks", T_ULONGLONG, offsetof(Queue, unfinished), READONLY,
     "How many items were put and aren't done."},
    {0}};

static PyType_Slot slots[] = {{Py_tp_new, Queue_new},
                              {Py_tp_dealloc, Queue_dealloc},
                              {Py_tp_traverse, Queue_traverse},
                              {Py_tp_clear, Queue_clear},
                              {Py_tp_methods, methods},
                              {Py_tp_members, members},
                              {0, NULL}};

static PyType_Spec spec = {"scq._scq.Queue", sizeof(Queue), 0,
                           Py_TPFLAGS_DEFAULT | Py_TPFLAGS_BASETYPE | Py_TPFLAGS_HAVE_GC, slots};

static PyModuleDef module = {PyModuleDef_HEAD_INIT, "_scq", NULL, -1, NULL, NULL, NULL, NULL, NULL};

/* An attribute of what `call` of a module answers, or of the module itself. */
static PyObject *from(const char *name, const char *call, const char *attribute) {
    PyObject *found = PyImport_ImportModule(name), *next;
    if (found != NULL && call != NULL) {
        next = PyObject_CallMethod(found, call, NULL);
        Py_DECREF(found);
        found = next;
    }
    if (found == NULL) return NULL;
    next = PyObject_GetAttrString(found, attribute);
    Py_DECREF(found);
    return next;
}

static int add(PyObject *to, const char *name, PyObject *object) {
    if (object == NULL) return -1;
    Py_INCREF(object);
    if (PyModule_AddObject(to, name, object) == 0) return 0;
    Py_DECREF(object);
    return -1;
}

PyMODINIT_FUNC PyInit__scq(void) {
    PyObject *const made = PyModule_Create(&module);
    PyObject *const type = PyType_FromSpec(&spec), *const ident = from("threading", "main_thread", "ident");
    if (made == NULL || type == NULL || ident == NULL) goto failed;
    main_thread = PyLong_AsUnsignedLong(ident);
    Full = from("queue", NULL, "Full");
    Empty = from("queue", NULL, "Empty");
    ShutDown = from("queue", NULL, "ShutDown");
    if (ShutDown == NULL) {
        PyErr_Clear();
        ShutDown = PyErr_NewException("scq.ShutDown", NULL, NULL);
    }
    if (PyErr_Occurred() || add(made, "Queue", type) != 0 || add(made, "ShutDown", ShutDown) != 0 ||
        PyModule_AddIntConstant(made, "MAX_SIZE", 1 << SCQ_MAX_ORDER) != 0 ||
        PyModule_AddIntConstant(made, "ITEMS", ITEMS) != 0 ||
        PyModule_AddIntConstant(made, "ROOM", ROOM) != 0 || pthread_atfork(NULL, NULL, forked) != 0)
        goto failed;
    Py_DECREF(type);
    Py_DECREF(ident);
    return made;
failed:
    Py_XDECREF(made);
    Py_XDECREF(type);
    Py_XDECREF(ident);
    return NULL;
}
