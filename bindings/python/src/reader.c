/* The base of the readers of multihashes and of frames, which are items of two parts: a head, which is the two varints
 * of a multihash or the varint of a frame's length, and a body, which is a digest or the bytes of a frame. */
#include "core.h"

/* The most bytes of a body that the file is first asked for. Then it is asked for as many as were read, so memory grows
 * with the bytes that arrive, not with the length that a head claims. */
#define FIRST_CHUNK ((size_t)1 << 16)

typedef struct reader_object {
    PyObject_HEAD
    const module_state *state;
    PyObject *read;     /* the method of the file */
    PyObject *body;     /* the bytes read of the next item's body, or null if none were read */
    size_t limit;       /* the maximum length of a body */
    size_t wanted;      /* the number of bytes that the running call of the file was asked for, or 0 if none runs */
    size_t head_length; /* the number of bytes read of the next item's head */
    size_t body_length; /* the number of bytes read of the next item's body */
    unsigned long long consumed; /* the number of bytes of the items returned so far */
    unsigned long long count;    /* the number of these items */
    multihash_head head;         /* what `bytes` start with; the code of a frame is 0 */
    int is_framed;               /* whether the items are frames */
    int has_lost;                /* whether the file may have lost bytes */
    uint8_t bytes[MULTIHASH_HEAD_MAX];
} reader_object;

/* Drops what was read of the next item. */
static void drop(reader_object *reader)
{
    reader->head.status = MULTIHASH_INSUFFICIENT;
    reader->head_length = reader->body_length = 0;
    Py_CLEAR(reader->body);
}

/* Raises an error if a call of the file has not returned. */
static int check_idle(const reader_object *reader)
{
    if (reader->wanted == 0) return 0;
    PyErr_SetString(PyExc_RuntimeError, "another call of the reader has not ended");
    return -1;
}

static int reader_init(PyObject *self, PyObject *args, PyObject *kwargs)
{
    reader_object *reader = (reader_object *)self;
    PyObject *read, *limit_argument;
    size_t limit;
    int is_framed = 0;
    (void)kwargs;
    if (!PyArg_ParseTuple(args, "OO|p:Reader", &read, &limit_argument, &is_framed)) return -1;
    if (get_size(limit_argument, "limit", &limit) < 0 || check_idle(reader) < 0) return -1;
    drop(reader);
    reader->state = state_of(Py_TYPE(self));
    reader->limit = is_framed || limit < MULTIHASH_DIGEST_MAX ? limit : MULTIHASH_DIGEST_MAX;
    reader->consumed = 0;
    reader->count = 0;
    reader->is_framed = is_framed;
    reader->has_lost = 0;
    PyObject *old = reader->read; /* released last: the destructor of its file may call this function */
    reader->read = Py_NewRef(read);
    Py_XDECREF(old);
    return 0;
}

static int reader_traverse(PyObject *self, visitproc visit, void *arg)
{
    Py_VISIT(Py_TYPE(self));
    Py_VISIT(((reader_object *)self)->read);
    return 0;
}

static int reader_clear(PyObject *self)
{
    Py_CLEAR(((reader_object *)self)->read);
    Py_CLEAR(((reader_object *)self)->body);
    return 0;
}

static void reader_dealloc(PyObject *self)
{
    PyTypeObject *type = Py_TYPE(self);
    PyObject_GC_UnTrack(self);
    reader_clear(self);
    ((freefunc)PyType_GetSlot(type, Py_tp_free))(self);
    Py_DECREF(type);
}

/* Returns what the first bytes of an item contain of its head. */
static multihash_head head_of(const uint8_t *bytes, size_t length, int is_framed)
{
    if (!is_framed) return multihash_read_head(bytes, length);
    multihash_varint varint = multihash_read_varint(bytes, length);
    return (multihash_head){.status = varint.status, .digest_length = varint.value};
}

/* The number of bytes that the file is asked for next, or 0 if the next item is there or rejected. */
static size_t missing(reader_object *reader)
{
    multihash_head *head = &reader->head;
    if (reader->head_length == 0) return reader->is_framed ? 1 : 2; /* no head is shorter */
    if (head->status == MULTIHASH_INSUFFICIENT) *head = head_of(reader->bytes, reader->head_length, reader->is_framed);
    if (head->status == MULTIHASH_INSUFFICIENT) return 1;
    if (head->status != MULTIHASH_OK || head->digest_length > reader->limit) return 0;
    uint64_t left = head->digest_length - reader->body_length;
    uint64_t max_chunk = reader->body_length > FIRST_CHUNK ? reader->body_length : FIRST_CHUNK;
    return (size_t)(left < max_chunk ? left : max_chunk);
}

/* Begins a call of the file for the bytes that are wanted: 1, or 0 if the next result is known; negative with an error
 * set. */
static int begin(reader_object *reader)
{
    size_t count = missing(reader);
    if (count == 0) return 0;
    if (check_idle(reader) < 0) return -1;
    if (reader->read == NULL || reader->has_lost) {
        PyErr_SetString(PyExc_ValueError, reader->read == NULL ? "the reader has no file: __init__ was not called"
                                                               : "the file failed before, so bytes may be lost");
        return -1;
    }
    reader->wanted = count;
    return 1;
}

/* Keeps bytes of the next item. */
static int keep(reader_object *reader, const input *from)
{
    if (reader->head.status != MULTIHASH_OK) {
        memcpy(reader->bytes + reader->head_length, from->bytes, from->whole_length);
        reader->head_length += from->whole_length;
        return 0;
    }
    if (reader->body == NULL) {
        reader->body = Py_NewRef(from->owner);
    } else {
        PyBytes_Concat(&reader->body, from->owner); /* in place, if nothing else has the object */
    }
    reader->body_length += from->whole_length;
    return reader->body == NULL ? -1 : 0;
}

/* Ends the call of the file that `begin` began, with what it returned: 1, or 0 if that is empty, at the end of the
 * file; negative with an error set. */
static int end(reader_object *reader, PyObject *chunk)
{
    input from;
    size_t wanted = reader->wanted;
    if (chunk == Py_None) {
        reader->wanted = 0;
        PyErr_SetString(PyExc_BlockingIOError, "the file has no bytes now");
        return -1;
    }
    int status = get_input(chunk, RESULT_OF_READ, (Py_ssize_t)wanted, &from);
    reader->wanted = 0;   /* after the call, since the buffer of the chunk may call the reader */
    reader->has_lost = 1; /* until the bytes are kept */
    if (status < 0) return -1;
    if (from.whole_length > wanted) {
        PyErr_Format(PyExc_ValueError, "the file returned %zu bytes to read(%zu)", from.whole_length, wanted);
        status = -1;
    } else if (from.whole_length > 0) {
        status = keep(reader, &from);
    }
    Py_DECREF(from.owner);
    if (status < 0) return -1;
    reader->has_lost = 0;
    return from.whole_length > 0;
}

/* Calls the file, after `begin`, and keeps what it returned. */
static int read_chunk(reader_object *reader)
{
    int status = -1;
    PyObject *read = Py_NewRef(reader->read), *count = PyLong_FromSize_t(reader->wanted);
    PyObject *chunk = count == NULL ? NULL : PyObject_CallFunctionObjArgs(read, count, NULL);
    if (chunk != NULL) {
        status = end(reader, chunk);
    } else {
        reader->wanted = 0;
        reader->has_lost = !PyErr_ExceptionMatches(PyExc_BlockingIOError);
    }
    Py_XDECREF(chunk);
    Py_XDECREF(count);
    Py_DECREF(read);
    return status;
}

static PyObject *frame_error(const reader_object *reader)
{
    char reason[MULTIHASH_MESSAGE_SIZE], text[2 * MULTIHASH_MESSAGE_SIZE];
    multihash_status status = reader->head.status;
    uint64_t length = reader->head.digest_length, size = 0;
    if (status != MULTIHASH_OK) {
        write_varint_message(reason, sizeof reason, status, reader->head_length);
    } else if (length > reader->limit) {
        status = MULTIHASH_INVALID_SIZE;
        size = length;
        mh_text_too_long(reason, sizeof reason, "frame", length, reader->limit);
    } else {
        status = MULTIHASH_UNEXPECTED_EOF;
        mh_text_truncated(reason, sizeof reason, "frame", reader->body_length, length);
    }
    snprintf(text, sizeof text, "frame %llu at offset %llu: %s", reader->count, reader->consumed, reason);
    return raise_error(reader->state, status, size, 0, reader->head_length, text);
}

/* The next item, which is dropped, or None if nothing of one was read. After an error it stays, for `rest`. */
static PyObject *take(reader_object *reader)
{
    const multihash_head *head = &reader->head;
    if (reader->head_length == 0) Py_RETURN_NONE;
    if (head->status != MULTIHASH_OK || reader->body_length < head->digest_length) {
        if (reader->is_framed) return frame_error(reader);
        input from = {NULL, reader->bytes, reader->head_length, reader->head_length + reader->body_length};
        return decoded(reader->state, &from, multihash_read_limit(from.bytes, from.length, reader->limit),
                       reader->limit);
    }
    PyObject *item = reader->body == NULL ? PyBytes_FromStringAndSize(NULL, 0) : Py_NewRef(reader->body);
    if (!reader->is_framed) item = new_multihash(reader->state->type, head->code, item);
    if (item == NULL) return NULL;
    reader->consumed += reader->head_length + reader->body_length;
    reader->count++;
    drop(reader);
    return item;
}

static PyObject *reader_next(PyObject *self, PyObject *unused)
{
    reader_object *reader = (reader_object *)self;
    int status = begin(reader);
    (void)unused;
    while (status > 0) {
        status = read_chunk(reader);
        if (status > 0) status = begin(reader);
    }
    return status < 0 ? NULL : take(reader);
}

/* The steps of `reader_next`, for a call of the file that is awaited: to begin one, to end it and begin the next one,
 * or to fail, and the result. The first two return the number of bytes that are wanted, or 0 if the result is known. */
static PyObject *reader_begin(PyObject *self, PyObject *unused)
{
    int status = begin((reader_object *)self);
    (void)unused;
    return status < 0 ? NULL : PyLong_FromSize_t(status > 0 ? ((reader_object *)self)->wanted : 0);
}

static PyObject *reader_end(PyObject *self, PyObject *chunk)
{
    int status = end((reader_object *)self, chunk);
    if (status < 0) return NULL;
    return status > 0 ? reader_begin(self, NULL) : PyLong_FromLong(0);
}

static PyObject *reader_fail(PyObject *self, PyObject *error)
{
    reader_object *reader = (reader_object *)self;
    reader->wanted = 0;
    /* A call that was cancelled has lost nothing, and its error is not an Exception. */
    reader->has_lost = PyErr_GivenExceptionMatches(error, PyExc_Exception) &&
                       !PyErr_GivenExceptionMatches(error, PyExc_BlockingIOError);
    Py_RETURN_NONE;
}

static PyObject *reader_take(PyObject *self, PyObject *unused)
{
    (void)unused;
    return take((reader_object *)self);
}

static PyObject *reader_rest(PyObject *self, void *unused)
{
    const reader_object *reader = (const reader_object *)self;
    PyObject *rest = PyBytes_FromStringAndSize((const char *)reader->bytes, (Py_ssize_t)reader->head_length);
    (void)unused;
    if (rest != NULL && reader->body != NULL) PyBytes_Concat(&rest, reader->body);
    return rest;
}

static PyMethodDef reader_methods[] = {
    {"_begin", reader_begin, METH_NOARGS, NULL},
    {"_end", reader_end, METH_O, NULL},
    {"_fail", reader_fail, METH_O, NULL},
    {"_take", reader_take, METH_NOARGS, NULL},
    {"__class_getitem__", Py_GenericAlias, METH_O | METH_CLASS, NULL},
    {NULL, NULL, 0, NULL},
};

static PyMemberDef reader_members[] = {
    {"_read", T_OBJECT_EX, offsetof(reader_object, read), READONLY, NULL},
    {"consumed", T_ULONGLONG, offsetof(reader_object, consumed), READONLY,
     "The number of bytes of the multihashes or frames returned so far."},
    {"count", T_ULONGLONG, offsetof(reader_object, count), READONLY,
     "The number of the multihashes or frames returned so far."},
    {NULL, 0, 0, 0, NULL},
};

static PyGetSetDef reader_attributes[] = {
    {"rest", reader_rest, NULL, "The bytes read so far of the next multihash or frame.", NULL},
    {NULL, NULL, NULL, NULL, NULL},
};

static PyType_Slot reader_slots[] = {
    {Py_tp_doc, "The base of all readers."},
    {Py_tp_init, reader_init},
    {Py_tp_traverse, reader_traverse},
    {Py_tp_clear, reader_clear},
    {Py_tp_dealloc, reader_dealloc},
    {Py_tp_methods, reader_methods},
    {Py_tp_members, reader_members},
    {Py_tp_getset, reader_attributes},
    {0, NULL},
};

PyType_Spec reader_spec = {
    "verified_multihash._core.Reader",
    sizeof(reader_object),
    0,
    Py_TPFLAGS_DEFAULT | Py_TPFLAGS_HAVE_VERSION_TAG | Py_TPFLAGS_BASETYPE | Py_TPFLAGS_HAVE_GC,
    reader_slots,
};

/* ---- the base of the readers of a file that blocks */

static PyObject *next_of_loop(PyObject *self)
{
    PyObject *item = reader_next(self, NULL);
    if (item == NULL && PyErr_ExceptionMatches(PyExc_StopIteration)) { /* of the file: it would end the loop */
        PyErr_SetString(PyExc_RuntimeError, "the file raised StopIteration");
    }
    if (item == Py_None) Py_CLEAR(item);
    return item;
}

static PyMethodDef file_reader_methods[] = {
    {"read", reader_next, METH_NOARGS,
     "read($self)\n--\n\nReturns the next multihash or frame, or None at the end of the file."},
    {NULL, NULL, 0, NULL},
};

static PyType_Slot file_reader_slots[] = {
    {Py_tp_doc, "The base of MultihashReader and FrameReader."},
    {Py_tp_iter, PyObject_SelfIter},
    {Py_tp_iternext, next_of_loop},
    {Py_tp_methods, file_reader_methods},
    {0, NULL},
};

PyType_Spec file_reader_spec = {
    "verified_multihash._core.FileReader",
    sizeof(reader_object),
    0,
    Py_TPFLAGS_DEFAULT | Py_TPFLAGS_HAVE_VERSION_TAG | Py_TPFLAGS_BASETYPE,
    file_reader_slots,
};
