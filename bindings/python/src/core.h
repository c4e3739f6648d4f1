/* What the files of the module share. The module converts arguments and results. The library for C decides what a
 * multihash is, but reader.c compares the length of a digest with the limit, so that it does not read one that is too
 * long. The module uses only the stable ABI of the first CPython in pyproject.toml: setup.py defines Py_LIMITED_API. */
#define PY_SSIZE_T_CLEAN
#include <Python.h>
#include <stddef.h>
#include <string.h>
#include <structmember.h>

#include "multihash_message.h"

/* A function that returns an int returns 0, or -1 with an error set, unless its comment says otherwise. */

/* ---- arguments.c */

/* The first bytes of an argument, or all of them. */
typedef struct input {
    PyObject *owner; /* the argument, if it is a bytes object, or a copy of its first bytes */
    const uint8_t *bytes;
    size_t length;
    size_t whole_length; /* of the argument */
} input;

/* Raises a TypeError, `name must be expected, not its type`, and returns null. */
PyObject *wrong_type(const char *name, const char *expected, PyObject *argument);

/* The name of what a file returned, as an argument. */
#define RESULT_OF_READ "the result of read"

/* The buffer of any object that supports the protocol. */
int get_buffer(PyObject *argument, const char *name, int flags, Py_buffer *view);

/* The bytes of any object that supports the buffer protocol: at least the first `limit`. */
int get_input(PyObject *argument, const char *name, Py_ssize_t limit, input *to);

/* One argument or two of a function with METH_FASTCALL and METH_KEYWORDS, by position or name. */
int get_arguments(PyObject *const *args, Py_ssize_t nargs, PyObject *kwnames, const char *format, char **keywords,
                  PyObject **first, PyObject **second);

/* An int that is not negative. One of 2^63 or more becomes UINT64_MAX, which the library rejects too. */
int get_number(PyObject *argument, const char *name, uint64_t *number);

/* The same for a limit or the length of a digest. Larger values become SIZE_MAX, which is rejected too. */
int get_size(PyObject *argument, const char *name, size_t *size);

/* ---- core.c */

/* The state of the module: the types Multihash and MultihashError. */
typedef struct module_state {
    PyTypeObject *type;
    PyObject *error;
} module_state;

/* Raises a MultihashError, and returns null. */
PyObject *raise_error(const module_state *state, multihash_status status, uint64_t size, uint64_t code, size_t consumed,
                      const char *text);

/* Raises the error of an encoding of a digest of that length, to which it steals the reference, and a code. */
PyObject *encoding_error(const module_state *state, multihash_status status, PyObject *length, PyObject *code);

/* Writes why an input of that length does not start with a varint. */
void write_varint_message(char *text, size_t text_size, multihash_status status, size_t length);

/* The multihash that a decoding found in an input, or its error. `limit` is that of a digest's length. */
PyObject *decoded(const module_state *state, const input *from, multihash_decoded result, size_t limit);

/* The multihash whose encoding is the whole of a buffer. */
PyObject *decoded_whole(const module_state *state, PyObject *data);

/* ---- value.c and reader.c */

extern PyType_Spec multihash_spec, reader_spec, file_reader_spec; /* the last one is a subclass of the second */

/* The type of this module that a type is or is derived from: its base is object. */
PyTypeObject *type_in_c(PyTypeObject *type);

/* The state of the module of a type, which keeps it. */
const module_state *state_of(PyTypeObject *type);

/* Makes a multihash of a code and a digest, and steals the reference, which is null after an error. */
PyObject *new_multihash(PyTypeObject *type, uint64_t code, PyObject *digest);

/* -1, 0 or 1. */
int order_of(PyObject *left, PyObject *right);
