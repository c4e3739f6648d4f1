/* Converts the arguments of functions to C, and raises the errors of wrong ones. */
#include "core.h"

PyObject *wrong_type(const char *name, const char *expected, PyObject *argument)
{
    PyObject *type = PyType_GetName(Py_TYPE(argument));
    if (type != NULL) PyErr_Format(PyExc_TypeError, "%s must be %s, not %S", name, expected, type);
    Py_XDECREF(type);
    return NULL;
}

/* The same in place of CPython's TypeError, which does not name the argument. A text has a hint. */
static void rename_error(const char *name, const char *expected, PyObject *argument)
{
    static const char *hints[][2] = {
        {"data", "bytes (Multihash.fromhex takes text)"},
        {"digest", "bytes (bytes.fromhex takes hexadecimal)"},
        {"code", "an int (hashes.CODES has the codes of names)"},
        {RESULT_OF_READ, "bytes (open the file in binary mode)"},
    };
    if (!PyErr_ExceptionMatches(PyExc_TypeError)) return;
    PyErr_Clear();
    if (PyUnicode_Check(argument)) {
        for (size_t at = 0; at < sizeof hints / sizeof *hints; at++) {
            if (strcmp(name, hints[at][0]) == 0) expected = hints[at][1];
        }
    }
    wrong_type(name, expected, argument);
}

int get_buffer(PyObject *argument, const char *name, int flags, Py_buffer *view)
{
    int status = PyObject_GetBuffer(argument, view, flags);
    if (status < 0) rename_error(name, "a bytes-like object", argument); /* a number, a text or a list */
    return status;
}

/* Copies the first `limit` bytes of a buffer, or as many items of one with gaps. */
static PyObject *copied(PyObject *argument, const Py_buffer *view, Py_ssize_t limit)
{
    Py_ssize_t length = view->len < limit ? view->len : limit;
    if (PyBuffer_IsContiguous(view, 'C')) return PyBytes_FromStringAndSize(view->buf, length);
    PyObject *all = PyMemoryView_FromObject(argument);
    PyObject *front = all == NULL ? NULL : PySequence_GetSlice(all, 0, limit);
    PyObject *bytes = front == NULL ? NULL : PyBytes_FromObject(front);
    Py_XDECREF(all);
    Py_XDECREF(front);
    return bytes;
}

int get_input(PyObject *argument, const char *name, Py_ssize_t limit, input *to)
{
    Py_buffer view;
    Py_ssize_t whole_length = -1;
    if (PyBytes_CheckExact(argument)) {
        to->owner = Py_NewRef(argument);
    } else {
        if (get_buffer(argument, name, PyBUF_FULL_RO, &view) < 0) return -1;
        whole_length = view.len;
        to->owner = copied(argument, &view, limit);
        PyBuffer_Release(&view);
    }
    if (to->owner == NULL) return -1;
    to->bytes = (const uint8_t *)PyBytes_AsString(to->owner);
    to->length = (size_t)PyBytes_Size(to->owner);
    to->whole_length = whole_length < 0 ? to->length : (size_t)whole_length;
    return 0;
}

/* CPython's parser, which takes longer, parses arguments with names and wrong ones. */
int get_arguments(PyObject *const *args, Py_ssize_t nargs, PyObject *kwnames, const char *format, char **keywords,
                  PyObject **first, PyObject **second)
{
    Py_ssize_t max_count = second == NULL ? 1 : 2, min_count = format[1] == '|' ? 1 : max_count;
    if (kwnames == NULL && min_count <= nargs && nargs <= max_count) {
        *first = args[0];
        if (nargs == 2) *second = args[1];
        return 0;
    }
    PyObject *tuple = PyTuple_New(nargs), *kwargs = PyDict_New();
    int is_right = tuple != NULL && kwargs != NULL;
    for (Py_ssize_t at = 0; is_right && at < nargs; at++) PyTuple_SetItem(tuple, at, Py_NewRef(args[at]));
    for (Py_ssize_t at = 0; is_right && kwnames != NULL && at < PyTuple_Size(kwnames); at++) {
        is_right = PyDict_SetItem(kwargs, PyTuple_GetItem(kwnames, at), args[nargs + at]) == 0;
    }
    is_right = is_right && PyArg_ParseTupleAndKeywords(tuple, kwargs, format, keywords, first, second);
    Py_XDECREF(tuple);
    Py_XDECREF(kwargs);
    return is_right ? 0 : -1;
}

int get_number(PyObject *argument, const char *name, uint64_t *number)
{
    int overflow;
    long long value = PyLong_AsLongLongAndOverflow(argument, &overflow);
    *number = (uint64_t)value; /* -1, the largest, for 2^63 and above */
    if (overflow > 0 || value >= 0) return 0;
    if (overflow == 0 && PyErr_Occurred()) {
        rename_error(name, "an int", argument);
    } else {
        PyErr_Format(PyExc_ValueError, "%s must not be negative", name);
    }
    return -1;
}

int get_size(PyObject *argument, const char *name, size_t *size)
{
    uint64_t number;
    if (get_number(argument, name, &number) < 0) return -1;
    *size = number > SIZE_MAX ? SIZE_MAX : (size_t)number;
    return 0;
}
