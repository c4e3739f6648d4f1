/* The functions of verified_multihash over the library for C, its errors and the module. */
#include "core.h"

/* ---- errors */

/* Raises a MultihashError with these arguments, a tuple. It steals the reference, which may be null. */
static PyObject *raise_with(const module_state *state, PyObject *arguments)
{
    if (arguments != NULL) PyErr_SetObject(state->error, arguments);
    Py_XDECREF(arguments);
    return NULL;
}

PyObject *raise_error(const module_state *state, multihash_status status, uint64_t size, uint64_t code, size_t consumed,
                      const char *text)
{
    unsigned long long numbers[] = {size, code, consumed};
    return raise_with(state, Py_BuildValue("IKKKs", status, numbers[0], numbers[1], numbers[2], text));
}

PyObject *encoding_error(const module_state *state, multihash_status status, PyObject *length, PyObject *code)
{
    char text[MULTIHASH_MESSAGE_SIZE];
    uint64_t size;
    int is_size = status == MULTIHASH_INVALID_SIZE;
    PyObject *number = length == NULL ? NULL : PyNumber_Index(is_size ? length : code);
    Py_XDECREF(length);
    if (number == NULL) return NULL;
    if (is_size && get_number(number, "digest_length", &size) == 0 && size < UINT64_MAX) {
        mh_text_too_long(text, sizeof text, "digest", size, MULTIHASH_DIGEST_MAX);
    } else { /* without the number, which may be too long to show */
        snprintf(text, sizeof text, "%s", multihash_status_text(status));
    }
    return raise_with(state, is_size ? Py_BuildValue("INiis", status, number, 0, 0, text)
                                     : Py_BuildValue("IiNis", status, 0, number, 0, text));
}

void write_varint_message(char *text, size_t text_size, multihash_status status, size_t length)
{
    if (status == MULTIHASH_OVERFLOW) {
        mh_text_overflow(text, text_size, "varint");
    } else if (status == MULTIHASH_NOT_MINIMAL) {
        mh_text_not_minimal(text, text_size, "varint");
    } else if (length == 0) {
        mh_text_empty(text, text_size);
    } else {
        mh_text_ends(text, text_size, "inside", "varint");
    }
}

/* For the package: the class of errors. */
static PyObject *set_error(PyObject *module, PyObject *class)
{
    module_state *state = PyModule_GetState(module);
    PyObject *old = state->error;
    state->error = Py_NewRef(class);
    Py_DECREF(old);
    Py_RETURN_NONE;
}

/* ---- decoding */

PyObject *decoded(const module_state *state, const input *from, multihash_decoded result, size_t limit)
{
    char text[MULTIHASH_MESSAGE_SIZE];
    if (result.status == MULTIHASH_OK) {
        const char *digest = (const char *)from->bytes + result.digest_offset;
        return new_multihash(state->type, result.code,
                             PyBytes_FromStringAndSize(digest, (Py_ssize_t)result.digest_length));
    }
    multihash_message(text, sizeof text, from->bytes, from->whole_length, limit);
    return raise_error(state, result.status, result.size, result.code, result.consumed, text);
}

PyObject *decoded_whole(const module_state *state, PyObject *data)
{
    input from;
    if (get_input(data, "data", MULTIHASH_LENGTH_MAX, &from) < 0) return NULL;
    multihash_decoded result = multihash_from_prefix(from.bytes, from.length, from.whole_length);
    PyObject *multihash = decoded(state, &from, result, MULTIHASH_DIGEST_MAX);
    Py_DECREF(from.owner);
    return multihash;
}

static char *data_alone[] = {"data", NULL};

static PyObject *decode(PyObject *module, PyObject *const *args, Py_ssize_t nargs, PyObject *kwnames)
{
    PyObject *data;
    if (get_arguments(args, nargs, kwnames, "O:decode", data_alone, &data, NULL) < 0) return NULL;
    return decoded_whole(PyModule_GetState(module), data);
}

static PyObject *read_front(PyObject *module, PyObject *const *args, Py_ssize_t nargs, PyObject *kwnames)
{
    static char *keywords[] = {"data", "limit", NULL};
    PyObject *data, *limit_argument = NULL;
    size_t limit = MULTIHASH_DIGEST_MAX;
    input from;
    if (get_arguments(args, nargs, kwnames, "O|O:read", keywords, &data, &limit_argument) < 0) return NULL;
    if (limit_argument != NULL && get_size(limit_argument, "limit", &limit) < 0) return NULL;
    if (get_input(data, "data", MULTIHASH_LENGTH_MAX, &from) < 0) return NULL;
    multihash_decoded result = multihash_read_limit(from.bytes, from.length, limit);
    PyObject *multihash = decoded(PyModule_GetState(module), &from, result, limit);
    Py_DECREF(from.owner);
    return multihash == NULL ? NULL : Py_BuildValue("Nn", multihash, (Py_ssize_t)result.consumed);
}

static PyObject *scale_decode(PyObject *module, PyObject *const *args, Py_ssize_t nargs, PyObject *kwnames)
{
    const module_state *state = PyModule_GetState(module);
    input from;
    PyObject *data, *multihash;
    if (get_arguments(args, nargs, kwnames, "O:scale_decode", data_alone, &data, NULL) < 0) return NULL;
    if (get_input(data, "data", MULTIHASH_SCALE_LENGTH_MAX, &from) < 0) return NULL;
    multihash_decoded result = multihash_scale_decode(from.bytes, from.length);
    if (result.status == MULTIHASH_OK) {
        multihash = decoded(state, &from, result, MULTIHASH_DIGEST_MAX);
    } else {
        char text[MULTIHASH_MESSAGE_SIZE]; /* it depends on no more than was copied */
        multihash_scale_message(text, sizeof text, from.bytes, from.length);
        multihash = raise_error(state, result.status, result.size, result.code, result.consumed, text);
    }
    Py_DECREF(from.owner);
    return multihash == NULL ? NULL : Py_BuildValue("Nn", multihash, (Py_ssize_t)result.consumed);
}

static PyObject *head(PyObject *module, PyObject *data)
{
    input from;
    PyObject *fields;
    if (get_input(data, "data", MULTIHASH_HEAD_MAX, &from) < 0) return NULL;
    multihash_head result = multihash_read_head(from.bytes, from.length);
    if (result.status == MULTIHASH_OK) {
        unsigned long long code = result.code, length = result.digest_length;
        fields = Py_BuildValue("KKn", code, length, (Py_ssize_t)result.consumed);
    } else {
        fields =
            decoded(PyModule_GetState(module), &from, multihash_read(from.bytes, from.length), MULTIHASH_DIGEST_MAX);
    }
    Py_DECREF(from.owner);
    return fields;
}

static PyObject *read_varint(PyObject *module, PyObject *const *args, Py_ssize_t nargs, PyObject *kwnames)
{
    input from;
    char text[MULTIHASH_MESSAGE_SIZE];
    PyObject *data;
    if (get_arguments(args, nargs, kwnames, "O:read_varint", data_alone, &data, NULL) < 0) return NULL;
    if (get_input(data, "data", MULTIHASH_VARINT_LENGTH_MAX, &from) < 0) return NULL;
    multihash_varint result = multihash_read_varint(from.bytes, from.length);
    Py_DECREF(from.owner);
    if (result.status == MULTIHASH_OK) {
        return Py_BuildValue("Kn", (unsigned long long)result.value, (Py_ssize_t)result.length);
    }
    write_varint_message(text, sizeof text, result.status, from.whole_length);
    return raise_error(PyModule_GetState(module), result.status, 0, 0, 0, text);
}

/* Decodes the multihashes of a buffer into `items`, a bytearray. Returns the number of bytes consumed, or -1 with an
 * error set. */
static Py_ssize_t read_items(const uint8_t *bytes, size_t length, PyObject *items)
{
    size_t count = 0, consumed = 0;
    for (size_t capacity = 128;; capacity *= 2) {
        if (PyByteArray_Resize(items, (Py_ssize_t)(capacity * sizeof(multihash_item))) < 0) return -1;
        multihash_item *to = (multihash_item *)(void *)PyByteArray_AsString(items) + count;
        multihash_batch part = multihash_read_many(bytes + consumed, length - consumed, to, capacity - count);
        for (size_t at = 0; consumed > 0 && at < part.count; at++) to[at].digest_offset += consumed;
        count += part.count;
        consumed += part.consumed;
        if (count < capacity) break;
    }
    return PyByteArray_Resize(items, (Py_ssize_t)(count * sizeof(multihash_item))) < 0 ? -1 : (Py_ssize_t)consumed;
}

/* The error of bytes that do not start with a multihash, or None if there are no bytes. */
static PyObject *error_of(const module_state *state, const uint8_t *bytes, size_t length)
{
    char text[MULTIHASH_MESSAGE_SIZE];
    multihash_decoded result = multihash_read(bytes, length);
    unsigned long long size = result.size, consumed = result.consumed;
    if (length == 0) Py_RETURN_NONE;
    multihash_message(text, sizeof text, bytes, length, MULTIHASH_DIGEST_MAX);
    return PyObject_CallFunction(state->error, "IKiKs", result.status, size, 0, consumed, text);
}

static PyObject *read_many(PyObject *module, PyObject *data)
{
    Py_buffer view;
    if (get_buffer(data, "data", PyBUF_SIMPLE, &view) < 0) return NULL;
    const uint8_t *bytes = view.buf;
    PyObject *items = PyByteArray_FromStringAndSize(NULL, 0), *error = NULL;
    Py_ssize_t consumed = items == NULL ? -1 : read_items(bytes, (size_t)view.len, items);
    if (consumed >= 0) error = error_of(PyModule_GetState(module), bytes + consumed, (size_t)(view.len - consumed));
    PyBuffer_Release(&view);
    if (error != NULL) return Py_BuildValue("NnN", items, consumed, error);
    Py_XDECREF(items);
    return NULL;
}

/* ---- encoding */

typedef multihash_encoded encoder(uint64_t, const uint8_t *, size_t, uint8_t *, size_t);

static PyObject *encoded(PyObject *module, encoder *function, const char *format, PyObject *const *args,
                         Py_ssize_t nargs, PyObject *kwnames)
{
    static char *keywords[] = {"code", "digest", NULL};
    uint8_t out[MULTIHASH_LENGTH_MAX];
    PyObject *code, *bytes;
    uint64_t number;
    input digest;
    if (get_arguments(args, nargs, kwnames, format, keywords, &code, &bytes) < 0) return NULL;
    if (get_number(code, "code", &number) < 0) return NULL;
    if (get_input(bytes, "digest", MULTIHASH_DIGEST_MAX, &digest) < 0) return NULL;
    /* A longer digest may not have been copied whole. */
    multihash_encoded result = digest.whole_length > MULTIHASH_DIGEST_MAX
                                   ? multihash_encoded_length(number, digest.whole_length)
                                   : function(number, digest.bytes, digest.whole_length, out, sizeof out);
    Py_DECREF(digest.owner);
    if (result.status == MULTIHASH_OK) return PyBytes_FromStringAndSize((const char *)out, (Py_ssize_t)result.length);
    return encoding_error(PyModule_GetState(module), result.status, PyLong_FromSize_t(digest.whole_length), code);
}

static PyObject *encode(PyObject *module, PyObject *const *args, Py_ssize_t nargs, PyObject *kwnames)
{
    return encoded(module, multihash_encode, "OO:encode", args, nargs, kwnames);
}

static PyObject *scale_encode(PyObject *module, PyObject *const *args, Py_ssize_t nargs, PyObject *kwnames)
{
    return encoded(module, multihash_scale_encode, "OO:scale_encode", args, nargs, kwnames);
}

static PyObject *encoded_length(PyObject *module, PyObject *const *args, Py_ssize_t nargs, PyObject *kwnames)
{
    static char *keywords[] = {"code", "digest_length", NULL};
    PyObject *code, *length;
    uint64_t number;
    size_t size;
    if (get_arguments(args, nargs, kwnames, "OO:encoded_length", keywords, &code, &length) < 0) return NULL;
    if (get_number(code, "code", &number) < 0 || get_size(length, "digest_length", &size) < 0) return NULL;
    multihash_encoded result = multihash_encoded_length(number, size);
    if (result.status == MULTIHASH_OK) return PyLong_FromSize_t(result.length);
    return encoding_error(PyModule_GetState(module), result.status, Py_NewRef(length), code);
}

static PyObject *encode_varint(PyObject *module, PyObject *const *args, Py_ssize_t nargs, PyObject *kwnames)
{
    static char *keywords[] = {"value", NULL};
    uint8_t out[MULTIHASH_VARINT_LENGTH_MAX];
    PyObject *value;
    uint64_t number;
    if (get_arguments(args, nargs, kwnames, "O:encode_varint", keywords, &value, NULL) < 0) return NULL;
    if (get_number(value, "value", &number) < 0) return NULL;
    multihash_encoded result = multihash_write_varint(number, out, sizeof out);
    if (result.status == MULTIHASH_OK) return PyBytes_FromStringAndSize((const char *)out, (Py_ssize_t)result.length);
    return raise_error(PyModule_GetState(module), result.status, 0, 0, 0, "the value is 2^63 or more");
}

static PyObject *compare(PyObject *module, PyObject *const *args, Py_ssize_t nargs, PyObject *kwnames)
{
    static char *keywords[] = {"left", "right", NULL};
    const module_state *state = PyModule_GetState(module);
    PyObject *sides[2];
    if (get_arguments(args, nargs, kwnames, "OO:compare", keywords, &sides[0], &sides[1]) < 0) return NULL;
    for (int side = 0; side < 2; side++) {
        if (!PyObject_TypeCheck(sides[side], state->type))
            return wrong_type(keywords[side], "a Multihash", sides[side]);
    }
    return PyLong_FromLong(order_of(sides[0], sides[1]));
}

/* ---- the module */

#define WITH_NAMES(function) (PyCFunction)(void (*)(void))(function), METH_FASTCALL | METH_KEYWORDS

static PyMethodDef functions[] = {
    {"decode", WITH_NAMES(decode),
     "decode(data)\n--\n\nDecodes `data`, which must be exactly one multihash.\n\n"
     "Raises MultihashError if it is malformed or truncated, or if bytes follow the multihash."},
    {"read", WITH_NAMES(read_front),
     "read(data, limit=255)\n--\n\n"
     "Decodes the multihash at the start of `data`, with a digest of at most `limit` bytes.\n\n"
     "Returns the multihash and the length of its encoding. More bytes may follow. Raises MultihashError if `data`\n"
     "does not start with such a multihash. If `is_incomplete` of the error is true, append bytes and call again."},
    {"scale_decode", WITH_NAMES(scale_decode),
     "scale_decode(data)\n--\n\n"
     "Decodes the SCALE encoding at the start of `data`. Returns the multihash and the length of the encoding.\n\n"
     "Raises MultihashError if the encoding is truncated, or if the code is 2**63 or more."},
    {"head", head, METH_O, NULL},
    {"read_many", read_many, METH_O, NULL},
    {"read_varint", WITH_NAMES(read_varint),
     "read_varint(data)\n--\n\n"
     "Decodes the varint at the start of `data`. Returns the value, below 2**63, and the length of the varint.\n\n"
     "Raises MultihashError if the varint is malformed or truncated."},
    {"encode_varint", WITH_NAMES(encode_varint),
     "encode_varint(value)\n--\n\n"
     "Returns the varint of a value. Raises MultihashError for a value of 2**63 or more."},
    {"encode", WITH_NAMES(encode),
     "encode(code, digest)\n--\n\nReturns the encoding of a code and a digest.\n\n"
     "Raises MultihashError for a code of 2**63 or more, and for a digest of more than DIGEST_MAX bytes."},
    {"scale_encode", WITH_NAMES(scale_encode),
     "scale_encode(code, digest)\n--\n\n"
     "Returns the SCALE encoding of a code and a digest. Raises what `encode` raises."},
    {"encoded_length", WITH_NAMES(encoded_length),
     "encoded_length(code, digest_length)\n--\n\n"
     "Returns the length of the encoding of a code and a digest of that length. Raises what `encode` raises."},
    {"compare", WITH_NAMES(compare),
     "compare(left, right)\n--\n\n"
     "Returns -1 if `left` is less than `right`, 0 if they are equal, and 1 if it is greater."},
    {"set_error", set_error, METH_O, NULL},
    {NULL, NULL, 0, NULL},
};

static int fill_module(PyObject *module)
{
    module_state *state = PyModule_GetState(module);
    state->error = Py_NewRef(PyExc_ValueError); /* until the package sets it */
    state->type = (PyTypeObject *)PyType_FromModuleAndSpec(module, &multihash_spec, NULL);
    if (state->type == NULL) return -1;
    PyObject *reader = PyType_FromModuleAndSpec(module, &reader_spec, NULL);
    if (reader == NULL) return -1;
    PyObject *file_reader = PyType_FromModuleAndSpec(module, &file_reader_spec, reader);
    PyObject *fields = Py_BuildValue("ss", "code", "digest");
    int is_filled = file_reader != NULL && fields != NULL &&
                    PyObject_SetAttrString((PyObject *)state->type, "__match_args__", fields) == 0 &&
                    PyModule_AddType(module, state->type) == 0 &&
                    PyModule_AddType(module, (PyTypeObject *)reader) == 0 &&
                    PyModule_AddType(module, (PyTypeObject *)file_reader) == 0 &&
                    PyModule_AddIntConstant(module, "DIGEST_MAX", MULTIHASH_DIGEST_MAX) == 0 &&
                    PyModule_AddIntConstant(module, "HEAD_MAX", MULTIHASH_HEAD_MAX) == 0 &&
                    PyModule_AddIntConstant(module, "LENGTH_MAX", MULTIHASH_LENGTH_MAX) == 0 &&
                    PyModule_AddIntConstant(module, "SCALE_LENGTH_MAX", MULTIHASH_SCALE_LENGTH_MAX) == 0 &&
                    PyModule_AddIntConstant(module, "VARINT_LENGTH_MAX", MULTIHASH_VARINT_LENGTH_MAX) == 0;
    Py_DECREF(reader);
    Py_XDECREF(file_reader);
    Py_XDECREF(fields);
    return is_filled ? 0 : -1;
}

static int visit_state(PyObject *module, visitproc visit, void *arg)
{
    module_state *state = PyModule_GetState(module);
    Py_VISIT(state->type);
    Py_VISIT(state->error);
    return 0;
}

static int clear_state(PyObject *module)
{
    module_state *state = PyModule_GetState(module);
    Py_CLEAR(state->type);
    Py_CLEAR(state->error);
    return 0;
}

static void free_state(void *module)
{
    clear_state(module);
}

#ifndef Py_mod_multiple_interpreters /* CPython has it from 3.12 on, and its stable ABI of 3.11 does not show it */
#define Py_mod_multiple_interpreters 3
#define Py_MOD_PER_INTERPRETER_GIL_SUPPORTED ((void *)2)
#endif

/* Interpreters may have locks of their own: all that changes is in the module's state. */
static PyModuleDef_Slot slots[] = {
    {Py_mod_multiple_interpreters, Py_MOD_PER_INTERPRETER_GIL_SUPPORTED},
    {Py_mod_exec, fill_module},
    {0, NULL},
};

static struct PyModuleDef definition = {
    .m_base = PyModuleDef_HEAD_INIT,
    .m_name = "_core",
    .m_doc = "The library for C.",
    .m_size = sizeof(module_state),
    .m_methods = functions,
    .m_slots = slots,
    .m_traverse = visit_state,
    .m_clear = clear_state,
    .m_free = free_state,
};

PyMODINIT_FUNC PyInit__core(void)
{
    if (Py_Version < 0x030c0000) definition.m_slots = slots + 1; /* it does not know the first one */
    return PyModuleDef_Init(&definition);
}
