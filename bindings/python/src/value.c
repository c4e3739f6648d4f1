/* The type Multihash: a code and a digest. */
#include "core.h"

typedef struct multihash_object {
    PyObject_HEAD
    PyObject *digest; /* a bytes object */
    unsigned long long code;
} multihash_object;

PyTypeObject *type_in_c(PyTypeObject *type)
{
    PyTypeObject *base = PyType_GetSlot(type, Py_tp_base);
    while (base != &PyBaseObject_Type) {
        type = base;
        base = PyType_GetSlot(type, Py_tp_base);
    }
    return type;
}

const module_state *state_of(PyTypeObject *type)
{
    return PyType_GetModuleState(type_in_c(type));
}

PyObject *new_multihash(PyTypeObject *type, uint64_t code, PyObject *digest)
{
    multihash_object *multihash = digest == NULL ? NULL : (multihash_object *)PyType_GenericAlloc(type, 0);
    if (multihash == NULL) {
        Py_XDECREF(digest);
        return NULL;
    }
    multihash->code = code;
    multihash->digest = digest;
    return (PyObject *)multihash;
}

static PyObject *multihash_new(PyTypeObject *type, PyObject *args, PyObject *kwargs)
{
    static char *keywords[] = {"code", "digest", NULL};
    PyObject *code, *bytes;
    uint64_t number;
    input digest;
    if (!PyArg_ParseTupleAndKeywords(args, kwargs, "OO:Multihash", keywords, &code, &bytes)) return NULL;
    if (get_number(code, "code", &number) < 0) return NULL;
    if (get_input(bytes, "digest", MULTIHASH_DIGEST_MAX, &digest) < 0) return NULL;
    multihash_status status = multihash_encoded_length(number, digest.whole_length).status;
    if (status == MULTIHASH_OK) return new_multihash(type, number, digest.owner);
    Py_DECREF(digest.owner);
    return encoding_error(state_of(type), status, PyLong_FromSize_t(digest.whole_length), code);
}

static void multihash_dealloc(PyObject *self)
{
    multihash_object *multihash = (multihash_object *)self;
    PyTypeObject *type = Py_TYPE(self);
    Py_XDECREF(multihash->digest);
    ((freefunc)PyType_GetSlot(type, Py_tp_free))(self);
    Py_DECREF(type);
}

/* The bytes of the digest, which is a bytes object. */
static const uint8_t *digest_of(PyObject *value, size_t *length)
{
    char *bytes = NULL;
    Py_ssize_t size = 0;
    PyBytes_AsStringAndSize(((multihash_object *)value)->digest, &bytes, &size);
    *length = (size_t)size;
    return (const uint8_t *)bytes;
}

int order_of(PyObject *left, PyObject *right)
{
    size_t lengths[2];
    const uint8_t *digests[] = {digest_of(left, &lengths[0]), digest_of(right, &lengths[1])};
    return multihash_compare(((multihash_object *)left)->code, digests[0], lengths[0],
                             ((multihash_object *)right)->code, digests[1], lengths[1]);
}

static PyObject *multihash_compared(PyObject *left, PyObject *right, int operation)
{
    if (Py_TYPE(left) != Py_TYPE(right) && !PyObject_TypeCheck(right, type_in_c(Py_TYPE(left)))) {
        Py_RETURN_NOTIMPLEMENTED;
    }
    Py_RETURN_RICHCOMPARE(order_of(left, right), 0, operation);
}

/* The code and the digest: what pickle and copy pass to the type. */
static PyObject *multihash_pair(PyObject *self, PyObject *unused)
{
    const multihash_object *multihash = (const multihash_object *)self;
    (void)unused;
    return Py_BuildValue("KO", multihash->code, multihash->digest);
}

static Py_hash_t multihash_hash(PyObject *self)
{
    PyObject *pair = multihash_pair(self, NULL);
    Py_hash_t hash = pair == NULL ? -1 : PyObject_Hash(pair);
    Py_XDECREF(pair);
    return hash;
}

static PyObject *multihash_bytes(PyObject *self, PyObject *unused)
{
    (void)unused;
    uint8_t out[MULTIHASH_LENGTH_MAX];
    size_t length;
    const uint8_t *digest = digest_of(self, &length);
    multihash_encoded result = multihash_encode(((multihash_object *)self)->code, digest, length, out, sizeof out);
    return PyBytes_FromStringAndSize((const char *)out, (Py_ssize_t)result.length); /* each Multihash has an encoding */
}

static PyObject *multihash_hex(PyObject *self, PyObject *unused)
{
    PyObject *bytes = multihash_bytes(self, unused);
    PyObject *text = bytes == NULL ? NULL : PyObject_CallMethod(bytes, "hex", NULL);
    Py_XDECREF(bytes);
    return text;
}

static PyObject *multihash_str(PyObject *self)
{
    return multihash_hex(self, NULL);
}

static PyObject *multihash_hexdigest(PyObject *self, PyObject *unused)
{
    (void)unused;
    return PyObject_CallMethod(((multihash_object *)self)->digest, "hex", NULL);
}

static PyObject *multihash_repr(PyObject *self)
{
    PyObject *name = PyType_GetQualName(Py_TYPE(self)), *text = multihash_hex(self, NULL);
    PyObject *shown = name == NULL || text == NULL ? NULL : PyUnicode_FromFormat("%U.fromhex('%U')", name, text);
    Py_XDECREF(name);
    Py_XDECREF(text);
    return shown;
}

static PyObject *multihash_format(PyObject *self, PyObject *specification)
{
    PyObject *text = PyObject_Str(self);
    PyObject *formatted = text == NULL ? NULL : PyObject_CallMethod(text, "__format__", "O", specification);
    Py_XDECREF(text);
    return formatted;
}

/* For pickle and copy: as object does from the second protocol on, which keeps the attributes of a subclass. */
static PyObject *multihash_reduce(PyObject *self, PyObject *protocol)
{
    (void)protocol;
    return PyObject_CallMethod((PyObject *)&PyBaseObject_Type, "__reduce_ex__", "Oi", self, 2);
}

static PyObject *multihash_replace(PyObject *self, PyObject *args, PyObject *kwargs)
{
    const multihash_object *multihash = (const multihash_object *)self;
    PyObject *fields = Py_BuildValue("{sKsO}", "code", multihash->code, "digest", multihash->digest), *result = NULL;
    if (fields != NULL && (kwargs == NULL || PyDict_Update(fields, kwargs) == 0)) {
        result = PyObject_Call((PyObject *)Py_TYPE(self), args, fields);
    }
    Py_XDECREF(fields);
    return result;
}

static PyObject *multihash_fromhex(PyObject *class, PyObject *text)
{
    if (!PyUnicode_Check(text)) return wrong_type("text", "a str (decode takes bytes)", text);
    PyObject *bytes = PyObject_CallMethod((PyObject *)&PyBytes_Type, "fromhex", "O", text);
    PyObject *multihash = bytes == NULL ? NULL : decoded_whole(state_of((PyTypeObject *)class), bytes);
    Py_XDECREF(bytes);
    if (multihash == NULL || (PyObject *)Py_TYPE(multihash) == class) return multihash;
    PyObject *pair = multihash_pair(multihash, NULL), *result = pair == NULL ? NULL : PyObject_Call(class, pair, NULL);
    Py_DECREF(multihash);
    Py_XDECREF(pair);
    return result;
}

static PyMethodDef multihash_methods[] = {
    {"fromhex", multihash_fromhex, METH_O | METH_CLASS,
     "fromhex($type, text, /)\n--\n\nDecodes the multihash whose encoding is all of a text in hexadecimal.\n\n"
     "Raises ValueError if the text is not hexadecimal, and what `decode` raises."},
    {"hex", multihash_hex, METH_NOARGS, "hex($self)\n--\n\nReturns the encoding in hexadecimal, as str does."},
    {"hexdigest", multihash_hexdigest, METH_NOARGS,
     "hexdigest($self)\n--\n\nReturns the digest in hexadecimal, as the objects of hashlib do."},
    {"__bytes__", multihash_bytes, METH_NOARGS, "Returns the encoding."},
    {"__format__", multihash_format, METH_O, "Formats what str returns."},
    {"__getnewargs__", multihash_pair, METH_NOARGS, "Returns the code and the digest."},
    {"__reduce_ex__", multihash_reduce, METH_O, NULL},
    {"__replace__", (PyCFunction)(void (*)(void))multihash_replace, METH_VARARGS | METH_KEYWORDS,
     "Returns one with another code or digest."},
    {NULL, NULL, 0, NULL},
};

static PyMemberDef multihash_members[] = {
    {"code", T_ULONGLONG, offsetof(multihash_object, code), READONLY, "The code of the hash function, below 2**63."},
    {"digest", T_OBJECT_EX, offsetof(multihash_object, digest), READONLY, "The digest, as bytes."},
    {NULL, 0, 0, 0, NULL},
};

static const char multihash_doc[] =
    "Multihash(code, digest)\n--\n\n"
    "A code below 2**63, which identifies the hash function, and a digest of at most DIGEST_MAX bytes.\n\n"
    "Values are immutable and hashable. They are ordered by code, then by digest length, then by the first digest\n"
    "byte that differs. `bytes(multihash)` returns the encoding, and `str(multihash)` the same in hexadecimal.";

static PyType_Slot multihash_slots[] = {
    {Py_tp_doc, (void *)multihash_doc},
    {Py_tp_new, multihash_new},
    {Py_tp_dealloc, multihash_dealloc},
    {Py_tp_hash, multihash_hash},
    {Py_tp_repr, multihash_repr},
    {Py_tp_str, multihash_str},
    {Py_tp_richcompare, multihash_compared},
    {Py_tp_methods, multihash_methods},
    {Py_tp_members, multihash_members},
    {0, NULL},
};

PyType_Spec multihash_spec = {
    "verified_multihash.Multihash",
    sizeof(multihash_object),
    0,
    Py_TPFLAGS_DEFAULT | Py_TPFLAGS_HAVE_VERSION_TAG | Py_TPFLAGS_BASETYPE,
    multihash_slots,
};
