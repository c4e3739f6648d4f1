"""What the package makes of arguments, its errors, and values."""

import array
import copy
import ctypes
import io
import itertools
import mmap
import os
import pickle
import resource
import tempfile
import unittest
from unittest.mock import Mock

import verified_multihash as vm
from test_readers import AwaitedMultihashes
from verified_multihash import Multihash, MultihashError, Status, hashes
from verified_multihash.cid import CID, CIDError

try:
    from _testbuffer import ND_FORTRAN, ndarray
except ImportError:
    ndarray = None

DECODERS = [vm.decode, vm.read, vm.head, vm.scale_decode, vm.read_varint, vm.read_many]
ENCODERS = [vm.encode, vm.scale_encode, Multihash]
VALUE = Multihash(1, b"abc")
CODE = 1 << 62
NEGATIVE = (-1, -(1 << 63), -(1 << 63) - 1, -(10**5000))
LARGE = (1 << 63, 1 << 64, (1 << 64) + 18, 10**5000)  # str takes no more than 4300 digits
# Arguments with which a function is called by position, and by the names that it shows; large, so that each is a block.
NAMED_CALLS = {
    vm.decode: [b"\1\3abc"], vm.read: [b"\1\3abc", CODE], vm.head: [b"\1\3"], vm.scale_decode: [bytes(9)],
    vm.read_varint: [b"\xff\1"], vm.encode_varint: [CODE],
    vm.encode: [CODE, b"abc"], vm.scale_encode: [CODE, b"abc"], vm.encoded_length: [CODE, 2],
    vm.compare: [Multihash(CODE, b""), VALUE], vm.read_from: [io.BytesIO(bytes(8)), 2], Multihash: [CODE, b"abc"],
    MultihashError: [4, 3, 0, 7, "text"],
}  # fmt: skip


# Calls with the texts of their errors. messages.tsv has the texts of inputs.
TEXTS = [
    (vm.read_varint, [b""], "the input is empty"),
    (vm.read_varint, [b"\x80"], "the input ends inside the varint"),
    (vm.read_varint, [b"\x80\0"], "the varint is not minimal: it ends in a zero byte"),
    (vm.read_varint, [b"\xff" * 9], "the varint has more than nine bytes"),
    (vm.encode_varint, [1 << 63], "the value is 2^63 or more"),
    (vm.encode, [1 << 63, b""], "the code is 2^63 or more"),
    (vm.encoded_length, [18, (1 << 63) - 1], "the digest has 9223372036854775807 bytes, and the limit is 255"),
    (vm.encoded_length, [18, 10**5000], "the digest or the input is too long"),
    (vm.head, [b"\x92\0\1"], "the varint of the code is not minimal: it ends in a zero byte"),
    (vm.decode, ["1220"], "data must be bytes (Multihash.fromhex takes text), not str"),
    (Multihash.fromhex, [b"1220"], "text must be a str (decode takes bytes), not bytes"),
    (Multihash, [18, "abc"], "digest must be bytes (bytes.fromhex takes hexadecimal), not str"),
    (Multihash, ["sha1", b""], "code must be an int (hashes.CODES has the codes of names), not str"),
    (vm.compare, [b"\1\0", VALUE], "left must be a Multihash, not bytes"),
    (vm.MultihashReader, ["path"], "file must be a binary file, such as open(path, 'rb'), not str"),
    (vm.AsyncFrameReader, [3], "stream must have a read that is awaited, as an asyncio.StreamReader has, not int"),
    (vm.read_from, [io.StringIO("1220")], "the result of read must be bytes (open the file in binary mode), not str"),
    (vm.read_from, [Mock(read=int)], "the result of read must be a bytes-like object, not int"),
    (hashes.digest, [b"", "x" * 99], "name must be in hashes.CODES, such as 'sha2-256', not '" + "x" * 59),
    (hashes.digest, ["sha1", b""], "name must be a str such as 'sha2-256', or a code, not bytes"),
    (hashes.digest, [bytes(256), "identity"], "identity takes at most 255 bytes of content, got 256"),
    (hashes.digest, [b"", "sha1", [1]], "functions must map names or codes to functions, not list"),
    (hashes.verify, ["1220", b""], "multihash must be a Multihash or its encoding, not str"),
    (hashes.verify, [b"abc", VALUE], "data must be a bytes-like object, not Multihash"),
    (hashes.digest_file, [io.StringIO("abc"), "sha1"], "the result of read must be a bytes-like object, not str"),
]


def result_of(call, *arguments):
    """The result of a call, or the fields and the text of its error."""
    try:
        return call(*arguments)
    except MultihashError as error:
        return error.status, error.size, error.code, error.consumed, str(error)


class Named(Multihash):
    """A subclass, whose values have dictionaries."""


class Sha256(Multihash):
    """A subclass with other parameters."""

    __slots__ = ("slot", "__dict__")

    def __new__(cls, digest):
        return super().__new__(cls, 18, digest)

    def __getnewargs__(self):
        return (self.digest,)


def buffers():
    """Buffers of each shape: items of several bytes, gaps, no dimension and two; short ones, and more than is read."""
    data, long = b"\1\4abcd", vm.encode(1, bytes(range(255)))
    yield from (type("Own", (bytes,), {})(data), bytearray(data), memoryview(b""), (ctypes.c_ubyte * 6)(*data))
    yield memoryview(bytes(byte for pair in zip(long, long) for byte in pair))[::2]
    yield from (memoryview(data[::-1])[::-1], memoryview(array.array("H", [0x0201, 0, 0x4241, 0]))[::2])
    yield from ((ctypes.c_ubyte * 20 * 40)(), memoryview(bytes(800)).cast("B", [40, 20])[::2])
    yield from (memoryview(bytes(2000))[::-2], ctypes.c_uint16(7))
    yield type("Block", (ctypes.Structure,), {"_fields_": [("all", ctypes.c_ubyte * 999)]})()
    for kind in "BHIQ":  # what a call reads ends within an item
        yield from (array.array(kind, b"\xff" * 8 + b"\x7f\xff\1" + bytes(261)), array.array(kind, bytes(800)))
    if ndarray is not None:
        yield ndarray([*b"\0a\2b"], shape=[2, 2], flags=ND_FORTRAN)  # its rows are not in memory


# What takes a number, the name of that, and the status for one that is too large, if any.
NUMBERS = [
    *((lambda number, call=call: call(number, b""), "code", Status.INVALID_CODE) for call in ENCODERS),
    (lambda number: vm.encoded_length(number, 0), "code", Status.INVALID_CODE),
    (lambda number: vm.encoded_length(18, number), "digest_length", Status.INVALID_SIZE),
    (vm.encode_varint, "value", Status.OVERFLOW),
]
# What reads with a limit.
LIMITED = [
    lambda data, *limit: vm.read(data, **dict(zip(["limit"], limit)))[0],
    lambda data, *limit: vm.read_from(io.BytesIO(data), *limit),
    lambda data, *limit: vm.MultihashReader(io.BytesIO(data), *limit).read(),
    lambda data, *limit: AwaitedMultihashes(io.BytesIO(data), *limit).read(),
]


class Arguments(unittest.TestCase):
    def test_buffers(self):
        """Each function has the result that it has for the same bytes."""
        encoders = [lambda digest, call=call: call(1, digest) for call in ENCODERS]
        for buffer, call in itertools.product(buffers(), DECODERS[:5] + encoders):
            self.assertEqual(result_of(call, buffer), result_of(call, memoryview(buffer).tobytes()))
        self.assertIs(type(Multihash(1, bytearray(b"abc")).digest), bytes)
        for call, wrong in itertools.product(DECODERS + encoders, (2, "00", [0, 0], None)):
            self.assertRaisesRegex(TypeError, "^(data|digest) must be ", call, wrong)
        view = memoryview(b"\0\0")
        view.release()
        self.assertRaises(ValueError, vm.decode, view)

    def test_numbers(self):
        whole = type("Whole", (), {"__index__": lambda _: 3})()  # numbers of other packages have it
        limits = [(lambda limit, call=call: call(b"\1\3abc", limit), "limit", None) for call in LIMITED]
        for call, name, status in NUMBERS + limits:
            self.assertEqual(call(whole), call(3))
            for wrong in (18.0, "18", None, b"\x12"):
                self.assertRaisesRegex(TypeError, "^%s must be an int" % name, call, wrong)
            for number in NEGATIVE:
                self.assertRaisesRegex(ValueError, "^%s must not be negative$" % name, call, number)
            for number in LARGE:
                result = result_of(call, number)
                size, code = (number if status is each else 0 for each in (Status.INVALID_SIZE, Status.INVALID_CODE))
                self.assertEqual(result[:4] if status else result, (status, size, code, 0) if status else VALUE)
        for call in ENCODERS:  # the length is looked at first
            self.assertEqual(result_of(call, 1 << 64, bytes(256))[:2], (Status.INVALID_SIZE, 256))

    def test_limits(self):
        """Each call that reads has a limit, which is the longest digest if none is given."""
        limits = vm.DIGEST_MAX, vm.VARINT_LENGTH_MAX, vm.HEAD_MAX, vm.LENGTH_MAX, vm.SCALE_LENGTH_MAX
        self.assertEqual(limits, (255, 9, 18, 266, 264))
        for call, (size, *limit) in itertools.product(LIMITED, ((255,), (256,), (3, 3), (3, 2), (256, 1 << 64))):
            result = result_of(call, b"\1" + vm.encode_varint(size) + bytes(size), *limit)
            is_right = size <= min(*limit, 255, 255)
            self.assertEqual(result if is_right else result[:2], Multihash(1, bytes(size)) if is_right else (4, size))

    @unittest.skipIf("asan" in os.environ.get("LD_PRELOAD", ""), "the sanitizer has more memory than the limit")
    def test_no_long_copies(self):
        """A sparse file of 8 GiB, memory for 1 GiB: no call copies it, and lengths keep all their bits."""
        length, before = 1 << 33, resource.getrlimit(resource.RLIMIT_DATA)
        self.addCleanup(resource.setrlimit, resource.RLIMIT_DATA, before)
        zero = Multihash(0, b"")
        with tempfile.TemporaryFile() as file:
            file.truncate(length)
            with mmap.mmap(file.fileno(), 0, access=mmap.ACCESS_READ) as data:
                resource.setrlimit(resource.RLIMIT_DATA, (1 << 30, before[1]))
                self.assertRaises(MemoryError, bytes, data)
                self.assertEqual(
                    (vm.read(data), vm.head(data), vm.scale_decode(data)), ((zero, 2), (0, 0, 2), (zero, 9))
                )
                self.assertEqual(vm.read(memoryview(data)[::3]), (zero, 2))
                self.assertEqual(result_of(vm.decode, data)[:4], (Status.INVALID_SIZE, length - 2, 0, length))
                for call in ENCODERS:
                    self.assertEqual(result_of(call, 1, data)[:2], (Status.INVALID_SIZE, length))
                self.assertRaises(CIDError, CID.decode, data)
                self.assertIs(hashes.verify(zero, data), False)
                self.assertEqual(result_of(hashes.digest, data, "identity")[1], length)
                self.assertIs(hashes.verify_file(zero, file), False)
                self.assertRaises(MultihashError, hashes.digest_file, file, "identity")

    def test_texts(self):
        for call, arguments, text in TEXTS:
            with self.subTest(text), self.assertRaises((TypeError, ValueError)) as raised:
                call(*arguments)
            self.assertEqual(str(raised.exception), text)


class Errors(unittest.TestCase):
    def test_fields(self):
        errors = [MultihashError(*fields) for fields in ((1,), (4, 3), (5, 0, 1 << 70), (6, 0, 0, 2, "own"))]
        self.assertEqual([str(error) for error in errors], [*map(vm._status.TEXTS.get, (1, 4, 5)), "own"])
        self.assertEqual([error.is_incomplete for error in errors], [True, False, False, True])
        self.assertEqual(errors[2].__dict__, {"status": Status.INVALID_CODE, "size": 0, "code": 1 << 70, "consumed": 0})
        self.assertRaises(ValueError, MultihashError, len(Status))


def copies(value):
    """Copies, and what each protocol of pickle makes of a value."""
    return [copy.copy(value), copy.deepcopy(value), *(pickle.loads(pickle.dumps(value, n)) for n in range(6))]


class Values(unittest.TestCase):
    def test_order(self):
        """Operators, also between a value and one of a subclass. values.tsv has more values."""
        pairs = [(0, b"zz"), (1, b"b"), (1, b"ab"), (2, b"")]
        kinds = Multihash, Named, type("Other", (type("Middle", (Multihash,), {}),), {}), type("Inner", (Named,), {})
        for one, other in itertools.product(kinds, repeat=2):
            for (i, left), (k, right) in itertools.product(enumerate(pairs), repeat=2):
                left, right = one(*left), other(*right)
                self.assertEqual(vm.compare(left, right), (i > k) - (i < k))
                self.assertEqual((left < right, left <= right, left > right), (i < k, i <= k, i > k))
                self.assertEqual((left >= right, left == right, left != right), (i >= k, i == k, i != k))
                self.assertEqual(len({left, right}), 1 + (i != k))
        self.assertRaises(TypeError, lambda: VALUE < b"\1\0")
        self.assertIs(VALUE.__eq__(b"\1\0"), NotImplemented)  # the other one may know

    def test_values(self):
        source = bytearray(b"abc")
        subclass = type("Own", (Multihash,), {"__qualname__": "Outer.Own"})
        for value, kind in ((Multihash(True, source), Multihash), (subclass(1, source), subclass)):
            source[0] = 0
            self.assertEqual((repr(value), hash(value)), ("%s.fromhex('0103616263')" % kind.__qualname__, hash(VALUE)))
            self.assertEqual((value, bytes(value), value.hexdigest()), (VALUE, b"\1\3abc", "616263"))
            self.assertEqual([value.hex(), str(value), "%s" % value, format(value)], ["0103616263"] * 4)
            self.assertEqual("{:>12} {!s:.4}".format(value, value), "  0103616263 0103")
            self.assertRaises(TypeError, value.__format__, 2)
            short = type("Short", (kind,), {"__str__": kind.hexdigest})(1, b"abc")
            self.assertEqual((format(short), repr(short)), ("616263", "Short.fromhex('0103616263')"))
            source[0] = ord("a")
            value.__init__(2, b"")
            self.assertEqual((value, type(value.code)), (VALUE, int))
            for name in ("code", "digest", "more") if kind is Multihash else ("code", "digest"):
                for call in (setattr, object.__setattr__):
                    self.assertRaises(AttributeError, call, value, name, 2)
                self.assertRaises(AttributeError, delattr, value, name)

    def test_copies(self):
        """They keep all attributes, those of subclasses and errors too, which may have other parameters."""
        for again in copies(Multihash(CODE, bytes(255))):
            self.assertEqual((type(again), again), (Multihash, Multihash(CODE, bytes(255))))
        value, error = Sha256(b"abc"), MultihashError(6, 0, 0, 3, "text")
        value.more, value.slot, error.more = "kept", 3, "kept"
        for again in copies(value):
            self.assertEqual((type(again), again, again.more, again.slot), (Sha256, Multihash(18, b"abc"), "kept", 3))
        for again in copies(error):
            self.assertEqual(
                (type(again), again.more, again.args, again.consumed), (type(error), "kept", error.args, 3)
            )

    def test_hexadecimal(self):
        """A text has digits and white space; a subclass makes its own values, if it has the parameters."""
        for kind, value in itertools.product((Multihash, Named), (VALUE, Multihash(CODE, bytes(range(255))))):
            for text in (value.hex(), value.hex().upper(), " ".join(map("%02x".__mod__, bytes(value)))):
                again = kind.fromhex(text)
                self.assertEqual((again, type(again)), (value, kind))
            self.assertEqual(eval(repr(value)), value)
        self.assertRaises(TypeError, Sha256.fromhex, VALUE.hex())
        for wrong in ("0", "0x0000", "zz", "é0"):
            self.assertRaisesRegex(ValueError, "hexadecimal", Multihash.fromhex, wrong)
        self.assertRaises(MultihashError, Multihash.fromhex, "00")

    def test_replace(self):
        """copy.replace of CPython 3.13 calls this."""
        for value in (Multihash(CODE, b"abc"), Named(CODE, b"abc")):
            changed = value.__replace__(digest=b"d"), value.__replace__(code=2), value.__replace__()
            self.assertEqual(changed, (Multihash(CODE, b"d"), Multihash(2, b"abc"), value))
            self.assertEqual({type(each) for each in changed}, {type(value)})
            self.assertRaises(TypeError, value.__replace__, size=2)
            self.assertRaises(MultihashError, value.__replace__, digest=bytes(256))
        call = lambda cls, code, digest, more: Multihash.__new__(cls, code + more, digest)
        subclass = type("Own", (Multihash,), {"__new__": call})
        self.assertEqual(subclass(1, b"abc", 0).__replace__(more=2), Multihash(3, b"abc"))

    def test_hashes(self):
        """The hash is that of a tuple with the code and the digest."""
        for code, digest in itertools.product((0, 1, CODE), (b"", b"abc", bytes(255))):
            self.assertEqual(hash(Multihash(code, digest)), hash((code, digest)))
