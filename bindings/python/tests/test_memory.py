"""Calls whose allocations fail, one after the other, and calls that keep what they allocated."""

import functools
import gc
import io
import sys
import unittest
from unittest.mock import ANY

import verified_multihash as vm
from test_arguments import NAMED_CALLS, Named
from verified_multihash import Multihash

try:
    from _testcapi import remove_mem_hooks, set_nomemory
except ImportError:
    set_nomemory = None

VALUE = Multihash(0x810, b"abc")
OTHER = Multihash(1 << 62, bytes(255))
LONG = b"\xff" * (1 << 10)
RUNS = 100
# CPython's cache of attributes keeps each name, so one that a call makes is a block more.
forget = getattr(sys, "_clear_type_cache", gc.collect)


def calls():
    """Each function with right arguments, and with one that is wrong, too large, or another kind of buffer."""
    for call, arguments in NAMED_CALLS.items():
        if hasattr(vm._core, call.__name__):
            call = getattr(vm._core, call.__name__)
            yield call, arguments
            for at, right in enumerate(arguments):
                kinds = (bytearray(right), memoryview(right)) if isinstance(right, bytes) else ()
                for other in (None, -(1 << 200), 1 << 70, LONG, bytearray(LONG), memoryview(LONG), *kinds):
                    yield call, [*arguments[:at], other, *arguments[at + 1 :]]


class Parts(io.BytesIO):
    """A file that returns at most 128 bytes at a time."""

    def read(self, size):
        return super().read(min(size, 128))


def frames_of(file):
    """Two frames, or an error, and what was read after them."""
    reader = vm._core.FileReader(file.read, 1 << 62, True)
    return reader.read(), reader.read(), reader.rest


STEPS = vm._core.Reader(len, 1)
FRAMES = vm.encode_varint(300) + LONG[:300] + vm.encode_varint(300) + LONG
CALLS = {str((call.__name__, each)): (call, each) for call, each in calls()}
CALLS["a subclass"] = Named, [1 << 62, b"abc"]
CALLS["values"] = lambda: (OTHER.code, OTHER.digest, bytes(OTHER), hash(OTHER), OTHER.__getnewargs__()), ()
CALLS["texts"] = lambda: (OTHER.hex(), str(OTHER), repr(OTHER), OTHER.hexdigest(), format(VALUE, ">99")), ()
CALLS["hexadecimal"] = lambda text: (Multihash.fromhex(text), Named.fromhex(text)), [OTHER.hex()]
CALLS["copies"] = lambda: (OTHER.__replace__(code=1), OTHER.__reduce_ex__(0)), ()
CALLS["order"] = lambda: (VALUE == OTHER, VALUE < OTHER, VALUE == 1, VALUE == Named(VALUE.code, VALUE.digest)), ()
CALLS["gaps"] = lambda data: vm.decode(memoryview(data)[::2]), [LONG]
CALLS["many"] = vm._core.read_many, [bytes(OTHER) * 9]
CALLS["many short ones"] = vm._core.read_many, [bytes(640)]
CALLS["many and an error"] = lambda data: str(vm._core.read_many(data)[2]), [bytes(9)]
CALLS["reader"] = lambda data, limit: vm.read_from(io.BytesIO(data), limit), [bytes(OTHER), 1 << 62]
CALLS["frames"] = lambda data: frames_of(io.BytesIO(data)), [FRAMES]
CALLS["frames in parts"] = lambda data: frames_of(Parts(data)), [FRAMES]
CALLS["no frame"] = lambda data: frames_of(io.BytesIO(data)), [FRAMES[:-800]]
CALLS["steps"] = lambda: (STEPS._fail(None), STEPS._begin(), STEPS._end(b""), STEPS._take()), ()
CALLS["too many"] = lambda data: (STEPS._fail(None), STEPS._begin(), STEPS._end(data)), [LONG]


def prepared(call, arguments):
    """A call with new objects for its arguments, so that one that is kept is a block more, and no new names."""

    def anew(argument):
        if isinstance(argument, Multihash):
            return Multihash(anew(argument.code), anew(argument.digest))
        if isinstance(argument, (bytes, bytearray, memoryview)):
            return type(argument)(bytes(bytearray(argument)))
        return -(-argument) if isinstance(argument, int) else argument

    return functools.partial(call, *map(anew, arguments))


def result_of(call):
    """The result of a call, or its error; MemoryError where an allocation failed."""
    try:
        return call()
    except MemoryError:
        return MemoryError
    except SystemError as error:
        if not str(error).startswith(("error return without exception set", "<function ")):
            raise
        return MemoryError  # CPython's, from 3.11 on, where it has no memory for a traceback
    except (RuntimeError, TypeError, ValueError) as error:
        return type(error), error.args or ANY  # CPython leaves a text out if it has no memory for it


def failing(call, number):
    """The result of a call in which the allocation of that number fails."""
    set_nomemory(number, number + 1)
    try:
        return call()
    finally:
        remove_mem_hooks()


def keeps(call, number):
    """Whether each run of a call, with that allocation failing, keeps or loses a block; its result."""
    for _ in range(5):  # CPython keeps some for itself
        forget()
        gc.collect()
        before = sys.getallocatedblocks()
        for _ in range(RUNS):
            again = prepared(*call)
            result = result_of(functools.partial(failing, again, number))
        del again
        forget()
        gc.collect()
        if abs(sys.getallocatedblocks() - before) < RUNS // 2:
            return False, result
    return True, result


@unittest.skipIf(set_nomemory is None, "_testcapi is not installed")
class Memory(unittest.TestCase):
    @classmethod
    def setUpClass(cls):
        gc.freeze()  # what is there is not looked at each time
        cls.addClassCleanup(gc.unfreeze)

    def test_failing_allocations(self):
        """The last numbers are more than the call has allocations: it succeeds."""
        failed = 0
        for name, call in CALLS.items():
            with self.subTest(call=name):
                wanted, number, last = result_of(prepared(*call)), 0, 0
                while number - last < 20:
                    is_kept, result = keeps(call, number)
                    self.assertIn(result, (MemoryError, wanted), number)
                    self.assertFalse(is_kept, number)
                    failed += result is MemoryError
                    last, number = number if result is MemoryError else last, number + 1
        self.assertGreater(failed, len(CALLS))
