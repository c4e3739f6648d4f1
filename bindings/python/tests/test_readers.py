"""The readers of multihashes and of frames, over files and streams whose bytes come in parts, late, truncated, too many or
with an error. test_vectors.py reads each vector."""

import asyncio
import functools
import gc
import io
import itertools
import unittest
import weakref
from types import SimpleNamespace
from unittest.mock import AsyncMock, Mock

import verified_multihash as vm
from verified_multihash import Multihash, MultihashError, Status

BUSY = "another call"
MULTIHASHES = [Multihash(1 << 40, bytes([n] * n)) for n in range(4)]
FRAMES = [b"", b"abc", bytes(range(200)), b""]


class Driven:
    """An async reader whose stream is a file, with the calls of a reader that awaits nothing."""

    def __init__(self, file, *limit):
        super().__init__(SimpleNamespace(read=AsyncMock(side_effect=file.read)), *limit)

    def read(self):
        try:
            super().read().send(None)
        except StopIteration as ended:
            return ended.value
        raise AssertionError("it waits")

    def __iter__(self):
        return iter(self.read, None)


class AwaitedMultihashes(Driven, vm.AsyncMultihashReader):
    pass


class AwaitedFrames(Driven, vm.AsyncFrameReader):
    pass


# Each reader, with items, and the encoding of each.
ENCODINGS = [bytes(each) for each in MULTIHASHES]
FRAMED = [vm.encode_varint(len(each)) + each for each in FRAMES]
READERS = [
    (vm.MultihashReader, MULTIHASHES, ENCODINGS),
    (AwaitedMultihashes, MULTIHASHES, ENCODINGS),
    (vm.FrameReader, FRAMES, FRAMED),
    (AwaitedFrames, FRAMES, FRAMED),
]
# A limit, the bytes of a frame after two others, and its error: the status, the size and the text.
FRAME_ERRORS = [
    (200, b"\xc8", Status.INSUFFICIENT, 0, "the input ends inside the varint"),
    (200, b"\xc8\1", Status.UNEXPECTED_EOF, 0, "the input ends before the frame (0 of 200 bytes)"),
    (200, b"\xc8\1a", Status.UNEXPECTED_EOF, 0, "the input ends inside the frame (1 of 200 bytes)"),
    (200, b"\x80\0", Status.NOT_MINIMAL, 0, "the varint is not minimal: it ends in a zero byte"),
    (200, b"\xff" * 9, Status.OVERFLOW, 0, "the varint has more than nine bytes"),
    (200, b"\xc9\1", Status.INVALID_SIZE, 201, "the frame has 201 bytes, and the limit is 200"),
    (1, b"\2", Status.INVALID_SIZE, 2, "the frame has 2 bytes, and the limit is 1"),
    (None, b"\x81\x80\x80\2", Status.INVALID_SIZE, 4194305, "the frame has 4194305 bytes, and the limit is 4194304"),
]


def turns(*results):
    """A file whose reads return these in turn, or raise them."""
    return Mock(**{"read.side_effect": results})


class Readers(unittest.TestCase):
    def test_parts(self):
        """The items of a file that returns some bytes at a time. Nothing after an item is read, none in many calls."""
        for (kind, items, encodings), limit in itertools.product(READERS, (1, 7, 500)):
            file = io.BytesIO(b"".join(encodings))
            part = Mock(side_effect=lambda size: memoryview(file.read(min(size, limit))))
            reader = kind(SimpleNamespace(read=part))
            for number, item in enumerate(items):
                self.assertEqual((reader.count, reader.consumed), (number, len(b"".join(encodings[:number]))))
                self.assertEqual((reader.read(), reader.rest, file.tell()), (item, b"", reader.consumed))
            self.assertEqual((reader.read(), reader.read(), reader.count), (None, None, len(items)))
            self.assertLess(part.call_count, 40 if limit == 500 else 999)
            self.assertEqual(list(kind(io.BytesIO(b"".join(encodings)))), items)
        file = io.BytesIO(bytes(4))
        self.assertEqual((vm.read_from(file), file.tell()), (Multihash(0, b""), 2))

    def test_late_bytes(self):
        """The next call goes on where a file has ended, or has no bytes yet. One reader shares nothing with another."""
        for (kind, items, encodings), fails in itertools.product(READERS, (b"", None, BlockingIOError)):
            data, results, waits = b"".join(encodings), [], 0
            reader = kind(turns(*(turn for byte in data for turn in (fails, bytearray([byte])))))
            while len(results) < len(items):
                try:
                    item = reader.read()
                    results += [] if item is None else [item]
                except (BlockingIOError, MultihashError) as error:
                    self.assertIs(getattr(error, "is_incomplete", None), None if fails != b"" else True)
                    self.assertEqual(reader.rest, data[reader.consumed :][: len(reader.rest)])
                    self.assertEqual(kind(io.BytesIO(encodings[1])).read(), items[1])
                    waits += 1
            self.assertEqual((results, waits), (items, len(data) - (len(items) if fails == b"" else 0)))
        with self.assertRaisesRegex(io.UnsupportedOperation, "MultihashReader"):
            vm.read_from(turns(b"\1", None))

    def test_frame_errors(self):
        for kind, (limit, data, status, size, text) in itertools.product((vm.FrameReader, AwaitedFrames), FRAME_ERRORS):
            more = b"" if status in (Status.INSUFFICIENT, Status.UNEXPECTED_EOF) else b"more"
            file = io.BytesIO(b"\0\1a" + data + more)
            reader = kind(file) if limit is None else kind(file, limit)
            self.assertEqual([reader.read(), reader.read()], [b"", b"a"])
            for _ in range(2):
                with self.assertRaises(MultihashError) as raised:
                    reader.read()
                error = raised.exception
                self.assertEqual(str(error), "frame 2 at offset 3: " + text)
                consumed = len(data.rstrip(b"a"))  # the varint
                self.assertEqual((error.status, error.size, error.code, error.consumed), (status, size, 0, consumed))
                self.assertEqual((reader.count, reader.consumed, reader.rest, file.read(4)), (2, 3, data, more))
                more = b""

    def test_long_frames(self):
        """Memory is for the bytes that came, not for a length."""
        file = Mock(wraps=io.BytesIO(vm.encode_varint(1 << 62) + bytes(300000)))
        self.assertRaises(MultihashError, vm.FrameReader(file, 1 << 70).read)
        asked = [call[0][0] for call in file.read.call_args_list]
        for at, each in enumerate(asked):
            self.assertLessEqual(each, max(1 << 16, sum(asked[:at])))
        long = bytes(range(250)) * 1200
        self.assertEqual(vm.FrameReader(io.BytesIO(vm.encode_varint(len(long)) + long)).read(), long)

    def test_failing_files(self):
        """After an error of a file, which loses bytes if it is buffered, nothing more is read from it."""
        self.assertRaises(TimeoutError, vm.read_from, turns(b"\1\3", TimeoutError))
        for kind, items, encodings in READERS:
            ends = [(TimeoutError, TimeoutError), (b"abcdef", ValueError), ("a", TypeError)]
            ends += [(KeyboardInterrupt, KeyboardInterrupt)] * (not issubclass(kind, Driven))
            data = encodings[3] if items is MULTIHASHES else encodings[1]
            for at, (last, error) in itertools.product(range(len(data)), ends):
                reader = kind(turns(*(data[n : n + 1] for n in range(at)), last))
                self.assertRaises(error, reader.read)
                for _ in range(2):
                    self.assertRaisesRegex(ValueError, "failed before", reader.read)
                reader.__init__(io.BytesIO(data))  # it reads another file
                self.assertEqual((reader.consumed, reader.count, len(list(reader))), (0, 0, 1))

    def test_no_files(self):
        closed = io.BytesIO(b"\0\0")
        closed.close()
        for kind, _, _ in READERS:
            self.assertRaisesRegex(ValueError, "__init__", kind.__new__(kind).read)
            self.assertRaisesRegex(ValueError, "closed file", kind(closed).read)
            self.assertRaises(AttributeError, setattr, kind(closed), "consumed", 2)

    def test_calls_at_once(self):
        """A call while another one waits is an error, and the other one goes on."""
        for kind in (vm.MultihashReader, vm.FrameReader):

            def chunk(size):
                for call in (reader.read, functools.partial(reader.__init__, io.BytesIO())):
                    self.assertRaisesRegex(RuntimeError, BUSY, call)
                return bytes(size)

            reader = kind(SimpleNamespace(read=chunk))
            self.assertEqual(next(reader), reader.read())

        async def run(kind):
            stream = asyncio.StreamReader()
            reader = kind(stream)
            next(reader.read().__await__())  # a call that is dropped
            first = asyncio.ensure_future(reader.read())
            await asyncio.sleep(0)
            for _ in range(2):
                with self.assertRaisesRegex(RuntimeError, BUSY):
                    await reader.read()
                self.assertRaisesRegex(RuntimeError, BUSY, reader.__init__, stream)
            stream.feed_data(bytes(4))
            self.assertEqual(await first, await reader.read())

        for kind in (vm.AsyncMultihashReader, vm.AsyncFrameReader):
            asyncio.run(run(kind))

    def test_loops(self):
        """An error of the file that would end a loop, as an exhausted iterator raises it, is not consumed for its end."""
        for error in (StopIteration, StopAsyncIteration):
            reader = vm.MultihashReader(turns(b"\0\0", b"\1", error))
            self.assertEqual(next(reader), Multihash(0, b""))
            self.assertRaises(RuntimeError if error is StopIteration else error, list, reader)
            self.assertRaises(error, vm.MultihashReader(turns(error)).read)

        async def run():
            reader = vm.AsyncMultihashReader(io.BytesIO(b"\0\0"))
            for error, text in ((TypeError, "await"), (ValueError, "failed before")):
                with self.assertRaisesRegex(error, text):
                    await reader.read()
            reader = vm.AsyncMultihashReader(Mock(read=AsyncMock(side_effect=[b"\0\0", b"\1"])))
            items = []
            with self.assertRaisesRegex(RuntimeError, "StopAsyncIteration"):
                async for each in reader:
                    items.append(each)
            self.assertEqual((items, reader.rest), ([Multihash(0, b"")], b"\1"))

        asyncio.run(run())

    def test_collected(self):
        """A reader, its class and its file, which know each other; a file that is deleted with its reader."""
        subclass, file = type("Own", (vm.MultihashReader,), {}), type("File", (io.BytesIO,), {})(bytes(4))
        subclass.reader = file.reader = subclass(file)
        self.assertEqual(subclass.reader.read(), Multihash(0, b""))
        references = [weakref.ref(each) for each in (subclass, subclass.reader, file)]
        del subclass, file
        vm.MultihashReader(type("File", (), {"read": lambda *_: b"", "__del__": lambda _: gc.collect()})())
        gc.collect()
        self.assertEqual([each() for each in references], [None] * 3)

    def test_begun_anew(self):
        """A file that is deleted as the reader gets another one gives it a third one."""
        third = io.BytesIO(b"\1\1a")
        reader = vm.MultihashReader(type("File", (io.BytesIO,), {"__del__": lambda _: reader.__init__(third)})())
        reader.__init__(io.BytesIO())
        self.assertEqual(reader.read(), Multihash(1, b"a"))
        # so does the digest that the file returns
        chunk = type("Chunk", (bytearray,), {"__del__": lambda _: reader.__init__(io.BytesIO(b"\2\1b"))})
        reader.__init__(Mock(read=lambda size: b"\1\1" if size == 2 else chunk(size)))
        self.assertEqual((reader.read(), reader.consumed, reader.count), (Multihash(2, b"b"), 3, 1))

    def test_cancelled_calls(self):
        """A call is cancelled at each byte and each step of the loop, before or after more bytes are there."""

        async def run(kind, data, cut, steps, is_before, by_loop):
            stream, items = asyncio.StreamReader(), []
            reader = kind(stream)
            stream.feed_data(data[:cut])
            call = asyncio.ensure_future(reader.__aiter__().__anext__() if by_loop else reader.read())
            for _ in range(steps):
                await asyncio.sleep(0)
            events = call.cancel, functools.partial(stream.feed_data, data[cut:])
            for event in events if is_before else reversed(events):
                event()
            await asyncio.wait([call])
            items += [] if call.cancelled() else [call.result()]
            stream.feed_eof()
            return call.cancelled(), items + [item async for item in reader]

        async def run_all(kind, items, data):
            ended = set()
            for cut, steps, *rest in itertools.product(range(len(data) + 1), range(4), (True, False), (True, False)):
                is_cancelled, results = await run(kind, data, cut, steps, *rest)
                self.assertEqual(results, items)
                ended.add((steps, is_cancelled))
            self.assertLessEqual({(0, True), (1, True), (3, True), (3, False)}, ended)

        asyncio.run(run_all(vm.AsyncMultihashReader, MULTIHASHES, b"".join(ENCODINGS)))
        asyncio.run(run_all(vm.AsyncFrameReader, FRAMES[:2] + [bytes(129)], b"\0\3abc\x81\1" + bytes(129)))
