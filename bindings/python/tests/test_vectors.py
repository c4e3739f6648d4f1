"""The test vectors: decoded, read from files, encoded; messages. MULTIHASH_VERDICTS is the path of the list."""

import io
import itertools
import os
import unittest
from array import array
from operator import setitem
from pathlib import Path
from types import SimpleNamespace

import verified_multihash as vm
from verified_multihash import Multihash, MultihashError, Status

HERE = Path(__file__).resolve().parent
# in the repository, or beside this file in an sdist
DATA = next(path for path in (HERE / "../../../crates/vectors/data", HERE) if path.exists())
LIST = Path(os.environ.get("MULTIHASH_VERDICTS", DATA / "verdicts.tsv"))
KINDS = (bytes, bytearray, memoryview)
ERRORS = {b"": None, b"\2\1": (Status.UNEXPECTED_EOF, 2), b"\xff" * 300: (Status.OVERFLOW, 9)}  # of read_many


def rows_of(path):
    """The words of each line by the names of their columns, which the first line has."""
    columns, *lines = (line.split("\t") for line in path.read_text("ascii").splitlines())
    return [dict(zip(columns, line)) for line in lines]


def bytes_of(digits):
    return bytes.fromhex(digits.replace("-", ""))


def failed(error):
    """The error as the lists have it."""
    number = error.size or error.code
    return error.status.name.lower() + (" %d" % number if number else "")


def decoded(call, *arguments):
    """The result as the list has it, and the number of bytes consumed: `-` where more input can change the result."""
    try:
        multihash, consumed = call(*arguments)
    except MultihashError as error:
        return failed(error), "-" if error.is_incomplete else str(error.consumed)
    return "pair %d %s" % (multihash.code, multihash.digest.hex() or "-"), str(consumed)


def encoded(call, *arguments):
    try:
        return call(*arguments).hex()
    except MultihashError as error:
        return failed(error)


def is_for_all(result, limit):
    """Whether the result for that limit is the result for 255 too, which is that of the calls without a limit."""
    word, _, rejected = result.partition(" ")
    return limit >= 255 or word != "invalid_size" or int(rejected) > 255


class Vectors(unittest.TestCase):
    def check_file(self, data, limit, wanted):
        """The file returns one byte at a time, or all that were asked for. No byte is read that the list leaves."""
        for chunk in (1, 500):
            file = io.BytesIO(data)
            reader = vm.MultihashReader(SimpleNamespace(read=lambda size: file.read(min(size, chunk))), limit)
            self.assertEqual(decoded(lambda: (reader.read(), reader.consumed)), wanted)
            self.assertEqual(file.tell(), len(data) if wanted[1] == "-" else int(wanted[1]))
            self.assertEqual(reader.rest, data[reader.consumed : file.tell()])

    def test_verdicts(self):
        """Each input is in one kind of buffer."""
        for row, kind in zip(rows_of(LIST), itertools.cycle(KINDS)):
            limit, data, wanted = int(row["S"]), bytes_of(row["input"]), (row["read"], row["read_consumed"])
            with self.subTest(row=row):
                self.assertEqual(decoded(vm.read, kind(data), limit), wanted)
                if data:
                    self.check_file(data, limit, wanted)
                if is_for_all(row["read"], limit):
                    self.assertEqual(decoded(lambda: (vm.decode(kind(data)), 0))[0], row["from_bytes"])
                if is_for_all(row["scale_decode"], limit):
                    self.assertEqual(decoded(vm.scale_decode, kind(data)), (row["scale_decode"], row["scale_consumed"]))


class Values(unittest.TestCase):
    def test_values(self):
        """Encodings, errors of values, how values compare; a value without a digest is a varint and a zero."""
        for row in rows_of(LIST.with_name("values.tsv")):
            with self.subTest(row=row):
                if row["kind"] == "order":
                    code, digest, other_code, other, order = list(row.values())[1:]
                    left, right = Multihash(int(code), bytes_of(digest)), Multihash(int(other_code), bytes_of(other))
                    self.assertEqual((vm.compare(left, right), left == right), (int(order), order == "0"))
                    continue
                code, digest, encoding = int(row["code"]), bytes_of(row["digest"]), row["encoding"]
                if int(row["limit"]) < len(digest) <= 255:  # the limit here is 255
                    continue
                self.assertEqual(encoded(vm.encode, code, digest), encoding)
                self.assertEqual(encoded(vm.scale_encode, code, digest), row["scale"])
                self.assertEqual(encoded(lambda: bytes(Multihash(code, digest))), encoding)
                if " " not in encoding:
                    self.assertEqual(vm.encoded_length(code, len(digest)), len(encoding) // 2)
                if encoding.endswith("00") and not digest:
                    varint = vm.encode_varint(code)
                    self.assertEqual(varint.hex() + "00", encoding)
                    self.assertEqual(vm.read_varint(varint + b"more"), (code, len(varint)))
                    self.assertEqual(vm.head(varint + b"\2"), vm.Head(code, 2, len(varint) + 1))

    def test_messages(self):
        calls = {"from_bytes": lambda data, _: vm.decode(data), "scale_decode": lambda data, _: vm.scale_decode(data)}
        for row in rows_of(LIST.with_name("messages.tsv")):
            with self.subTest(row=row):
                with self.assertRaises(MultihashError) as raised:
                    calls.get(row["call"], vm.read)(bytes_of(row["input"]), int(row["limit"]))
                error = raised.exception
                self.assertEqual((error.status.name.lower(), str(error)), (row["status"], row["message"]))


class Many(unittest.TestCase):
    def test_lists(self):
        """Lists for which the columns grow, in each kind of buffer, and what follows the last multihash."""
        pairs = [(row % 300, bytes(row % 5 or row % 256)) for row in range(3000)]
        for kind, count, more in itertools.product(KINDS, (0, 128, 3000), ERRORS):
            data = kind(b"".join(itertools.starmap(vm.encode, pairs[:count])) + more)
            codes, offsets, lengths, consumed, error = vm.read_many(data)
            multihashes = [(code, bytes(data[at : at + size])) for code, at, size in zip(codes, offsets, lengths)]
            self.assertEqual((multihashes, consumed), (pairs[:count], len(data) - len(more)))
            self.assertEqual(error and (error.status, error.consumed), ERRORS[more])
        self.assertEqual(vm.read_many(array("H", [0, 0, 0x101])).consumed, 4)

    def test_columns(self):
        data = bytearray(vm.encode(1 << 62, b"abc") + vm.encode(2, b""))
        columns = vm.read_many(data=data)
        for column, numbers in zip(columns, ([1 << 62, 2], [10, 15], [3, 0])):
            self.assertEqual((column.tolist(), column.itemsize, column.readonly), (numbers, 8, True))
            self.assertEqual((column[1], list(column), 7 in column), (numbers[1], numbers, False))
            self.assertEqual(column.format, "q")  # numpy adds them to its own numbers
        data += b"more"  # the columns keep no buffer of it
        self.assertRaises(BufferError, vm.read_many, memoryview(data)[::2])
        self.assertRaises(TypeError, setitem, columns.codes, 0, 1)
