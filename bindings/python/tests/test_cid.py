"""Content identifiers: the texts of cids.tsv, beside the list of test_vectors; making them, their values, arguments."""

import copy
import pickle
import unittest

from test_vectors import LIST, bytes_of, rows_of
from verified_multihash import Multihash, MultihashError, hashes
from verified_multihash.cid import CODECS, LENGTH_MAX, TEXT_MAX, CID, CIDError

HELLO = hashes.digest(b"hello world", "sha2-256")
RAW, OLD = CID(1, CODECS["raw"], HELLO), CID(0, 0x70, HELLO)
# Calls with the status and the text of their errors: cids.tsv has the status of more texts.
ERRORS = [
    (CID.parse, [""], "insufficient", "the text is empty"),
    (CID.decode, [b""], "insufficient", "version: the input is empty"),
    (CID.parse, ["mAVUSIA"], "unknown_base", "the text must start with b, f, z or Qm"),
    (CID.parse, ["bafk\u202ereia"], "invalid_digit", "the character at index 4 is not a base32 digit"),
    (CID.parse, ["f" + "0" * TEXT_MAX], "too_long", "the text has more than 553 characters"),
    (CID.parse, ["f01d5"], "insufficient", "codec: the input ends inside the varint"),
    (CID.parse, ["f01550"], "trailing_bits", "the last base16 digit has superfluous bits"),
    (CID.read, [b"\1\x55\x12"], "insufficient", "multihash: the input ends before the digest's length"),
    (CID.parse, ["f01551220aa"], "unexpected_eof", "multihash: the input ends inside the digest (1 of 32 bytes)"),
    (CID.decode, [bytes(RAW) + b"a"], "invalid_size", "multihash: 1 byte follows the multihash"),
    (CID.decode, [bytes(OLD) + bytes(999)], "invalid_size", "multihash: 999 bytes follow the multihash"),
    (CID.parse, ["f0255"], "unknown_version", "the version must be 1, not 2"),
    (CID.parse, ["f" + bytes(OLD).hex()], "wrong_prefix", "a CID of version 0 has the text Qm.., and no other has"),
    (CID, [2, 0x55, HELLO], "unknown_version", "the version must be 0 or 1"),
    (CID, [-1, 0x55, HELLO], "unknown_version", "the version must be 0 or 1"),
    (CID, [1, 2**63, HELLO], "overflow", "codec: the value is 2^63 or more"),
    *(
        (CID, fields, "not_version_0", "version 0 has the codec 0x70 and a multihash of SHA2-256 with 32 bytes")
        for fields in ([0, 0x55, HELLO], [0, 0x70, Multihash(18, bytes(31))], [0, 0x70, Multihash(19, bytes(32))])
    ),
]


def shown(call, argument):
    """The result as the list has it, and the CID or the error."""
    try:
        cid = call(argument)
    except CIDError as error:
        return error.status, error
    numbers = cid.version, cid.codec, cid.multihash.code
    return "cid %d %d %d %s" % (*numbers, cid.multihash.digest.hex() or "-"), cid


def text_of(column):
    return "" if column == "-" else column.encode().decode("unicode_escape").encode("latin-1").decode()


class Cids(unittest.TestCase):
    def test_vectors(self):
        for row in rows_of(LIST.with_name("cids.tsv")):
            with self.subTest(row["text"]):
                text, data = text_of(row["text"]), bytes_of(row["bytes"])
                result, cid = shown(CID.parse, text)
                self.assertEqual(result, row["result"])
                if not data or result == "wrong_prefix":
                    continue
                self.assertEqual(shown(CID.decode, bytearray(data))[0], result)
                if isinstance(cid, CIDError):
                    self.assertEqual(isinstance(cid.__cause__, MultihashError), result != "unknown_version")
                    continue
                self.assertEqual((bytes(cid), cid.text(text[0] if cid.version else "z")), (data, text))
                self.assertEqual(CID.read(memoryview(data + bytes(999))), (cid, len(data)))
                self.assertLessEqual(len(data), LENGTH_MAX)

    def test_errors(self):
        for call, arguments, status, text in ERRORS:
            with self.subTest(text, arguments=arguments):
                with self.assertRaises(CIDError) as raised:
                    call(*arguments)
                self.assertEqual((raised.exception.status, str(raised.exception)), (status, text))

    def test_values(self):
        for cid in (RAW, OLD):
            self.assertEqual((eval(repr(cid)), f"{cid:>60}", f"{cid}"), (cid, str(cid).rjust(60), str(cid)))
            for other in (pickle.loads(pickle.dumps(cid)), copy.copy(cid), CID(cid.version, cid.codec, cid.multihash)):
                self.assertEqual((other, hash(other)), (cid, hash(cid)))
        subclass = type("Own", (CID,), {})
        for cid in (subclass.parse(str(RAW)), subclass.decode(bytes(RAW)), subclass.read(bytes(RAW))[0]):
            self.assertIs(type(cid), subclass)
        self.assertNotEqual(CID(1, 0x70, HELLO), OLD)
        self.assertRaises(AttributeError, setattr, RAW, "codec", 0)

    def test_errors_as_values(self):
        error = shown(CID.parse, "b")[1]
        for again in (pickle.loads(pickle.dumps(error)), copy.copy(error)):
            self.assertEqual((type(again), str(again), again.status), (CIDError, str(error), error.status))

    def test_arguments(self):
        for call, *wrong in (
            *((call, wrong) for call in (CID.decode, CID.read) for wrong in (None, 5, [1], "f01550000")),
            (CID.parse, b"b"), (CID, 1.0, 0x55, HELLO), (CID, 1, "raw", HELLO), (CID, 1, 0x55, bytes(HELLO)),
        ):  # fmt: skip
            self.assertRaises(TypeError, call, *wrong)
        with self.assertRaisesRegex(ValueError, "codec"):
            CID(1, -1, HELLO)
        for cid, base in ((OLD, "b"), (RAW, "m"), (RAW, "base32"), (RAW, "bf")):
            self.assertRaises(ValueError, cid.text, base)

    def test_buffers(self):
        for call in (CID.decode, CID.read):
            part = bytearray(bytes(RAW)[:9])
            status, error = shown(call, part)
            part += bytes(RAW)[9:]  # an error holds no view of the buffer
            self.assertEqual((status, error.status, CID.decode(part)), ("unexpected_eof", "unexpected_eof", RAW))
        self.assertEqual(CID.decode(memoryview(b"\1\0\x55\0\0\0\0\0")[::2]), CID(1, 0x55, Multihash(0, b"")))
