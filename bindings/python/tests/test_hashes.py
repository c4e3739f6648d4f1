"""Names of codes, and multihashes of data: those of hashes.tsv, which other programs computed."""

import hashlib
import io
import unittest
from unittest.mock import Mock, patch

from test_arguments import buffers
from test_vectors import DATA, rows_of
from verified_multihash import Multihash, MultihashError, Status, hashes

ROWS = rows_of(DATA / "hashes.tsv")  # code, name and digest of abc
UNSUPPORTED = hashes.UnsupportedHashError
# functions that some builds of hashlib lack, by the names that they have there
OPTIONAL = {
    "keccak-256": "keccak-256", "md4": "md4", "md5": "md5", "ripemd-160": "ripemd160", "sm3-256": "sm3",
    "sha2-512-224": "sha512_224", "sha2-512-256": "sha512_256",
}  # fmt: skip


def function(**returned):
    """A function of a caller whose methods return these, or raise them."""
    return Mock(return_value=Mock(**{name: Mock(side_effect=[result]) for name, result in returned.items()}))


class Hashes(unittest.TestCase):
    def test_list(self):
        for row in ROWS:
            try:
                multihash = hashes.digest(b"abc", row["name"])
            except UNSUPPORTED:
                self.assertRaises(ValueError, hashlib.new, OPTIONAL[row["name"]])
                continue
            self.assertEqual((multihash.code, multihash.hexdigest()), (int(row["code"], 16), row["digest of abc"]))
            self.assertIs(hashes.verify(bytes(multihash), b"abc"), True)
            self.assertIs(hashes.verify(multihash, b"abcd"), False)

    def test_names(self):
        """Those of no row have no function here."""
        self.assertEqual(hashes.NAMES, {code: name for name, code in hashes.CODES.items()})
        for code in (1, 0xB200, 0xB241 + 32):
            self.assertRaisesRegex(UNSUPPORTED, "code %#x" % code, hashes.verify, Multihash(code, b""), b"")
        for name in {*hashes.CODES} - {row["name"] for row in ROWS}:
            if not name.startswith("blake2"):
                for key in (name, hashes.CODES[name]):
                    self.assertRaisesRegex(UNSUPPORTED, name, hashes.digest, b"abc", key)

    def test_buffers(self):
        for buffer in buffers():
            multihash = hashes.digest(memoryview(buffer).tobytes(), "sha1")
            self.assertEqual((hashes.digest(buffer, "sha1"), hashes.verify(multihash, buffer)), (multihash, True))
            self.assertEqual(hashes.digest_file(Mock(read=Mock(side_effect=[buffer, b""])), "sha1"), multihash)

    def test_own_functions(self):
        """Functions of a caller, for codes that hashlib has not, that have no name, and in place of its own."""
        functions = {key: hashlib.sha1 for key in (0x1E, 0x300000, "sha2-256", "dbl-sha2-256", 0x18)}
        for code in (hashes.CODES.get(key, key) for key in functions):
            multihash = hashes.digest(b"abc", code, functions)
            self.assertEqual(multihash, Multihash(code, hashlib.sha1(b"abc").digest()))
            self.assertEqual(hashes.digest_file(io.BytesIO(b"abc"), code, functions=functions), multihash)
            self.assertIs(hashes.verify(multihash, b"abc", functions), True)
            self.assertIs(hashes.verify(bytes(multihash), b"abd", functions=functions), False)
            self.assertIs(hashes.verify_file(multihash, io.BytesIO(b"abc"), functions), True)
        self.assertEqual(hashes.Hasher("blake3", functions).multihash().digest, hashlib.sha1().digest())
        self.assertEqual(hashes.digest(b"abc", "sha1", functions), hashes.digest(b"abc", 0x11))
        for functions in (None, {}, {0x11: hashlib.sha256}):
            self.assertRaises(UNSUPPORTED, hashes.digest, b"abc", 0x300000, functions)
            self.assertRaises(UNSUPPORTED, hashes.verify, Multihash(0x300000, b""), b"abc", functions)
        self.assertFalse(issubclass(UNSUPPORTED, MultihashError))

    def test_odd_functions(self):
        """A function of a caller that fails, is false, or does not return a digest of a multihash."""
        for fails in ({"update": MultihashError(Status.OVERFLOW)}, {"digest": MultihashError(Status.OVERFLOW)}):
            self.assertRaises(MultihashError, hashes.digest, b"abc", 0x11, {0x11: function(**fails)})
            self.assertRaises(MultihashError, hashes.verify, Multihash(0x11, b""), b"abc", {0x11: function(**fails)})
        false = type("Function", (), {"__call__": lambda _: hashlib.md5(), "__bool__": lambda _: False})()
        self.assertEqual(hashes.digest(b"abc", 0x11, {0x11: false}).digest, hashlib.md5(b"abc").digest())
        self.assertRaises(MultihashError, hashes.digest, b"abc", 0x1E, {0x1E: function(digest=bytes(256))})
        for claimed in (bytes(255), b""):
            long = {0x1E: function(digest=bytes(256))}
            self.assertIs(hashes.verify(Multihash(0x1E, claimed), b"abc", long), False)
        for wrong in ("abc", None):
            functions = {0x11: function(digest=wrong)}
            self.assertRaises(TypeError, hashes.verify, Multihash(0x11, b"abc"), b"abc", functions)

    def test_parts(self):
        """Data in parts, or read from a file in parts, have the multihash of the whole."""
        data = bytes(range(256)) * 4000
        for name in ("identity", "sha1", "dbl-sha2-256", "shake-128", "blake2s-8"):
            whole = data[:255] if name == "identity" else data
            hasher, right, size = hashes.Hasher(name), hashes.digest(whole, name), len(whole) // 9
            for at in range(0, len(whole), size):
                part = bytearray(whole[at : at + size])
                hasher.update(part)
                part[:] = bytes(len(part))  # was copied
                hasher.multihash()  # of what is there, and more follows
            self.assertEqual([hasher.multihash(), hasher.multihash()], [right] * 2)
            file = Mock(wraps=io.BytesIO(b"front" + whole))
            file.seek(5)  # it is read from there
            self.assertEqual(hashes.digest_file(file, name), right)
            self.assertLessEqual(max(call[0][0] for call in file.read.call_args_list), 1 << 18)
            for claimed in (right, bytes(right), type("Own", (Multihash,), {})(right.code, right.digest)):
                self.assertIs(hashes.verify_file(claimed, io.BytesIO(whole)), True)
                self.assertIs(hashes.verify_file(claimed, io.BytesIO(whole[:-1])), False)

    def test_files(self):
        """Files that fail, and one whose part is false, as an array of one zero is in numpy: it does not end there."""
        wrong = [(TypeError, it) for it in (3, 0, "", [])]
        for error, turn in ((BlockingIOError, None), (RuntimeError, StopIteration), (OSError, OSError), *wrong):
            file = Mock(read=Mock(side_effect=[b"ab", turn]))
            self.assertRaises(error, hashes.verify_file, hashes.digest(b"ab", "sha1"), file)
        part = type("Part", (bytearray,), {"__bool__": lambda _: False})(b"a")
        file = Mock(read=Mock(side_effect=[part, b"bc", b""]))
        self.assertEqual(hashes.digest_file(file, "sha1"), hashes.digest(b"abc", "sha1"))

    def test_identity(self):
        """It has at most 255 bytes: more are not content of a multihash."""
        for more in (bytes(300), memoryview(bytes(256)).cast("I")):
            self.assertIs(hashes.verify(Multihash(0, b"abc"), more), False)
            self.assertIs(hashes.verify_file(Multihash(0, b"abc"), io.BytesIO(more)), False)
            self.assertRaises(MultihashError, hashes.Hasher("identity").update, more)
        hasher = hashes.Hasher("identity")
        hasher.update(bytes(255))
        self.assertRaises(MultihashError, hasher.update, b"a")

    def test_verify(self):
        """A digest that is truncated, longer or different is not that of the data. The time does not depend on its bytes."""
        right = hashes.digest(b"abc", "sha2-256").digest
        wrong = (right[:-1], right[:20], b"", right + b"\0", right[:-1] + bytes([right[-1] ^ 1]))
        self.assertFalse(any(hashes.verify(Multihash(0x12, other), b"abc") for other in wrong))
        self.assertFalse(hashes.verify(Multihash(0x11, right), b"abc"))
        self.assertRaises(MultihashError, hashes.verify, b"\x12", b"abc")
        with patch("hmac.compare_digest", return_value="its result") as compared:
            self.assertEqual(hashes.verify(Multihash(0, b"abc"), b"abd"), "its result")
        compared.assert_called_once_with(b"abc", b"abd")
