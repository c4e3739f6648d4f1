"""Lines that mypy --strict accepts, and lines that it rejects: an unused `# type: ignore` is an error of its own. The types
themselves are in the package; here are those that a caller could get wrong, or that depend on arguments."""
import asyncio
import functools
import hashlib
import io
from array import array
from typing import assert_type

import verified_multihash as vm
from verified_multihash import Multihash, Status, hashes
from verified_multihash.cid import CID

DATA = b"\x12\0"
ARRAY = array("B", DATA)  # a buffer that mypy does not take for bytes
multihash = vm.decode(DATA)
cid = CID(1, 0x55, multihash)
assert_type(
    (vm.decode(ARRAY), vm.read(ARRAY, limit=64), vm.encode(18, ARRAY)), tuple[Multihash, tuple[Multihash, int], bytes]
)
assert_type((vm.head(data=ARRAY), vm.read_many(ARRAY).error), tuple[vm.Head, vm.MultihashError | None])
assert_type((CID.decode(ARRAY), CID.read(ARRAY)), tuple[CID, tuple[CID, int]])
vm.decode("1200")  # type: ignore[arg-type]
vm.read(DATA, None)  # type: ignore[arg-type]
vm.encode("sha2-256", DATA)  # type: ignore[arg-type]
vm.compare(DATA, multihash)  # type: ignore[arg-type]
vm.more  # type: ignore[attr-defined]
cid.codec = 0  # type: ignore[misc]


class Sha256(Multihash):
    pass


assert_type((Sha256(18, digest=DATA).__replace__(code=1), Sha256.fromhex("1200")), tuple[Sha256, Sha256])
assert_type((multihash < multihash, bytes(multihash)), tuple[bool, bytes])
multihash.digest = DATA  # type: ignore[misc]
multihash.__replace__(size=2)  # type: ignore[call-arg]
multihash < DATA  # type: ignore[operator]

match multihash:
    case Multihash(0x12, digest):
        assert_type(digest, bytes)

error: ValueError = vm.MultihashError(status=4, size=256, code=0, consumed=2, text="")
if isinstance(error, vm.MultihashError):
    assert_type((error.status, error.is_incomplete, error.size), tuple[Status, bool, int])


class Raw:
    """As a file that does not block, which has no bytes yet."""

    def read(self, size: int = -1) -> bytes | None:
        return None


reader = vm.MultihashReader(file=io.BytesIO(DATA), limit=64)
assert_type((next(reader), list(reader), reader.read()), tuple[Multihash, list[Multihash], Multihash | None])
assert_type((vm.read_from(Raw()), vm.FrameReader(Raw()).read()), tuple[Multihash | None, bytes | None])
vm.MultihashReader("name")  # type: ignore[arg-type]
vm.read_from(io.StringIO("a text"))  # type: ignore[arg-type]


async def read(stream: asyncio.StreamReader) -> None:
    async for each in vm.AsyncMultihashReader(stream=stream, limit=64):
        assert_type(each, Multihash)
    async for part in vm.AsyncFrameReader(stream=stream, limit=64):
        assert_type(part, bytes)
    vm.AsyncMultihashReader(io.BytesIO(DATA))  # type: ignore[arg-type]


assert_type(hashes.digest(ARRAY, 0x1E, functions={0x1E: hashlib.sha256}), Multihash)
assert_type(hashes.verify(ARRAY, ARRAY, functions={0x1E: functools.partial(hashlib.blake2b, digest_size=8)}), bool)
hashes.verify(ARRAY, ARRAY, functions={"blake3": hashlib.sha256})
hashes.verify(ARRAY, ARRAY, functions={b"blake3": hashlib.sha256})  # type: ignore[arg-type]
hashes.verify(ARRAY, ARRAY, functions={0x1E: bytes})  # type: ignore[arg-type]
hashes.CODES["sha2-256"] = 3  # type: ignore[index]
