"""Shows a multihash, as the program mh_show does.

    python -m verified_multihash [HEX]

reads HEX, or else standard input to its end: an encoding in hexadecimal, with a digest of at most 64 bytes. It prints
the code, the digest's length and the digest. If that fails it prints the reason to standard error, in the words of
this package, with status 1. With -h or --help it prints this.
"""

import contextlib
import os
import re
import sys

from . import decode, read

INPUT_MAX = 65536


def _input() -> bytes:
    with open(0, "rb", closefd=False) as file:
        text = file.read(INPUT_MAX + 1)
    if len(text) > INPUT_MAX:
        raise OSError("the input is too long")
    return text


def _shown(text: bytes) -> bytes:
    """The three lines that show the multihash of a text."""
    if not re.fullmatch(b"([0-9A-Fa-f]{2})*\n?", text):
        raise ValueError("not hexadecimal")
    data = bytes.fromhex(text.decode())
    read(data, limit=64)
    multihash = decode(data)
    digest = multihash.hexdigest() or "-"
    return f"code {multihash.code}\nsize {len(multihash.digest)}\ndigest {digest}\n".encode()


def _fail(reason: str) -> int:
    with contextlib.suppress(OSError):  # there is nowhere else to report it
        os.write(2, f"python -m verified_multihash: {reason}\n".encode())
    return 1


def main() -> int:
    """Reads and prints. Returns the status."""
    if sys.argv[2:]:
        return _fail("more than one argument; usage: python -m verified_multihash [HEX]")
    try:
        if sys.argv[1:] in (["-h"], ["--help"]):
            lines = str(__doc__).encode()
        else:
            lines = _shown(os.fsencode(sys.argv[1]) if sys.argv[1:] else _input())
    except OSError:
        return _fail("input not read")
    except ValueError as error:
        return _fail(str(error))
    try:
        os.write(1, lines)
    except OSError:
        return _fail("output not written")
    return 0


if __name__ == "__main__":
    sys.exit(main())
