#!/usr/bin/env python3
"""Counts the inputs that other decoders accept although they are the canonical encoding of no multihash.

    bindings/others/compare.py [SEED]

Draws 10,000 inputs: encodings with usual and large codes, digests of 0 to 320 bytes, and varints of which some are padded
with zeros; of some the end is cut off, a byte is appended, or a bit is flipped. `crates/vectors/verdicts.py` says which
are canonical. The decoders are what one writes by hand in Python and, over `encoding/binary`, in Go, and Debian's crates
`multihash` 0.11.4 and `cid` 0.5.1, both of 2020. A CID has the bytes `01 55` first. A decoder whose tools are missing is
left out.
"""
import random
import shutil
import subprocess
import sys
import tempfile
from collections import Counter
from collections.abc import Callable
from pathlib import Path

HOME = Path(__file__).resolve().parent
sys.path.append(str(HOME.parents[1] / "crates/vectors"))
from verdicts import Rejected, read, varint

COUNT, SEED = 10_000, 7
CODES = 0, 0x11, 0x12, 0x13, 0x14, 0x1B, 0x80, 0xB220, 0xB240, 0x300000, 1 << 62, (1 << 63) - 1, 1 << 63, (1 << 64) - 1


def padded(data: bytes, draw: random.Random) -> bytes:
    """Returns a varint, which is sometimes one byte longer than the shortest."""
    return data[:-1] + bytes([data[-1] | 128, 0]) if draw.randrange(6) == 0 else data


def drawn(draw: random.Random) -> bytes:
    size = draw.choice((draw.randrange(40), 20, 32, 32, 64, 200 + draw.randrange(120)))
    data = padded(varint(draw.choice(CODES)), draw) + padded(varint(size), draw) + draw.randbytes(size)
    match draw.randrange(8):
        case 0:
            return data[: draw.randrange(len(data) + 1)]
        case 1:
            return data + draw.randbytes(1)
        case 2:
            at = draw.randrange(len(data))
            return data[:at] + bytes([data[at] ^ 1 << draw.randrange(8)]) + data[at + 1 :]
    return data


def reason_of(data: bytes) -> str:
    """Returns why the input is not a canonical encoding, or an empty string."""
    try:
        *_, end = read(255, data)
        return "trailing bytes" if end < len(data) else ""
    except Rejected as rejected:
        name = str(rejected.args[0]).partition(" ")[0]
        return {"not_minimal": "padded", "overflow": "2^63 or more", "invalid_size": "above 255 bytes"}.get(name, name)


def accepts_by_hand(data: bytes) -> bool:
    """What one writes without a library."""

    def number_at(at: int) -> tuple[int, int]:
        value = shift = 0
        while True:
            value |= (data[at] & 127) << shift
            shift += 7
            at += 1
            if data[at - 1] < 128:
                return value, at

    try:
        _, at = number_at(0)
        size, at = number_at(at)
    except IndexError:
        return False
    return len(data) - at == size


def program(*words: str | Path) -> Callable[[list[bytes]], list[bool]]:
    """Returns what runs a program, which reads inputs in hexadecimal, and prints 1 for each that it accepts, else 0."""

    def run(inputs: list[bytes]) -> list[bool]:
        lines = "".join(data.hex() + "\n" for data in inputs)
        ran = subprocess.run(words, input=lines, stdout=subprocess.PIPE, text=True, check=True)
        return [line == "1" for line in ran.stdout.split()]

    return run


def main() -> None:
    draw = random.Random(int(sys.argv[1]) if len(sys.argv) > 1 else SEED)
    inputs = [drawn(draw) for _ in range(COUNT)]
    reasons = [reason_of(data) for data in inputs]
    decoders: dict[str, Callable[[list[bytes]], list[bool]]] = {
        "Python, by hand": lambda inputs: [accepts_by_hand(data) for data in inputs]
    }
    with tempfile.TemporaryDirectory() as work:
        if shutil.which("go"):
            decoders["Go, by hand"] = program("go", "run", HOME / "by_hand.go")
        if shutil.which("cargo") and [*Path("/usr/share/cargo/registry").glob("cid-0.5*")]:
            rust = HOME.parent / "rust"
            folders = "--manifest-path", rust / "tests/neighbours/Cargo.toml", "--target-dir", work
            for name in "multihash", "cid":
                run = "cargo", "--config", rust / "offline.toml", "run", "--quiet", *folders, "--", name
                decoders[f"Debian's `{name}`"] = program(*run)
        for name, accepts in decoders.items():
            wrong = Counter(reason for reason, is_accepted in zip(reasons, accepts(inputs)) if reason and is_accepted)
            parts = ", ".join(f"{count} {reason}" for reason, count in wrong.most_common())
            print(f"{name}: {wrong.total()} of {COUNT}: {parts}")


if __name__ == "__main__":
    main()
