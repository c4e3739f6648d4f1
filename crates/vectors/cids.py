#!/usr/bin/env python3
"""Compares the results of the texts in data/cids.tsv with those that it computes, by the rules of content identifiers and
of verdicts.py. It calls nothing of the packages.

    crates/vectors/cids.py                      checks each line
    crates/vectors/cids.py --write              writes the results of the stored texts; of a new line only the text, with
                                                its escapes, is needed
    crates/vectors/cids.py --draw SEED COUNT    prints that many lines of random identifiers and changed texts
"""
import base64
import binascii
import random
import sys
from collections.abc import Iterator
from pathlib import Path

from verdicts import LONGEST_DIGEST, Rejected, changed, read, read_varint, varint, write_or_compare

STORED = Path(__file__).with_name("data") / "cids.tsv"
COLUMNS = ("text", "result", "bytes")
BASE58 = "123456789ABCDEFGHJKLMNPQRSTUVWXYZabcdefghijkmnopqrstuvwxyz"
ALPHABETS = {"b": "abcdefghijklmnopqrstuvwxyz234567", "f": "0123456789abcdef", "z": BASE58}
LONGEST_TEXT = 1 + 2 * (1 + 9 + 266)
VERSION_0 = b"\x12\x20"
# Characters that are not digits, or are digits of another base.
OTHERS = "019ABFIOQZalz=+/-_ \t\n\r\0\\\x7f\x80\u00e9\u0130\u017f\u0660\u200e\u202e\u2066\ufeff\uff11\uff42\U0001d7ce"


def text_of(data: bytes, base: str) -> str:
    """Returns the text of bytes, without the prefix."""
    if base == "b":
        return base64.b32encode(data).decode().lower().rstrip("=")
    if base == "f":
        return data.hex()
    number, digits = int.from_bytes(data, "big"), ""
    while number:
        number, digit = divmod(number, 58)
        digits = BASE58[digit] + digits
    return "1" * (len(data) - len(data.lstrip(b"\0"))) + digits


def bytes_of(text: str, base: str) -> bytes:
    """Decodes the digits of a text."""
    try:
        if base == "z":
            number = 0
            for digit in text:
                number = 58 * number + BASE58.index(digit)
            zeros = len(text) - len(text.lstrip("1"))
            return bytes(zeros) + number.to_bytes((number.bit_length() + 7) // 8, "big")
        data = bytes.fromhex(text) if base == "f" else base64.b32decode(text.upper() + "=" * (-len(text) % 8))
    except (ValueError, binascii.Error):
        raise Rejected("trailing_bits", 0) from None
    if text_of(data, base) != text:
        raise Rejected("trailing_bits", 0)
    return data


def decoded(data: bytes) -> str:
    """Returns the result for exactly these bytes."""
    try:
        version, codec, start = 0, 0x70, 0
        if data[:2] != VERSION_0:
            version, start = read_varint(data, 0)
            if version != 1:
                return "unknown_version"
            codec, start = read_varint(data, start)
        code, digest, end = read(LONGEST_DIGEST, data[start:])
        return "invalid_size" if start + end < len(data) else f"cid {version} {codec} {code} {digest.hex() or '-'}"
    except Rejected as rejected:
        return str(rejected.args[0].split()[0])


def parsed(text: str) -> tuple[str, str]:
    """Returns the result of a text, and its bytes in hexadecimal, or a dash."""
    is_0 = text.startswith("Qm")
    base, digits = ("z", text) if is_0 else (text[:1], text[1:])
    if not text:
        return "insufficient", "-"
    if base not in ALPHABETS:
        return "unknown_base", "-"
    if {*text[:LONGEST_TEXT][len(text) - len(digits) :]} - {*ALPHABETS[base]}:
        return "invalid_digit", "-"
    if len(text) > LONGEST_TEXT:
        return "too_long", "-"
    try:
        data = bytes_of(digits, base)
    except Rejected as rejected:
        return rejected.args[0], "-"
    return decoded(data) if (data[:2] == VERSION_0) == is_0 else "wrong_prefix", data.hex() or "-"


def escaped(text: str) -> str:
    """Returns a text as a column has it: a dash if it is empty, other bytes of UTF-8 than printable ASCII as \\xHH."""
    shown = (chr(byte) if 32 < byte < 127 and byte != 92 else f"\\x{byte:02x}" for byte in text.encode())
    return "\\x2d" if text == "-" else "".join(shown) or "-"


def unescaped(column: str) -> str:
    return "" if column == "-" else column.encode().decode("unicode_escape").encode("latin-1").decode()


def line_of(text: str) -> str:
    return "\t".join((escaped(text), *parsed(text)))


def made_of(stored: str) -> str:
    """Makes the list of the stored texts."""
    texts = [unescaped(line.split("\t")[0]) for line in stored.splitlines()[1:]]
    if len({*texts}) < len(texts):
        raise SystemExit("a text is there twice")
    return "\n".join(["\t".join(COLUMNS), *map(line_of, texts), ""])


def random_bytes(draw: random.Random) -> bytes:
    """Returns the bytes of an identifier."""
    if draw.random() < 0.2:
        return VERSION_0 + draw.randbytes(32)
    digest = draw.randbytes(draw.choice((0, 1, 20, 32, 32, 64, 127, 128, LONGEST_DIGEST)))
    codec, code = (draw.choice((0, 0x12, 0x55, 0x70, draw.getrandbits(draw.randint(1, 63)))) for _ in range(2))
    return b"\1" + varint(codec) + varint(code) + varint(len(digest)) + digest


def drawn(seed: int, count: int) -> Iterator[str]:
    """Makes identifiers, of which bytes or characters are changed in most."""
    draw = random.Random(seed)
    yield "\t".join(COLUMNS)
    for _ in range(count):
        data = random_bytes(draw)
        if draw.random() < 0.3:
            data = changed(data, random_bytes(draw), draw)
        base = draw.choice("bbzzff")
        text = "" if data[:2] == VERSION_0 and draw.random() < 0.9 else base
        text += text_of(data, base if text else "z")
        for _ in range(draw.choice((0, 0, 1, 1, 2))):
            at = draw.choice((0, 1, len(text) - 1, len(text), draw.randint(0, len(text))))
            end = at + draw.choice((0, 1, 1, 9))
            new = draw.choice(("", draw.choice(OTHERS), draw.choice(OTHERS), text[:at], text[at:end].swapcase(), "1z"))
            text = text[: max(at, 0)] + draw.choice((new, new, new * draw.randint(1, 600))) + text[max(end, 0) :]
        yield line_of(text[: 2 * LONGEST_TEXT])


def main() -> int:
    match sys.argv[1:]:
        case [] | ["--write"] as words:
            return write_or_compare({STORED: made_of}, bool(words))
        case ["--draw", seed, count]:
            sys.stdout.writelines(f"{line}\n" for line in drawn(int(seed), int(count)))
            return 0
    print(__doc__, file=sys.stderr)
    return 2


if __name__ == "__main__":
    sys.exit(main())
