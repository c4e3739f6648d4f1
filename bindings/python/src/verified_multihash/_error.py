"""The error of the package."""

from __future__ import annotations

from . import _core
from ._status import INCOMPLETE, TEXTS, Status


class MultihashError(ValueError):
    """The error of invalid input, or of a code or digest that is too large. Its message says what is wrong.

    `status` is the kind of the error, a Status.
    `size` is the invalid size: the length of the digest or frame, or the number of trailing bytes; otherwise 0.
    `code` is the invalid code, otherwise 0.
    `consumed` is the number of bytes that were consumed.
    """

    __module__ = "verified_multihash"  # where pickled values find it

    def __init__(self, status: int, size: int = 0, code: int = 0, consumed: int = 0, text: str = "") -> None:
        self.status = Status(status)
        self.size = size
        self.code = code
        self.consumed = consumed
        super().__init__(text or TEXTS[self.status])

    def __reduce__(self) -> tuple[object, ...]:
        return type(self), (self.status, self.size, self.code, self.consumed, str(self)), self.__dict__

    @property
    def is_incomplete(self) -> bool:
        """Whether the input is truncated. If it is not, more input cannot change the result, except for `decode` and
        `fromhex`, which reject trailing bytes."""
        return self.status in INCOMPLETE


_core.set_error(MultihashError)
