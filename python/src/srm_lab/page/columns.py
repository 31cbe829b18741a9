"""Columns of numbers as bytes: each number in base 128, the lowest seven bits first, the last byte below 128."""
from collections.abc import Iterable, Iterator


def packed(numbers: Iterable[int]) -> bytes:
    """The bytes of numbers that are not negative."""
    out = bytearray()
    for number in numbers:
        while number > 127:
            out.append(number & 127 | 128)
            number >>= 7
        out.append(number)
    return bytes(out)


def steps(numbers: Iterable[int]) -> Iterator[int]:
    """From each number to the next, beginning at 0: twice the step, and less 1 downwards, so that none is negative."""
    last = 0
    for number in numbers:
        step = number - last
        yield 2 * step if step >= 0 else -2 * step - 1
        last = number
