"""How a raw value becomes one in units and back, as sums over doubles that read the same in C and in Rust."""
from dataclasses import dataclass
from fractions import Fraction
from math import lcm

from . import bits
from .records import MOST_BITS

EXACT = 2**50  # below this a sum of whole doubles is exact, and a value divided and multiplied again is less than half a step off


def literal(number):
    """A double as C and Rust write it; 0 has no sign."""
    return repr(float(Fraction(number)))


def raw_ends(record):
    """The least and the greatest raw value that an object's bits can hold."""
    return bits.least(record.bits, record.signed), bits.greatest(record.bits, record.signed)


@dataclass
class Steps:
    """A value is (raw * factor + offset) / divisor, all three doubles. Where they are whole and small, it is the double nearest to the exact value."""

    factor: Fraction
    offset: Fraction
    divisor: int = 1

    def value(self, raw):
        """The text of the value in units of a text for the raw value; 0 is never -0."""
        times = raw if abs(self.factor) == 1 else f"{raw} * {literal(abs(self.factor))}"
        if self.factor < 0:
            total = f"{literal(self.offset)} - {times}"
        else:
            total = times if self.offset == 0 else f"{times} {'-' if self.offset < 0 else '+'} {literal(abs(self.offset))}"
        if self.divisor == 1:
            return total
        return f"{total if total == times else f'({total})'} / {literal(self.divisor)}"

    def raw(self, value):
        """The other way; the raw value may lie between two whole ones."""
        times = value if self.divisor == 1 else f"{value} * {literal(self.divisor)}"
        total = times if self.offset == 0 else f"{times} {'+' if self.offset < 0 else '-'} {literal(abs(self.offset))}"
        if self.factor == 1:
            return total
        return f"{total if total == times else f'({total})'} / {literal(self.factor)}"


def steps(scaling, signed):
    factor, offset = Fraction(scaling.factor), Fraction(scaling.offset)
    divisor = lcm(factor.denominator, offset.denominator)
    furthest = max(abs(raw * factor + offset) for raw in (bits.least(MOST_BITS, signed), bits.greatest(MOST_BITS, signed)))
    if divisor < EXACT and abs(factor * divisor) < EXACT and furthest * divisor < EXACT:
        return Steps(factor * divisor, offset * divisor, divisor)
    return Steps(factor, offset)
