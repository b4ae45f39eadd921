"""Reading one section of a TOML file or database: each key is taken once, with what it has to be; a key that nobody takes is wrong."""
import difflib
from decimal import Decimal

from . import bits
from .network import FILTERS, Filter
from .records import MOST_TICKS, WHOLE
from .wrong import wrong

NO_DEFAULT = object()
MOST_DIGITS = 30  # of a number, before its point or behind it


def is_number(value):
    """Whether it can be reckoned with: it is neither infinite nor none at all, and has no exponent out of all proportion."""
    if not isinstance(value, (int, Decimal)) or isinstance(value, bool):
        return False
    return Decimal(value).is_finite() and abs(Decimal(value).adjusted()) <= MOST_DIGITS


def is_whole(value):
    return isinstance(value, int) and not isinstance(value, bool)


def quoted(values):
    return ", ".join(str(value) for value in values)


def question(name, names):
    """After a name that is not there: which one of these was meant; empty where none is like it."""
    near = difflib.get_close_matches(name, names, 1)
    return f"; did you mean \"{near[0]}\"?" if near else ""


class Section:
    """`origins` names, by key, the file that a value came from where it is not `file`."""

    def __init__(self, file, path, data, origins=None):
        self.file, self.path, self.data, self.origins = file, path, data, origins or {}
        self.taken = set()

    def wrong(self, key, reason):
        return wrong(self.origins.get(key, self.file), self.full(key), reason)

    def full(self, key):
        """A key with the section that it stands in."""
        return f"{self.path}.{key}" if self.path else key

    def has(self, key):
        return key in self.data

    def take(self, key, default, is_right, what):
        self.taken.add(key)
        if key not in self.data:
            if default is NO_DEFAULT:
                raise self.wrong(key, f"is missing; it has to be {what}")
            return default
        value = self.data[key]
        if not is_right(value):
            digits = f" with at most {MOST_DIGITS} digits on either side of its point" if isinstance(value, Decimal) and not is_number(value) else ""
            raise self.wrong(key, f"is {shown(value)}, has to be {what}{digits}")
        return value

    def text(self, key, default=NO_DEFAULT):
        return self.take(key, default, lambda value: isinstance(value, str), "a text in quotes")

    def flag(self, key, default=False):
        return self.take(key, default, lambda value: isinstance(value, bool), "true or false")

    def names(self, key, default=NO_DEFAULT):
        return self.take(key, default, lambda value: isinstance(value, list) and all(isinstance(name, str) for name in value), "a list of names")

    def table(self, key):
        return self.take(key, {}, lambda value: isinstance(value, dict), f"a section [{self.full(key)}.NAME]")

    def inner(self, key):
        """The section in this one; an empty one where there is none."""
        data = self.take(key, {}, lambda value: isinstance(value, dict), f"a section [{self.full(key)}]")
        return Section(self.origins.get(key, self.file), self.full(key), data)

    def number(self, key, default=NO_DEFAULT):
        value = self.take(key, default, is_number, "a number")
        return Decimal(value) if is_whole(value) else value

    def whole(self, key, least, most, default=NO_DEFAULT, what=""):
        value = self.take(key, default, is_whole, "a whole number")
        if value is not default and not least <= value <= most:
            raise self.wrong(key, f"is {value}, has to be {least} to {most}{what}")
        return value

    def one_of(self, key, words, default=NO_DEFAULT):
        """The number of a word."""
        value = self.take(key, default, lambda value: isinstance(value, str), f"one of {quoted(words)}")
        if value is default:
            return default
        for number, word in enumerate(words):
            if value.lower() == word.lower():
                return number
        raise self.wrong(key, f"is \"{value}\", has to be one of {quoted(words)}")

    def known(self, key, name, names, what):
        """A name that has to be there already."""
        if name not in names:
            raise self.wrong(key, f"there is no {what} \"{name}\"{question(name, names)}")
        return name

    def ticks(self, key, tick, default=0, least=0):
        """A time in ms as ticks."""
        value = self.number(key, Decimal(default) * tick if default is not None else NO_DEFAULT)
        count, rest = divmod(value, tick)
        if rest:
            below = f"{count} tick{'s are' if count != 1 else ' is'} {plain(count * tick)} ms, {count + 1} are {plain((count + 1) * tick)} ms"
            raise self.wrong(key, f"{plain(value)} ms is no whole number of ticks of {plain(tick)} ms: {below}")
        if not least <= count <= MOST_TICKS:
            raise self.wrong(key, f"{plain(value)} ms are {count} ticks of {plain(tick)} ms, has to be {least} to {MOST_TICKS} ticks")
        return int(count)

    def finish(self):
        """After all that could be taken."""
        for key in self.data:
            if key not in self.taken:
                known = sorted(self.taken)
                raise self.wrong(key, "is not known here" + (question(key, known) or f"; known are {quoted(known)}"))

    def value(self, key, scaling, size, signed, default=0):
        """A value in its unit, or by its name, that has to fit its bits; or KEY_raw, any 32 bits. Both as 32 bits."""
        raw = self.whole(key + "_raw", -WHOLE // 2, WHOLE - 1, None)
        if raw is not None:
            if key in self.data:
                raise self.wrong(key, f"stands beside {key}_raw: one of them")
            self.taken.add(key)
            return raw % WHOLE
        value = self.take(key, None, lambda value: is_number(value) or isinstance(value, str), "a number, or a name of its values")
        if value is None:
            return default
        raw = self.scaled(key, value, scaling)
        if not bits.least(size, signed) <= raw <= bits.greatest(size, signed):
            ends = (scaling.text(bits.least(size, signed)), scaling.text(bits.greatest(size, signed)))
            raise self.wrong(key, f"{value} is stored as {raw}, and {size} {'signed ' if signed else ''}bits hold {ends[0]} to {ends[1]}")
        return raw % WHOLE

    def scaled(self, key, value, scaling):
        """The whole step of a value."""
        if isinstance(value, str):
            for raw, name in scaling.names.items():
                if name == value:
                    return raw
            raise self.wrong(key, f"\"{value}\" is none of its values {quoted(scaling.names.values()) or '(it has no named ones)'}")
        raw = scaling.raw(value)
        if raw.denominator != 1:
            below = raw.numerator // raw.denominator
            near = sorted((scaling.physical(below), scaling.physical(below + 1)))
            raise self.wrong(key, f"{value} lies between two steps, {plain(near[0])} and {plain(near[1])}")
        return int(raw)

    def filter(self, key, scaling, signed, default=None):
        """By name, alone or in a table with its constants. `min` and `max` are in units, `min_raw` and `max_raw` and the others are not."""
        if key not in self.data:
            self.taken.add(key)
            return default or Filter()
        given = self.take(key, None, lambda value: isinstance(value, (str, dict)), "a filter's name, or a table with algorithm and constants")
        given = {"algorithm": given} if isinstance(given, str) else given
        inner = Section(self.origins.get(key, self.file), self.full(key), given)
        if isinstance(given.get("algorithm"), str):
            given["algorithm"] = given["algorithm"].removeprefix("F_")
        number = inner.one_of("algorithm", [name for name, _ in FILTERS])
        name, constants = FILTERS[number]
        words = {constant: inner.constant(constant, scaling, signed) for constant in constants}
        if name == "OneEveryN" and not words["offset"] < words["period"] <= 255:
            raise inner.wrong("period", f"is {words['period']} with offset {words['offset']}: a period is 1 to 255, and the offset below it")
        if len({"min_raw", "max_raw"} & set(given)) == 1:
            raise inner.wrong("min", "and max have to be both in units, or both raw")
        if "min" in given and scaling.factor < 0:
            words["min"], words["max"] = words["max"], words["min"]
        if name in ("NewIsGreater", "NewIsLessOrEqual", "NewIsLess", "NewIsGreaterOrEqual") and scaling.factor < 0:
            raise inner.wrong("algorithm", f"{name} compares what is stored, and with a factor below 0 that falls where the reading rises")
        inner.finish()
        return Filter(number, *words.values())

    def constant(self, name, scaling, signed):
        least, most = (-WHOLE // 2, WHOLE // 2 - 1) if signed else (0, WHOLE - 1)
        if name in ("min", "max"):
            raw = self.whole(name + "_raw", -WHOLE // 2, WHOLE - 1, None)
            if raw is not None:
                self.taken.add(name)
                return raw % WHOLE
            value = self.take(name, NO_DEFAULT, lambda value: is_number(value) or isinstance(value, str), "a number in the message's unit")
            raw = self.scaled(name, value, scaling)
            if not least <= raw <= most:
                raise self.wrong(name, f"{value} is stored as {raw}, has to be {least} to {most}")
            return raw % WHOLE
        return self.whole(name, -WHOLE // 2, WHOLE - 1) % WHOLE


def plain(number):
    """A number with no exponent and no zeros behind its point."""
    return f"{Decimal(number).normalize():f}"


def shown(value):
    """A value as the file might have it."""
    return f"\"{value}\"" if isinstance(value, str) else str(value).lower() if isinstance(value, bool) else str(value)
