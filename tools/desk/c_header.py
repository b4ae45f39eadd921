"""A node's header for C99 and C++: its table, a constant for each I-PDU, message object and named value, and functions between words and units."""
import re
import textwrap

from .constants import constants, tick_microseconds
from .steps import literal, raw_ends, steps
from .words import made_from, records

WIDTH = 100
LEAST_WORD = -2**31

HELPERS = """\
#ifdef __cplusplus
#define {upper}_CAST(type, value) static_cast<type>(value)
#else
#define {upper}_CAST(type, value) ((type)(value))
#endif

/* What the 32 bits of a signed object mean. */
static inline double {lower}_signed(uint32_t word)
{{
    return word > 2147483647u ? word - 4294967296.0 : word;
}}

/* The 32 bits of the whole number nearest to raw, the one further from 0 of two as near, not below
 * least and not above greatest; of NaN those of least. */
static inline uint32_t {lower}_nearest(double raw, double least, double greatest)
{{
    double held = !(raw > least) ? least : raw > greatest ? greatest : raw;
    double size = held < 0.0 ? -held : held;
    uint32_t whole = {upper}_CAST(uint32_t, size);
    if (size - whole >= 0.5)
        whole++;
    return held < 0.0 ? 0u - whole : whole;
}}

/* Of each message object: its number, what its values mean, LEAST, GREATEST and INITIAL as raw
 * values; _value gives the value in units of a word that was received, _word the word to send for
 * the step nearest to a value in units, held to what the object's bits can hold. */
"""


def comment(text):
    """Lines of a comment that nothing in the text can end or begin again."""
    safe = re.sub(r"\?(?=\?)", "? ", text.replace("*/", "* /").replace("/*", "/ *"))
    return "/* " + "\n * ".join(textwrap.wrap(safe, WIDTH - 6, break_long_words=False, break_on_hyphens=False)) + " */"


def quoted(text):
    """A C string: what is not plain ASCII as the octal digits of its UTF-8 bytes."""
    plain = [chr(byte) if 32 <= byte < 127 and chr(byte) not in "\"\\?" else f"\\{byte:03o}" for byte in text.encode()]
    return '"' + "".join(plain) + '"'


def unsigned(number):
    return f"{number}u"


def signed(number):
    """As an int32_t."""
    return "(-2147483647 - 1)" if number == LEAST_WORD else f"({number})" if number < 0 else str(number)


def real(number):
    return f"({literal(number)})" if number < 0 else literal(number)


WRITTEN = {"ipdu": unsigned, "object": unsigned, "length": unsigned, "bits": unsigned, "identifier": "0x{:X}u".format, "flag": "{:d}".format,
           "real": real, "text": quoted, "unsigned": unsigned, "signed": signed}


class Header:
    """The parts of a board's header."""

    def __init__(self, board):
        self.board, self.names = board, constants(board)
        self.upper, self.lower = self.names.prefix, self.names.prefix.lower()

    def define(self, name, text):
        return f"#define {self.upper}_{name} {text}"

    def text(self):
        board = self.board
        parts = [comment(made_from(board)) + f"\n#ifndef {self.upper}_H\n#define {self.upper}_H\n\n#include <stdint.h>", self.sizes(), self.table()]
        parts += [self.constants(made) for made in self.names.ipdus]
        parts.append(HELPERS.format(upper=self.upper, lower=self.lower).rstrip())
        parts += [self.object(entry, made) for entry, made in zip(board.objects, self.names.objects)]
        parts.append(f"#undef {self.upper}_CAST\n\n#endif")
        return "\n\n".join(parts) + "\n"

    def sizes(self):
        board = self.board
        return "\n".join(["/* The length of a tick in microseconds; how many I-PDUs and message objects there are. */",
                          self.define("TICK_US", unsigned(tick_microseconds(board.network))),
                          self.define("IPDUS", unsigned(len(board.ipdus))), self.define("OBJECTS", unsigned(len(board.objects)))])

    def table(self):
        lines = ["/* The table. */", f"static const uint8_t {self.lower}_table[{len(self.board.table)}] = {{"]
        for name, row in records(self.board):
            lines += [f"    /* {name} */"] * bool(name) + [f"    {row}"]
        return "\n".join(lines + ["};"])

    def constants(self, made):
        """A comment for the first, which has the words for all."""
        return "\n".join([comment(made[0].words), *(self.define(one.name, WRITTEN[one.kind](one.value)) for one in made)])

    def object(self, entry, made):
        return self.constants(made) + "\n\n" + self.functions(made[0].name.lower(), entry)

    def functions(self, name, entry):
        """From a word to the value in units, and back."""
        sums, ends = steps(entry.scaling, entry.record.signed), ", ".join(map(literal, raw_ends(entry.record)))
        raw = f"{self.lower}_signed(word)" if entry.record.signed else "word"
        nearest = f"{self.lower}_nearest({sums.raw('value')}, {ends})"
        return (f"static inline double {self.lower}_{name}_value(uint32_t word)\n{{\n    return {sums.value(raw)};\n}}\n\n"
                f"static inline uint32_t {self.lower}_{name}_word(double value)\n{{\n    return {nearest};\n}}")


def c_header(board):
    """The text of NODE.h."""
    return Header(board).text()
