"""A node's module for Rust, over the crate birnenschloss and without std: its table, typed constants, and functions between words and units."""
from .constants import constants, tick_microseconds
from .steps import literal, raw_ends, steps
from .words import made_from, records

KEYWORDS = set("""abstract as async await become box break const continue crate do dyn else enum extern false final fn for gen if impl in let loop macro match
mod move mut override priv pub ref return self static struct super trait true try type typeof unsafe unsized use virtual where while yield""".split())

HEAD = """\
// {made}
//
// In a library: `{path}pub mod {name};`. In a program, where not all of it is used:
// `#[allow(dead_code)] {path}mod {name};`."""

# A cast to u32 cuts off what is behind the point, so no round of std is needed.
NEAREST = """\
/// The 32 bits of the whole number nearest to raw, the one further from 0 of two as near, not below
/// least and not above greatest; of NaN those of least.
fn nearest(raw: f64, least: f64, greatest: f64) -> u32 {
    let mut held = raw.clamp(least, greatest);
    if held.is_nan() {
        held = least;
    }
    let size = if held < 0.0 { -held } else { held };
    let cut = size as u32;
    let whole = cut + u32::from(size - f64::from(cut) >= 0.5);
    if held < 0.0 {
        return whole.wrapping_neg();
    }
    whole
}"""


def quoted(text):
    """A Rust string; what does not print, quotes and backslashes escaped."""
    return '"' + "".join(c if c.isprintable() and c not in "\"\\" else f"\\u{{{ord(c):x}}}" for c in text) + '"'


TYPES = {"ipdu": "IpduNumber", "object": "ObjectNumber", "length": "usize", "bits": "u32", "identifier": "u32", "flag": "bool", "real": "f64",
         "text": "&str", "unsigned": "u32", "signed": "i32"}
WRITTEN = {"ipdu": "IpduNumber({})".format, "object": "ObjectNumber({})".format, "identifier": "0x{:X}".format, "flag": ["false", "true"].__getitem__,
           "real": literal, "text": quoted}


def constant(words, name, kind, value):
    return f"/// {words}\npub const {name}: {kind} = {value};"


class Module:
    """The parts of a board's module."""

    def __init__(self, board):
        self.board, self.names = board, constants(board)

    def text(self):
        board = self.board
        parts = [self.head(), self.imports(), self.sizes(), self.table()]
        parts += [self.constants(made) for made in self.names.ipdus]
        parts += [self.object(entry, made) for entry, made in zip(board.objects, self.names.objects)]
        parts += [NEAREST] if board.objects else []
        return "\n\n".join(parts) + "\n"

    def head(self):
        lower = self.names.prefix.lower()
        name = f"{lower}_node" if lower in KEYWORDS else lower
        path = "" if name == self.board.node else f"#[path = \"{self.board.node}.rs\"] "
        return HEAD.format(made=made_from(self.board), name=name, path=path)

    def imports(self):
        """Only those that are used: others would warn."""
        used = ["IpduNumber"] * bool(self.board.ipdus) + ["ObjectNumber"] * bool(self.board.objects)
        both = f"use birnenschloss::{{{', '.join(used)}}};\n" if len(used) > 1 else f"use birnenschloss::{used[0]};\n" if used else ""
        return both + "use core::time::Duration;"

    def sizes(self):
        return "\n".join([constant("The length of a tick.", "TICK", "Duration", f"Duration::from_micros({tick_microseconds(self.board.network)})"),
                          constant("How many I-PDUs there are.", "IPDUS", "u32", len(self.board.ipdus)),
                          constant("How many message objects there are.", "OBJECTS", "u32", len(self.board.objects))])

    def table(self):
        lines = ["/// The table.", "#[rustfmt::skip]", f"pub const TABLE: [u8; {len(self.board.table)}] = ["]
        for name, row in records(self.board):
            lines += [f"    // {name}"] * bool(name) + [f"    {row}"]
        return "\n".join(lines + ["];"])

    @staticmethod
    def constants(made):
        return "\n".join(constant(one.words, one.name, TYPES[one.kind], WRITTEN.get(one.kind, str)(one.value)) for one in made)

    def object(self, entry, made):
        return self.constants(made) + "\n\n" + self.functions(made[0].name.lower(), entry)

    @staticmethod
    def functions(name, entry):
        """From a word to the value in units, and back."""
        sums, ends = steps(entry.scaling, entry.record.signed), ", ".join(map(literal, raw_ends(entry.record)))
        raw = "f64::from(word as i32)" if entry.record.signed else "f64::from(word)"
        return (f"/// The value in units of a word of {entry.name}.\npub fn {name}_value(word: u32) -> f64 {{\n    {sums.value(raw)}\n}}\n\n"
                f"/// The word of the step of {entry.name} that is nearest to a value in units.\npub fn {name}_word(value: f64) -> u32 {{\n"
                f"    nearest({sums.raw('value')}, {ends})\n}}")


def rust_module(board):
    """The text of NODE.rs."""
    return Module(board).text()
