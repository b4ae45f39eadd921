"""Prints Birnenschloss's working memory by name, in gdb:

    source tools/gdb/birnenschloss.py
    birnenschloss memory table
    birnenschloss memory

MEMORY and TABLE are C expressions, arrays or pointers; one with spaces stands in quotes. With a table: its I-PDUs and objects,
each queue from the oldest value on, numbers out of their range pointed out. Without: all rows that are not zero.
"""
import importlib.util
import os
import sys

import gdb


def module(path):
    """The module in a file, with no file of bytecode left beside it."""
    spec = importlib.util.spec_from_file_location("birnenschloss_memory_view", path)
    loaded = importlib.util.module_from_spec(spec)
    before, sys.dont_write_bytecode = sys.dont_write_bytecode, True
    try:
        spec.loader.exec_module(loaded)
    finally:
        sys.dont_write_bytecode = before
    return loaded


def place(expression):
    """Address, and number of bytes where the type tells it."""
    value = gdb.parse_and_eval(expression)
    kind = value.type.strip_typedefs()
    if kind.code in (gdb.TYPE_CODE_REF, gdb.TYPE_CODE_RVALUE_REF):
        value = value.referenced_value()
        kind = value.type.strip_typedefs()
    if kind.code == gdb.TYPE_CODE_ARRAY:
        if value.address is None:
            raise memory_view.Wrong(f"{expression} has no address")
        return int(value.address), kind.sizeof
    if kind.code == gdb.TYPE_CODE_PTR:
        target = kind.target().strip_typedefs()
        return int(value), target.sizeof if target.code == gdb.TYPE_CODE_ARRAY else None
    raise memory_view.Wrong(f"{expression} is neither an array nor a pointer, its type is {value.type}")


def read(address, length):
    return bytes(gdb.selected_inferior().read_memory(address, length))


def read_table(expression):
    """As many bytes as the header says; a longer array is a buffer with the table at its start."""
    address, room = place(expression)
    header = read(address, memory_view.HEADER if room is None else min(room, memory_view.HEADER))
    length = memory_view.table_length(header)
    if room is not None and room < length:
        raise memory_view.Wrong(f"{expression} has {room} bytes, the table's header says {length}")
    return memory_view.Table(read(address, length))


def read_memory(expression, size):
    address, room = place(expression)
    if room is not None and room < size:
        raise memory_view.Wrong(f"{expression} has {room} bytes, working memory {size}")
    return read(address, size)


class Birnenschloss(gdb.Command):
    """birnenschloss MEMORY [TABLE]: prints working memory by name.
MEMORY and TABLE are C expressions, arrays or pointers; one with spaces stands in quotes."""

    def __init__(self):
        super().__init__("birnenschloss", gdb.COMMAND_DATA, gdb.COMPLETE_EXPRESSION)

    def invoke(self, words, from_tty):
        try:
            words = gdb.string_to_argv(words)
            if len(words) not in (1, 2):
                raise memory_view.Wrong("usage: birnenschloss MEMORY [TABLE], an expression with spaces in quotes")
            layout = memory_view.default_layout()
            table = read_table(words[1]) if len(words) == 2 else None
            memory = read_memory(words[0], layout.size)
            print("\n".join(memory_view.View(layout, memory, table).lines()))
        except (gdb.error, memory_view.Wrong) as wrong:
            raise gdb.GdbError(f"birnenschloss: {str(wrong).rstrip('.')}") from None


try:
    memory_view = module(os.path.join(os.path.dirname(os.path.dirname(os.path.realpath(__file__))), "memory_view.py"))
    Birnenschloss()
except OSError as error:
    gdb.write(f"birnenschloss: {error.filename} can't be read: {error.strerror}\n", gdb.STDERR)
