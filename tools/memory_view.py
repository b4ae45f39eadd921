"""Working memory by name: from its bytes, and those of a table, to lines of text. docs/memory.json says where each number stands.

Python 3.9, standard library. Every error is a Wrong with one plain line.
"""
import json
import os

HEADER = 16
IPDU_RECORD, OBJECT_RECORD = 16, 32
MOST_IPDUS, MOST_OBJECTS = 32, 128
DIRECTIONS = {1: "send", 2: "receive"}
MODES = {0: "direct", 1: "periodic", 2: "mixed"}
MOST_DEPTH, MOST_DEPTHS = 16, 512
ONE_EVERY_N = 14  # the filter that counts
NONE = 255
FIRST_SIGNED = 2  # of the byte orders
VALUES = ("value", "old_value")  # the numbers of an object's row that are values of it
PLACES_IN_LINE = 8


class Wrong(Exception):
    """What is wrong, in one line."""


def number(data, at, size):
    return int.from_bytes(data[at:at + size], "little")


class Layout:
    """docs/memory.json."""

    def __init__(self, path):
        try:
            with open(path, encoding="utf-8") as file:
                self.data = json.load(file)
            self.groups = {group["name"]: group for group in self.data["groups"]}
            self.size, self.marks = self.data["size"], self.data["marks"]
            for group in self.data["groups"]:
                fields = [[n["name"], n["offset"] + n["size"]] for n in group["numbers"]]
                if group["base"] + group["stride"] * group["count"] > self.size or any(end > group["stride"] for _, end in fields):
                    raise ValueError(f"group {group['name']} has no room")
            missing = {"memory", "ipdu", "bytes", "object", "queue_places"} - set(self.groups)
        except OSError as error:
            raise Wrong(f"{path} can't be read: {error.strerror}") from None
        except (ValueError, KeyError, TypeError) as error:
            raise Wrong(f"{path} is not the list of stored numbers: {type(error).__name__} {error}") from None
        if missing:
            raise Wrong(f"{path} has no group {' and no group '.join(sorted(missing))}")

    def row(self, memory, group, index):
        """The numbers of a row by name."""
        group = self.groups[group]
        start = group["base"] + group["stride"] * index
        return {n["name"]: number(memory, start + n["offset"], n["size"]) for n in group["numbers"]}

    def slice(self, memory, group, index):
        group = self.groups[group]
        start = group["base"] + group["stride"] * index
        return memory[start:start + group["stride"]]

    def unnamed(self, group):
        """The bytes of a row that no number has."""
        named = {n["offset"] + i for n in self.groups[group]["numbers"] for i in range(n["size"])}
        return [at for at in range(self.groups[group]["stride"]) if at not in named]

    def mark_names(self, marks):
        return [name for name, bit in self.marks.items() if marks & bit]


def table_length(header):
    """The length that a table's header says."""
    if len(header) < HEADER:
        raise Wrong(f"the table has {len(header)} bytes, its header alone has {HEADER}")
    ipdus, objects, ipdus_at, objects_at, length = (number(header, at, 2) for at in (0, 2, 4, 6, 8))
    if ipdus > MOST_IPDUS or objects > MOST_OBJECTS:
        raise Wrong(f"the table's header is wrong: {ipdus} I-PDUs and {objects} objects")
    want_objects = HEADER + IPDU_RECORD * ipdus
    want = want_objects + OBJECT_RECORD * objects
    if (ipdus_at, objects_at, length) != (HEADER, want_objects, want):
        raise Wrong(f"the table's header is wrong: it says {ipdus_at}, {objects_at}, {length}, not {HEADER}, {want_objects}, {want}")
    if any(header[10:HEADER]):
        raise Wrong("the table's header is wrong: bytes 10-15 are not 0")
    return length


def one_of(names, value, what):
    if value not in names:
        raise Wrong(f"the table is wrong: {what} is {value}")
    return names[value]


class Table:
    """The records of a table that the view needs. Records are not checked as birnenschloss_check does."""

    def __init__(self, data):
        length = table_length(data[:HEADER])
        if len(data) != length:
            raise Wrong(f"the table has {len(data)} bytes, its header says {length}")
        ipdus, objects = number(data, 0, 2), number(data, 2, 2)
        self.ipdus = [self.ipdu(data, HEADER + IPDU_RECORD * k, k) for k in range(ipdus)]
        self.objects, first = [], 0
        for i in range(objects):
            self.objects.append(self.object(data, HEADER + IPDU_RECORD * ipdus + OBJECT_RECORD * i, i, first))
            first += self.objects[-1]["depth"]
        if first > MOST_DEPTHS:
            raise Wrong(f"the table is wrong: all depths together are {first}")

    @staticmethod
    def ipdu(data, at, k):
        period, offset, delay, deadline, first = (number(data, at + n, 2) for n in (4, 6, 8, 10, 12))
        direction = one_of(DIRECTIONS, data[at], f"the direction of I-PDU {k}")
        length = one_of({n: n for n in range(1, 9)}, data[at + 1], f"the length of I-PDU {k}")
        mode = one_of(MODES, data[at + 2], f"the mode of I-PDU {k}")
        longest = max(period, offset)
        if direction == "send":
            most = {"request_open": 1, "request_wanted": 1, "period_runs": min(1, longest), "delay": delay,
                    "deadline": deadline, "countdown": longest}
            words = f"send, length {length}, {mode}"
        else:
            most = {"receive_timer": max(first, deadline)}
            words = f"receive, length {length}"
        return {"words": words, "length": length, "most": most}

    @staticmethod
    def object(data, at, i, first):
        kind = one_of(DIRECTIONS, data[at], f"the kind of object {i}")
        ipdu, sender = data[at + 1], data[at + 2]
        depth = one_of({n: n for n in range(MOST_DEPTH + 1)}, data[at + 7], f"the depth of object {i}")
        greatest_count = max(number(data, at + 16, 4) - 1, 0) if data[at + 8] == ONE_EVERY_N else 0
        of = f"I-PDU {ipdu}" if ipdu != NONE else f"from object {sender}" if sender != NONE else "no I-PDU"
        signed = data[at + 5] >= FIRST_SIGNED
        words = f"{kind}, {of}" + (f", depth {depth}" if depth else ", unqueued" if kind == "receive" else "") + (", signed" if signed else "")
        return {"words": words, "depth": depth, "first": first, "greatest_count": greatest_count, "signed": signed}


def shown(name, value, least, most):
    if least <= value <= most:
        return f"{name} {value}"
    allowed = str(least) if least == most else f"{least}..{most}"
    return f"{name} {value} OUT OF RANGE ({allowed})"


def meant(signed, value):
    """What 32 bits mean, of an object that is signed or not."""
    return value - 2**32 if signed and value >= 2**31 else value


class View:
    """The bytes of a working memory. With a table a number that can only be 0 is left out where it is 0."""

    def __init__(self, layout, memory, table=None):
        if len(memory) < layout.size:
            raise Wrong(f"the memory has {len(memory)} bytes, {layout.size} are used")
        self.layout, self.memory, self.table = layout, memory[:layout.size], table

    def ranges(self, group, index):
        """Name, value, least and most of each number of a row, as docs/MEMORY.md lists them."""
        entries = []
        for name, value in self.layout.row(self.memory, group, index).items():
            entries.append((name, value, *self.limits(group, index, name)))
        return entries

    def limits(self, group, index, name):
        if group == "memory":
            return 0, 1
        if group == "ipdu":
            return 0, self.table.ipdus[index]["most"].get(name, 0)
        record = self.table.objects[index]
        depth, first = record["depth"], record["first"]
        most = {"occurrence": record["greatest_count"], "marks": 15, "value_lost": 1, "oldest_place": max(depth - 1, 0), "count": depth}
        if name == "queue_begins":
            return first, first
        size = next(n["size"] for n in self.layout.groups[group]["numbers"] if n["name"] == name)
        return 0, most.get(name, 256 ** size - 1)

    def out_of_range(self):
        """The numbers out of range, as (group, index, name); refusal 6 is given where there is one."""
        rows = [("memory", 0)]
        rows += [("ipdu", k) for k in range(len(self.table.ipdus))]
        rows += [("object", i) for i in range(len(self.table.objects))]
        return [(group, index, name) for group, index in rows
                for name, value, least, most in self.ranges(group, index) if not least <= value <= most]

    def stray(self, group, index):
        """Bytes that the list does not name and that are not 0."""
        row = self.layout.slice(self.memory, group, index)
        return "".join(f", byte {at} has no name and is {row[at]}" for at in self.layout.unnamed(group) if row[at])

    def queue(self, i):
        """The values of a queue, the oldest first."""
        row, depth = self.layout.row(self.memory, "object", i), self.table.objects[i]["depth"]
        places = [row["queue_begins"] + (row["oldest_place"] + n) % depth for n in range(row["count"])]
        values = [self.layout.row(self.memory, "queue_places", place)["queued_value"] for place in places]
        return [meant(self.table.objects[i]["signed"], value) for value in values]

    def frame(self, k, length):
        return " ".join(f"{byte:02X}" for byte in self.layout.slice(self.memory, "bytes", k)[:length])

    def marks(self, value):
        return "marks " + (" + ".join(self.layout.mark_names(value)) or "none")

    def head(self):
        """The line of the whole memory."""
        runs = self.layout.row(self.memory, "memory", 0)["layer_runs"]
        line = "layer " + {0: "stopped", 1: "runs"}.get(runs, "?") + ": "
        return line + shown("layer_runs", runs, 0, 1) + self.stray("memory", 0)

    def ipdu_line(self, k):
        record = self.table.ipdus[k]
        parts = [shown(name, value, least, most) for name, value, least, most in self.ranges("ipdu", k) if value or most]
        parts.append("bytes " + self.frame(k, record["length"]))
        return f"I-PDU {k}, {record['words']}: " + ", ".join(parts) + self.stray("ipdu", k)

    def object_line(self, i):
        record, parts, bad = self.table.objects[i], [], False
        for name, value, least, most in self.ranges("object", i):
            wrong = not least <= value <= most
            bad |= wrong
            if name in VALUES:
                parts.append(f"{name} {meant(record['signed'], value)}")
            elif value or most:
                parts.append(self.marks(value) if name == "marks" and not wrong else shown(name, value, least, most))
        if record["depth"]:
            values = " ".join(map(str, self.queue(i))) if not bad else "not shown, a number is out of range"
            parts.append("queue from the oldest: " + (values or "empty"))
        return f"object {i}, {record['words']}: " + ", ".join(parts) + self.stray("object", i)

    def lines(self):
        if self.table:
            ipdus, objects = range(len(self.table.ipdus)), range(len(self.table.objects))
            lines = [self.head()] + [self.ipdu_line(k) for k in ipdus] + [self.object_line(i) for i in objects]
            out = len(self.out_of_range())
            return lines + ([f"numbers out of range: {out} (refusal 6)"] if out else [])
        return [self.head()] + list(self.raw())

    def raw(self):
        """Every row that is not zero, with no table."""
        for k in range(self.layout.groups["ipdu"]["count"]):
            if any(self.layout.slice(self.memory, "ipdu", k)) or any(self.layout.slice(self.memory, "bytes", k)):
                row = [f"{name} {value}" for name, value in self.layout.row(self.memory, "ipdu", k).items()]
                yield f"I-PDU {k}: " + ", ".join(row + ["bytes " + self.frame(k, None)]) + self.stray("ipdu", k)
        for i in range(self.layout.groups["object"]["count"]):
            if any(self.layout.slice(self.memory, "object", i)):
                row = self.layout.row(self.memory, "object", i)
                row = [self.marks(value) if name == "marks" and value <= 15 else f"{name} {value}" for name, value in row.items()]
                yield f"object {i}: " + ", ".join(row) + self.stray("object", i)
        count = self.layout.groups["queue_places"]["count"]
        values = [self.layout.row(self.memory, "queue_places", n)["queued_value"] for n in range(count)]
        for n in range(0, count, PLACES_IN_LINE):
            if any(values[n:n + PLACES_IN_LINE]):
                yield f"queue places {n}-{n + PLACES_IN_LINE - 1}: " + " ".join(map(str, values[n:n + PLACES_IN_LINE]))


def default_layout():
    """docs/memory.json, from the place of this file."""
    tools = os.path.dirname(os.path.realpath(__file__))
    return Layout(os.path.join(os.path.dirname(tools), "docs", "memory.json"))
