"""The lines of a DBC file beside what canmatrix reads of them: it passes over a line that it can't read, and here the line is refused by its number."""
import codecs
import io
import re

from .wrong import wrong

MOST_SHOWN = 100  # letters of a line
EXTENDED = 0x1FFFFFFF  # the greatest CAN identifier
FRAME = re.compile(r"\s*BO_\s+0*(\d+)\s+(\w+)")
OF_SIGNAL = re.compile(r"\s*(?:VAL_|CM_\s+SG_|SIG_VALTYPE_)\s+(\w+)\s+([A-Za-z_]\w*)")  # VAL_ may also be of an environment variable, with a number next
WHOLE_NUMBER = re.compile(r"\s*SIG_VALTYPE_\s+\w+\s+\w+\s*:\s*0\s*;\s*")
QUOTE = re.compile(r'(?<!\\)"')
PLACE = re.compile(r"\b(BO_|SG_)\s+(\w+)")
ENUM = re.compile(r'BA_DEF_ +(\w\w_) +"([^"]+)" +ENUM +(.*);')
ATTRIBUTE = re.compile(r'(BA_ +"([^"]+)" +(BO_|SG_|BU_)(?: +\w+){1,2} +)("[^"]*"|[^ ;"]+)( *;.*)')
TEXT = re.compile(r'"(\\.|[^"\\])*"')
NUMERIC = re.compile(r"GenMsg\w*Time|GenSig(CycleTime|StartValue)")  # attributes that canmatrix takes for numbers
NUMBER = re.compile(r"[+-]?(\d+\.?\d*|\.\d+)([eE][+-]?\d+)?")
OURS = re.compile(r'BA_.*"Gen(Msg|Sig)')  # the attributes that are looked at
ENDED = ("BA_ ", "BA_DEF_ ", "BA_DEF_DEF_ ", "VAL_ ", "BO_TX_BU_ ", "SIG_VALTYPE_ ", "SG_MUL_VAL_ ")  # statements with a semicolon at their end
# Words that begin a statement; those with no semicolon at their end, and of these the ones that may go on in the next line.
WORDS = set("""VERSION NS_ BS_ BU_ BO_ SG_ BO_TX_BU_ CM_ BA_DEF_ BA_DEF_DEF_ BA_ BA_DEF_REL_ BA_DEF_DEF_REL_ BA_REL_ VAL_ VAL_TABLE_ SIG_GROUP_ SIG_VALTYPE_
SG_MUL_VAL_ EV_ ENVVAR_DATA_ EV_DATA_ NS_DESC_ CAT_DEF_ CAT_ FILTER SGTYPE_ SGTYPE_VAL_ BA_DEF_SGTYPE_ BA_SGTYPE_ SIG_TYPE_REF_ SIGTYPE_VALTYPE_ BU_SG_REL_
BU_EV_REL_ BU_BO_REL_""".split())
NOT_ENDED, LISTS = {"VERSION", "NS_", "BS_", "BU_", "BO_", "SG_"}, {"NS_", "BS_", "BU_"}


class Lines:
    """`data` is what canmatrix is to read, in `encoding`: the file with the words of enumerations as their indices, and without the lines that say of a
    signal that it is a whole number, which canmatrix takes for the contrary."""

    def __init__(self, file, data):
        self.file = file
        if b"\0" in data:
            raise wrong(file, "", f"is no DBC: byte {data.index(0)} is 0, and a DBC is text")
        data = data.removeprefix(codecs.BOM_UTF8)
        self.encoding = encoding_of(data)
        lines = [line.decode(self.encoding) for line in io.BytesIO(data)]
        self.statements = self.outside_texts(lines)
        self.check_words()
        self.check_identifiers()
        self.enums = {(found[1], found[2]): re.findall('"[^"]*"', found[3]) for _, line in self.statements if (found := ENUM.match(line.strip()))}
        for number, line in self.statements:
            lines[number - 1] = "\n" if WHOLE_NUMBER.fullmatch(line) else self.with_index(number, line)
        self.lines = [line.encode(self.encoding) for line in lines]
        self.data = b"".join(self.lines)

    def wrong(self, number, reason, line):
        """The reason with the line itself, as far as it can be printed."""
        shown = "".join(letter if letter.isprintable() else " " for letter in line.strip())
        return wrong(self.file, f"line {number}", f"{reason}: {shown[:MOST_SHOWN]}{'..' if len(shown) > MOST_SHOWN else ''}")

    def outside_texts(self, lines):
        """Number and text of each line that does not begin inside quotes."""
        found, opened = [], None
        for number, line in enumerate(lines, 1):
            if opened is None:
                found.append((number, line))
            if len(QUOTE.findall(line)) % 2:
                opened = number if opened is None else None
        if opened is not None:
            raise self.wrong(opened, "a quote is never closed", lines[opened - 1])
        return found

    def check_words(self):
        """Refuses a line that neither begins a statement nor goes on with one: canmatrix passes over it, and the signals of a frame would be another's."""
        goes_on = False
        for number, line in self.statements:
            statement = TEXT.sub("", line)
            word = re.match(r"\s*(\w*)", statement)[1]
            if word in WORDS:
                goes_on = word in LISTS if word in NOT_ENDED else ";" not in statement
            elif statement.strip() and not goes_on:
                raise self.wrong(number, "begins with no word of a DBC", line)

    def check_identifiers(self):
        """Refuses a frame with the identifier of one before it: canmatrix takes what is said of the second for the first."""
        first = {}
        for number, line in self.statements:
            if found := FRAME.match(line):
                name, before = first.setdefault(found[1], (found[2], number))
                if before != number:
                    raise self.wrong(number, f"{found[2]} has the identifier of {name} in line {before}", line)

    def with_index(self, number, line):
        """A line whose attribute has a word of its enumeration, with the word's index."""
        found = ATTRIBUTE.match(line.strip())
        if not found:
            return line
        before, name, kind, value, after = found.groups()
        if NUMERIC.fullmatch(name) and not NUMBER.fullmatch(value):
            raise self.wrong(number, f"{value} is no number", line)
        words = self.enums.get((kind, name))
        if words is None or value in map(str, range(len(words))):
            return line
        if value not in words:
            raise self.wrong(number, f"{value} is none of the {len(words)} values of {name}", line)
        return f"{before}{words.index(value)}{after}\n"

    def check(self, said, frames):
        """Refuses a line that canmatrix could not read: `said` is what it printed, each such line after a complaint; `frames` is what it has read."""
        complaints = set(said.splitlines())
        for number, line in self.statements:
            statement = line.strip()
            if not matters(statement):
                continue
            if statement.startswith(ENDED) and ";" not in TEXT.sub("", statement):
                raise self.wrong(number, "goes on in the next line, and canmatrix reads line by line", line)
            if repr(self.lines[number - 1]) in complaints:
                raise self.wrong(number, "can't be read", line)
        read = {}
        for frame in frames:
            read.setdefault((frame.arbitration_id.id, frame.arbitration_id.extended), []).append([signal.name for signal in frame.signals])
        for number, line, identifier, signals in self.frames():
            if not read.get(identifier):
                raise self.wrong(number, "canmatrix passes over this frame", line)
            names = read[identifier].pop(0)
            if len(names) < len(signals):
                at, text = next(((at, text) for name, at, text in signals if name not in names), (number, line))
                raise self.wrong(at, "canmatrix passes over a signal there", text)
        self.check_signals()

    def check_signals(self):
        """Refuses a line on a signal that is not there: canmatrix passes over it."""
        signals = {}
        for _, _, identifier, found in self.frames():
            signals.setdefault(identifier, []).extend(name for name, _, _ in found)
        for number, line in self.statements:
            if named := OF_SIGNAL.match(line):
                identifier = identifier_of(named[1])
                if identifier not in signals:
                    raise self.wrong(number, "there is no such frame", line)
                if named[2] not in signals[identifier]:
                    raise self.wrong(number, "its frame has no such signal", line)

    def frames(self):
        """Number and text of the line, identifier and signals (name, number and text of the line) of each frame, as the words BO_ and SG_ say."""
        found = []
        for number, line in self.statements:
            if not line.strip().startswith(("BO_ ", "BO_\t", "SG_ ", "SG_\t")):
                continue
            for word, name in PLACE.findall(TEXT.sub("", line)):
                if word == "BO_":
                    found.append((number, line, identifier_of(name), []))
                elif not found:
                    raise self.wrong(number, "is a signal before the first frame", line)
                else:
                    found[-1][3].append((name, number, line))
        return found


def matters(line):
    """Whether a line has something that is read here."""
    return bool(OURS.match(line)) if line.startswith("BA_") else not line.startswith(("EV_", "SIG_GROUP_"))


def identifier_of(text):
    """A BO_ line's number: bit 31 says that the identifier is an extended one."""
    number = int(text) if re.fullmatch("[0-9]{1,10}", text) else -1
    return number & EXTENDED, bool(number >> 31)


def encoding_of(data):
    """UTF-8 where it can be, else Windows' Latin-1, as most tools write, else Latin-1, which has all bytes."""
    for encoding in ("utf-8", "cp1252"):
        try:
            data.decode(encoding)
            return encoding
        except UnicodeDecodeError:
            pass
    return "iso-8859-1"
