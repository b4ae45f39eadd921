"""A run: the calls of a script beside what drive printed for them, each at its time. docs/SCRIPT.md has the lines."""
import re
from dataclasses import dataclass, field

from .wrong import wrong

NUMBERS = {"start": 0, "stop": 0, "send": 2, "initialise": 2, "receive": 1, "status": 1, "marks": 1, "clear_marks": 1, "start_periodic": 0,
           "stop_periodic": 0, "indication": 2, "confirm": 2, "tick": 0}
COMMAND = re.compile(r"([a-z_]+)((?: -?[0-9]+)*)(?: ([0-9A-F]+))?")
ANSWER = re.compile(r"([0-9]+)(?: val (-?[0-9]+))?((?: req [0-9]+ [0-9A-F]+)*)")
DONE, LIMIT, NO_MESSAGE, CANNOT_BE_READ = 0, 3, 4, 9
ARRIVED, SENT, RECEIVE_ERROR, SEND_ERROR = 1, 2, 4, 8  # marks


@dataclass
class Step:
    """A call with its answer. `at` is its time in ticks since the script began: a tick stands at a whole number, the calls after it at even
    distances before the next; time moves on with a tick that is refused too."""

    line: int
    call: str
    numbers: tuple
    frame: bytes | None = None
    status: int = DONE
    value: int | None = None
    requests: list = field(default_factory=list)
    at: float = 0.0

    @property
    def is_done(self):
        """Not refused: a receive that answers 3 gives a value."""
        return self.status == DONE or self.call == "receive" and self.status == LIMIT


def command(text, file, number):
    """One line of a script."""
    found = COMMAND.fullmatch(text)
    if found is None or found[1] not in NUMBERS:
        raise wrong(file, f"line {number}", f"is no call: \"{text}\"")
    words = text.split(" ")[1:]
    count = NUMBERS[found[1]]
    takes_frame = found[1] == "indication"
    if not count <= len(words) <= count + takes_frame or not all(re.fullmatch("-?[0-9]+", word) for word in words[:count]):
        raise wrong(file, f"line {number}", f"is no call: \"{text}\" (a {found[1]} has {count} numbers{' and bytes in hex' if takes_frame else ''})")
    data = words[count] if len(words) > count else ""
    if len(data) % 2:
        raise wrong(file, f"line {number}", f"has an odd count of hex digits: \"{text}\"")
    return Step(number, found[1], tuple(int(word) for word in words[:count]), bytes.fromhex(data) if takes_frame else None)


def answered(step, text, file, number):
    """The step with its answer, a line of drive's output."""
    found = ANSWER.fullmatch(text)
    if found is None:
        raise wrong(file, f"line {number}", f"is no line that drive prints: \"{text}\"")
    step.status, step.value = int(found[1]), None if found[2] is None else int(found[2])
    words = found[3].split()
    step.requests = [(int(words[i + 1]), bytes.fromhex(words[i + 2])) for i in range(0, len(words), 3)]
    return step


def steps(script, script_file, output, output_file):
    """All calls that were made. A line that can't be read ends a run, as drive says with 9 and its number."""
    calls, answers = script.split("\n")[:-1], output.split("\n")[:-1]
    if answers and answers[-1].startswith(f"{CANNOT_BE_READ} "):
        answers.pop()
    elif len(answers) != len(calls):
        raise wrong(output_file, "", f"has {len(answers)} answers, and {script_file} has {len(calls)} calls: they are not of one run")
    made = [answered(command(call, script_file, n), answer, output_file, n) for n, (call, answer) in enumerate(zip(calls, answers), 1)]
    return timed(made)


def unread_line(script, made):
    """The number of the line that ended a run because it can't be read, or None where all lines were made."""
    return None if script.split("\n")[len(made):] == [""] else len(made) + 1


def timed(made):
    """Steps with their times."""
    ticks, between = 0, []
    for step in made:
        if step.call == "tick":
            spread(between, ticks)
            ticks, between = ticks + 1, []
            step.at = float(ticks)
        else:
            between.append(step)
    spread(between, ticks)
    return made


def spread(between, ticks):
    for place, step in enumerate(between, 1):
        step.at = ticks + place / (len(between) + 1)


def duration(made):
    """In ticks, with the rest after the last tick."""
    return sum(step.call == "tick" for step in made) + 1
