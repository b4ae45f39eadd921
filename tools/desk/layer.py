"""The proved layer at work: drive over a board's table, plain and with questions between the calls that change nothing."""
import os
import subprocess
import tempfile
from dataclasses import dataclass

from .progress import watched
from .records import RECEIVE
from .run import steps
from .wrong import wrong

DRIVE = os.path.join(os.path.dirname(os.path.realpath(__file__)), "..", "..", "target", "bin", "drive")
MAY_CHANGE = {"start", "send", "initialise", "indication", "confirm", "tick", "clear_marks", "receive"}


def drive(program, table, script):
    """What drive prints for a script."""
    if not os.path.exists(program):
        raise wrong(os.path.normpath(program), "", "is missing: `tools/build drive` proves and builds it")
    with tempfile.TemporaryDirectory() as folder:
        names = [os.path.join(folder, name) for name in ("table", "script")]
        for name, data in zip(names, (table, script.encode())):
            with open(name, "wb") as file:
                file.write(data)
        try:
            with subprocess.Popen([os.path.abspath(program), *names], stdout=subprocess.PIPE, encoding="utf-8", errors="replace") as process:
                printed = "".join(watched(process.stdout, "calls made", script.count("\n")))
        except OSError as error:
            raise wrong(program, "", f"fails: {error.strerror}") from None
        if process.returncode != 0:
            raise wrong(program, "", f"fails with {process.returncode}")
        return printed


@dataclass
class Answers:
    """After a step: the marks of each object, of each unqueued receive object the value that it holds, None where the layer is stopped; and of each queued one
    what a status answers, which changes nothing: 0 values wait, LIMIT values wait and one was lost, NO_MESSAGE none waits."""

    marks: list
    values: dict
    statuses: dict


class Questions:
    """The lines that ask for all that is in Answers."""

    def __init__(self, board):
        received = [entry for entry in board.objects if entry.record.kind == RECEIVE]
        self.objects = len(board.objects)
        self.unqueued = [entry.number for entry in received if entry.record.depth == 0]
        self.queued = [entry.number for entry in received if entry.record.depth]
        self.lines = [f"marks {number}" for number in range(self.objects)] + [f"receive {number}" for number in self.unqueued]
        self.lines += [f"status {number}" for number in self.queued]

    def answers(self, printed, before):
        """From what drive printed for the lines; statuses as before are those of before, which saves memory."""
        values = [text.split(" val ") for text in printed]
        words = [int(value[1]) if len(value) == 2 else None for value in values]
        queues_at = self.objects + len(self.unqueued)
        statuses = dict(zip(self.queued, (int(value[0]) for value in values[queues_at:])))
        return Answers(words[:self.objects], dict(zip(self.unqueued, words[self.objects:queues_at])),
                       before.statuses if statuses == before.statuses else statuses)


def played(board, script, script_file, program=DRIVE):
    """The steps of a script over a board, and the Answers after each: the same calls are made once alone and once with questions, and a call that
    answers otherwise beside the questions is an error."""
    alone = drive(program, board.table, script)
    made = steps(script, script_file, alone, "what drive prints")
    lines = script.split("\n")[:len(made)]
    questions = Questions(board)
    mixed, asks = [], []
    for text, step in zip(lines, made):
        mixed.append(text)
        asks.append(step.is_done and step.call in MAY_CHANGE)
        if asks[-1]:
            mixed += questions.lines
    answers = iter(drive(program, board.table, "".join(line + "\n" for line in mixed)).split("\n"))
    states, last = [], Answers([None] * len(board.objects), {}, {})
    for step, printed, asks_now in zip(made, alone.split("\n"), asks):
        if next(answers) != printed:
            raise wrong(script_file, f"line {step.line}", "is answered otherwise where marks, values and statuses are asked for between the calls")
        if asks_now:
            last = questions.answers([next(answers) for _ in questions.lines], last)
        states.append(last)
    return made, states
