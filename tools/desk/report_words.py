"""Words of picture and report: text that is safe in XML and HTML, counts, a journey's times, and what the answers mean."""
import re
from html import escape

from .run import ARRIVED, DONE, LIMIT, NO_MESSAGE, RECEIVE_ERROR, SEND_ERROR, SENT, duration

# docs/SCRIPT.md's answers, those that refuse a call.
REFUSALS = {
    1: "no such object or I-PDU, or not of the kind that the call asks for",
    2: "another length than the I-PDU's",
    3: "a value of the queue was lost since the last receive",
    4: "the queue is empty",
    5: "the table is wrong",
    7: "the layer is stopped, or was not started yet",
    8: "a confirm with no request open",
}
MARKS = {ARRIVED: "arrived", SENT: "sent", RECEIVE_ERROR: "receive error", SEND_ERROR: "send error"}
MOST_MILLISECONDS = 2000  # a longer journey is shown in seconds
FORBIDDEN = re.compile("[^\t\n\r\x20-\x7e\xa0-\ud7ff\ue000-\ufffd\U00010000-\U0010ffff]")  # by XML or by HTML


def clean(text):
    """On one line, and with no character that XML or HTML forbids."""
    return " ".join(FORBIDDEN.sub("\ufffd", text).split())


def escaped(text):
    """Text for XML or HTML, also inside a quoted attribute."""
    return escape(clean(str(text)))


def titled(title):
    """A title, also where there is none."""
    return clean(title) or "Journey"


def spaced(name):
    """A name as people write it: FrontHumidity is Front humidity."""
    parts = re.findall("[A-Z]+(?![a-z])|[A-Z]?[a-z]+|[0-9]+", name)
    plain = [part if part.isupper() and len(part) > 1 else part.lower() for part in parts]
    joined = " ".join(plain) or name
    return joined[0].upper() + joined[1:]


def refusal(status):
    return f"{status}: {REFUSALS.get(status, 'an answer that is not known')}"


class Clock:
    """The times of a journey, in milliseconds or seconds. A call between two ticks is at the time of the tick before it."""

    def __init__(self, network, made):
        self.tick, self.ticks = network.tick, duration(made)
        in_seconds = self.ticks * self.tick > MOST_MILLISECONDS
        self.unit, self.step = ("s", self.tick / 1000) if in_seconds else ("ms", self.tick)
        self.decimals = max(0, -self.step.normalize().as_tuple().exponent)

    def number(self, at):
        return f"{int(at) * self.step:.{self.decimals}f}"

    def words(self, at):
        return f"{self.number(at)} {self.unit}"

    def span(self, begin, end):
        """From a time to a time, or the time where it is one."""
        return self.words(end) if int(begin) == int(end) else f"{self.number(begin)} to {self.words(end)}"

    def length(self):
        """From the first call to the last tick."""
        return self.words(self.ticks - 1)


def is_empty(step):
    """A receive that found its queue empty, as every drain ends."""
    return (step.call, step.status) == ("receive", NO_MESSAGE)


def refused(made):
    """The calls that were refused, but for receives from an empty queue."""
    return [step for step in made if not step.is_done and not is_empty(step)]


def empties(step, number):
    """Whether a call empties the queue of an object."""
    return step.is_done and (step.call == "start" or step.call == "initialise" and step.numbers[0] == number)


def left_in_queues(made, states):
    """(an object's number, words, how many losses no receive told of) of values that were left in queues: where a call emptied one, and at the end."""
    found = []
    for number, last in states[-1].statuses.items() if states else []:
        emptied = [before.statuses.get(number) for step, before in zip(made[1:], states) if empties(step, number)]
        for statuses, words in ((emptied, "its queue was emptied by a start or an initialise, with values that nobody took"),
                                ([last], "values wait in its queue that nobody took")):
            losses = statuses.count(LIMIT)
            if losses or DONE in statuses:
                found.append((number, words + (", and values were lost" if losses else ""), losses))
    return found


def lost(made):
    """The receives that found an overflow: at least one value each was lost."""
    return [step for step in made if step.call == "receive" and step.status == LIMIT]
