"""Missed deadlines of an I-PDU that follow each other with no frame between them, as one gap."""
from bisect import bisect_right
from dataclasses import dataclass

from .records import SEND

ENDS_A_GAP = {"indication", "error", "confirm", "no_confirm"}


@dataclass
class Gap:
    """`missed` are its deadlines, as events. From `begin` to `end` no frame came; of a send I-PDU no confirm, from the first request that was missed on. It
    ends at the latest with the journey, or where the layer is started or stopped: what came while it was stopped is not known."""

    is_sent: bool
    missed: list
    begin: float
    end: float

    def words(self, clock):
        """For people."""
        until = "the end" if self.end == clock.ticks else clock.words(self.end)
        return f"no {self.lacks()} from {clock.words(self.begin)} to {until}"

    def lacks(self):
        return "confirm" if self.is_sent else "frame"

    def ticks(self, clock):
        return int(min(self.end, clock.ticks - 1)) - int(self.begin)


def gaps(lane, spans):
    """Of a lane, in the order of time; `spans` are those in which the layer ran or was stopped."""
    edges = sorted([event.at for event in lane.events if event.what in ENDS_A_GAP] + [span.begin for span in spans] + [spans[-1].end])
    missed = [event for event in lane.events if event.what == "deadline"]
    is_sent = lane.record.direction == SEND
    begins = [span.begin for span in lane.open if span.how == "deadline"] if is_sent else [edges[bisect_right(edges, event.at) - 1] for event in missed]
    found = []
    for event, begin in zip(missed, begins, strict=True):
        end = edges[bisect_right(edges, event.at)]
        if found and found[-1].end == end:
            found[-1].missed.append(event)
        else:
            found.append(Gap(is_sent, [event], begin, end))
    return found
