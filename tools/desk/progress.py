"""Progress of long work, on a terminal alone: one line on standard error that is written over, and gone at the end."""
import sys
import time

SHOWN_EVERY = 0.2  # seconds


def say(words):
    """What is done now; nothing clears the line."""
    if sys.stderr.isatty():
        print(f"\r\x1b[K{words}", end="", file=sys.stderr, flush=True)


def watched(items, words, total):
    """The items, while the line says how many of them are done."""
    if not sys.stderr.isatty():
        yield from items
        return
    shown = time.monotonic()
    for done, item in enumerate(items):
        if time.monotonic() - shown >= SHOWN_EVERY:
            shown = time.monotonic()
            say(f"{words}: {done:,} of {total:,}")
        yield item
    say("")
