"""What the desk's programs have in common: plain errors, exit status."""
import os
import signal
import sys

from .progress import say
from .wrong import Wrong, wrong, write

FAILED = 1


def run(name, main):
    """Runs a program: 0 where it is done, 1 with a line for each fault on standard error, 2 where its arguments are wrong."""
    signal.signal(signal.SIGINT, signal.default_int_handler)
    if sys.stdout is None:
        sys.stdout = open(os.devnull, "w", encoding="utf-8")
    try:
        status = main(sys.argv[1:])
        sys.stdout.flush()
        sys.exit(status)
    except Wrong as error:
        say("")
        for line in error.lines:
            print(f"{name}: {line}", file=sys.stderr)
    except OSError as error:  # of standard output: files of a person's are read and written with Wrong
        os.dup2(os.open(os.devnull, os.O_WRONLY), sys.stdout.fileno())
        print(f"{name}: standard output can't be written: {error.strerror}", file=sys.stderr)
    except KeyboardInterrupt:
        say("")
        sys.exit(128 + signal.SIGINT)
    sys.exit(FAILED)


def put(path, data, inputs):
    """Text or bytes into a file, which must be none of the inputs, or to standard output where there is none."""
    say("")
    if path is not None:
        if any(os.path.exists(path) and os.path.exists(file) and os.path.samefile(path, file) for file in inputs):
            raise wrong(path, "", "is what is read, and would be written over")
        write(path, data)
    elif isinstance(data, bytes):
        sys.stdout.buffer.write(data)
    else:
        sys.stdout.write(data)


def board_of(network, node):
    """The board of a node; of the first one where none is named."""
    boards = {board.node: board for board in network.boards()}
    if node is None:
        return next(iter(boards.values()))
    if node not in boards:
        raise wrong(network.file, "nodes", f"there is no node \"{node}\" with a table, only {', '.join(boards)}")
    return boards[node]
