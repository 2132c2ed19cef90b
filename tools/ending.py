"""How a tool ends: with its status, or with one line where it can't go on."""

import os
import sys
from contextlib import contextmanager, suppress

# The most characters of a fault that are printed.
MOST_PRINTED = 2_000


def ended(tool, work):
    """Does a tool's work, and returns the status that it ends with.

    Where what it writes can't be written, or memory runs out, one line says so, and the status is 1.
    """
    if sys.stdout is None:
        report(tool, "standard output is closed")
        return 1
    status, fault = 1, None
    try:
        status = work()
    except OSError as error:
        fault = f"standard output: {error.strerror}"
    except MemoryError:
        fault = "not enough memory"
    except KeyboardInterrupt:
        status = 130
    except SystemExit as end:
        # Words that are wrong, or that ask for help.
        status = end.code
    # What the work has held is free from here on, so that there is memory to report it.
    try:
        sys.stdout.flush()
    except OSError as error:
        status, fault = 1, f"standard output: {error.strerror}"
        leave_unwritten()
    if fault:
        report(tool, fault)
    return status


def write(text):
    """Writes a text on standard output, all of it and at once: a fault is known before anything else is reported.

    Where Python doesn't buffer, one call may write only a part.
    """
    left = memoryview(text.encode() if isinstance(text, str) else text)
    while left:
        left = left[sys.stdout.buffer.write(left) :]
    sys.stdout.flush()


def leave_unwritten():
    """Drops what standard output has not taken: else Python tries once more as it ends, and complains."""
    nowhere = os.open(os.devnull, os.O_WRONLY)
    os.dup2(nowhere, sys.stdout.fileno())
    os.close(nowhere)


def report(tool, text):
    """Prints a line on standard error, if there is one.

    Characters that a terminal would act on are spelled out. What is longer than any cause, since it repeats a file, is cut off.
    """
    if sys.stderr is None:
        return
    spelled = "".join(each if each.isprintable() else ascii(each)[1:-1] for each in text[:MOST_PRINTED])
    with suppress(OSError):
        print(f"{tool}: {spelled}" + (" .." if len(text) > MOST_PRINTED else ""), file=sys.stderr)


@contextmanager
def named(path, kind):
    """Puts a file's name before what is wrong with it: a fault of this kind, which it becomes too where it can't be read."""
    try:
        yield
    except kind as fault:
        raise kind(f"{path}: {fault}") from None
    except OSError as error:
        raise kind(f"{path}: {error.strerror or error}") from None
