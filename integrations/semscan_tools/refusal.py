"""A run that ends early, and how the programs of this folder end."""
import os
import sys
from typing import Callable, NoReturn

USAGE = 2
OUTPUT_FAILED = 5


class Refusal(Exception):
    """What is wrong, in one line or more for a person, and the status that the run ends with."""

    def __init__(self, message: str, status: int = USAGE):
        super().__init__(message)
        self.status = status


def open_closed_streams() -> None:
    """Of the standard streams that the run was started without, the input is empty, the output can't be written, and standard error is lost."""
    for name, mode, flags in (('stdin', 'r', os.O_RDONLY), ('stdout', 'w', os.O_RDONLY), ('stderr', 'w', os.O_WRONLY)):
        if getattr(sys, name) is None:
            setattr(sys, name, open(os.open(os.devnull, flags), mode))


def set_up_streams() -> None:
    """Text goes out as UTF-8 whatever the locale says, and nothing in it can make the writing fail."""
    open_closed_streams()
    for stream in (sys.stdout, sys.stderr):
        stream.reconfigure(encoding='utf-8', errors='backslashreplace', newline='\n')


def drop_output() -> None:
    """Lets what still waits to be written go nowhere, since it can't be written."""
    os.dup2(os.open(os.devnull, os.O_WRONLY), sys.stdout.fileno())


def tell(name: str, words: str) -> None:
    """Says on standard error what ends the run, each line with the program's name. Where that can't be written, the status stays the same."""
    try:
        for line in words.splitlines():
            print('%s: %s' % (name, line), file=sys.stderr)
    except OSError:
        pass


def run_program(name: str, main: Callable[[], int]) -> NoReturn:
    """Runs a program: what it refuses is told on standard error, and so is a failure of the system. Where the reader went away, as `head` does, it
    ends quietly."""
    set_up_streams()
    try:
        status = main()
        sys.stdout.flush()
    except Refusal as refusal:
        tell(name, str(refusal))
        status = refusal.status
    except OSError as error:
        drop_output()
        if not isinstance(error, BrokenPipeError):
            tell(name, '%s: %s' % (error.filename or "standard output can't be written", error.strerror or error))
        status = OUTPUT_FAILED
    except KeyboardInterrupt:
        status = 130
    sys.exit(status)
