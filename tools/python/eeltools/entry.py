"""How the scripts of tools/ are called: what is raised ends them by one line and a status."""
import sys

if sys.version_info < (3, 10):
    sys.exit('%s: this takes Python 3.10 or newer, and %s is Python %d.%d'
             % (sys.argv[0].rpartition('/')[2], sys.executable or 'python3', sys.version_info[0], sys.version_info[1]))

import gc
import importlib
import signal
from types import TracebackType

from . import Refused
from .scripting import DEVICE, MEMORY, note, why


def end_shortly(kind: type[BaseException], raised: BaseException, trace: TracebackType | None) -> None:
    """An interrupt ends a script without a line, by its signal; what is refused, want of memory, and a file or a device that
    failed, by one."""
    if isinstance(raised, KeyboardInterrupt):
        signal.signal(signal.SIGINT, signal.SIG_IGN)  # another one changes nothing
    elif isinstance(raised, Refused):
        end(str(raised), raised.status)
    elif isinstance(raised, MemoryError):
        end('out of memory', MEMORY)
    elif isinstance(raised, OSError):
        end(f'{raised.filename}: {why(raised)}' if raised.filename else why(raised), DEVICE)
    else:
        sys.__excepthook__(kind, raised, trace)


def end(line: str, status: int) -> None:
    note(line)
    sys.exit(status)


def run(name: str) -> None:
    """Calls the `main` of a module. A signal to end lets its temporary files go."""
    sys.excepthook = end_shortly
    gc.disable()  # what is made of a program stays to the end: to look through it again and again takes half the time
    for number in signal.SIGTERM, signal.SIGHUP:
        signal.signal(number, lambda number, _: sys.exit(128 + number))
    sys.exit(importlib.import_module(f'.{name}', __package__).main())
