"""The listing program under watch: started with a limit of time, and judged by its status, by what it printed and by what it said.

A fault is a text that says what is wrong, or nothing. Whatever happens, what is printed must be the front of the listing; where it is not
the whole, standard error must say why, and how many bytes of how many were written.
"""
import os
import re
import signal
import subprocess
import threading
from contextlib import contextmanager
from typing import Callable, NamedTuple, Optional

SECONDS = 5


class Check(NamedTuple):
    """A case: its name, and its fault as a function of the program."""
    name: str
    fault: Callable[[str], Optional[str]]


class End(NamedTuple):
    """How the program ended, and what it said on standard error."""
    status: int
    said: bytes


@contextmanager
def started(program, folder, words=(), seconds=SECONDS, **how):
    """The program, which is ended once its time is over, so that no reader waits for it in vain."""
    with subprocess.Popen([program, *words], cwd=folder, **{'stderr': subprocess.PIPE, **how}) as process:
        watch = threading.Timer(seconds, process.kill)
        watch.start()
        try:
            yield process
        finally:
            watch.cancel()
            watch.join()
            process.kill()


def end_of(process):
    said = process.stderr.read() if process.stderr else b''
    return End(process.wait(), said)


def status_fault(end, expected=0):
    if end.status == -signal.SIGKILL:
        return 'no end in time'
    return None if end.status == expected else f'status {end.status}, expected {expected}'


def front_fault(printed, whole, size):
    """Printed must be the first bytes of a listing, so many."""
    if printed == whole[:size]:
        return None
    same = len(os.path.commonprefix([printed, whole]))
    return f'expected the first {size} bytes, printed {len(printed)}, of which {same} are the front of the listing'


def said_fault(said, reason, written, whole):
    """Said must be that the listing broke off, for this reason of the system, after so many bytes."""
    if not said.startswith(b'list_parts: ') or not said.endswith(b'\n'):
        return f'standard error: {said}'
    if os.strerror(reason).encode() not in said:
        return f'standard error does not say {os.strerror(reason)!r}: {said}'
    counts = re.search(rb'(\d+) of (\d+)', said)
    if not counts or (int(counts[1]), int(counts[2])) != (written, len(whole)):
        return f'standard error does not say {written} of {len(whole)}: {said}'
    return None


def quiet_fault(said):
    return f'standard error: {said}' if said else None
