"""Cases of listing_cases on standard outputs that are full, closed, limited or slow."""
import errno
import fcntl
import os
import resource
import signal
import struct
import termios
import time
from contextlib import contextmanager
from functools import cache, partial
from itertools import cycle
from pathlib import Path
from typing import NamedTuple, Union

from expect_listing import listing
from listing_inputs import MISSING, SETTLED, laid, query
from listing_watch import SECONDS, Check, end_of, front_fault, quiet_fault, said_fault, started, status_fault
from make_damaged import TEN_ROWS, good

SECONDS_SLOWLY = 20


class Asked(NamedTuple):
    """A register, or MISSING, and a query's text."""
    name: str
    file: Union[bytes, str]
    text: bytes


REFUSED = Asked('a refusal', MISSING, SETTLED)
SIX_LINES = Asked('six lines', TEN_ROWS, SETTLED)
LARGEST = Asked('the largest listing', good(65512, [(8, [255] * 65512)]), query(64))


@cache
def whole_of(asked):
    return listing(None if asked.file == MISSING else asked.file, asked.text)


@contextmanager
def asking(asked, program, before=None, **how):
    """The program with a register and a query; `before` is called in its process just before it starts."""
    with laid(asked.file, asked.text) as folder, open(Path(folder) / 'query', 'rb') as text:
        with started(program, folder, stdin=text, preexec_fn=before, **how) as process:
            yield process


def closing(*outputs):
    for output in outputs:
        os.close(output)


def ignoring(number):
    signal.signal(number, signal.SIG_IGN)


# Full and closed

def full(asked, program):
    with open('/dev/full', 'wb') as out, asking(asked, program, stdout=out) as process:
        end = end_of(process)
    return status_fault(end) or said_fault(end.said, errno.ENOSPC, 0, whole_of(asked))


def closed(asked, program):
    with asking(asked, program, partial(closing, 1)) as process:
        end = end_of(process)
    return status_fault(end) or said_fault(end.said, errno.EBADF, 0, whole_of(asked))


def both_full(program):
    with open('/dev/full', 'wb') as out, asking(LARGEST, program, stdout=out, stderr=out) as process:
        return status_fault(end_of(process))


def both_closed(program):
    with asking(LARGEST, program, partial(closing, 1, 2), stderr=None) as process:
        return status_fault(end_of(process))


def without_room():
    for asked in (REFUSED, SIX_LINES, LARGEST):
        yield Check(f'{asked.name}, standard output full', partial(full, asked))
        yield Check(f'{asked.name}, standard output closed', partial(closed, asked))
    yield Check('standard output and standard error full', both_full)
    yield Check('standard output and standard error closed', both_closed)


# A limit on the size of files

def limiting(size, ignored):
    if ignored:
        ignoring(signal.SIGXFSZ)
    resource.setrlimit(resource.RLIMIT_CORE, (0, 0))
    resource.setrlimit(resource.RLIMIT_FSIZE, (size, size))


def limited(size, ignored, program):
    """How the program ends where files may have so many bytes, and what the file has then."""
    with laid(MISSING) as folder:
        path = Path(folder) / 'listing'
        with open(path, 'wb') as out, asking(LARGEST, program, partial(limiting, size, ignored), stdout=out) as process:
            end = end_of(process)
        return end, path.read_bytes()


def limit_said(size, program):
    end, printed = limited(size, True, program)
    whole = whole_of(LARGEST)
    said = quiet_fault(end.said) if size == len(whole) else said_fault(end.said, errno.EFBIG, size, whole)
    return status_fault(end) or front_fault(printed, whole, size) or said


def limit_ends(size, program):
    end, printed = limited(size, False, program)
    return status_fault(end, -signal.SIGXFSZ) or front_fault(printed, whole_of(LARGEST), size)


def limits():
    most = len(whole_of(LARGEST))
    for size in (0, 1, 65536, 100000, most - 1, most):
        yield Check(f'{size} bytes to a file, the signal ignored', partial(limit_said, size))
    yield Check('100000 bytes to a file, ended by the signal', partial(limit_ends, 100000))


# Pipes

@contextmanager
def piped(program, waits, before=None, seconds=SECONDS):
    """The program with the largest listing for a pipe, and the end to read from. Where the pipe is full a write waits, or fails."""
    out, into = os.pipe()
    os.set_blocking(into, waits)
    with open(out, 'rb', buffering=0) as reader:
        with open(into, 'wb') as writer, asking(LARGEST, program, before, seconds=seconds, stdout=writer) as process:
            writer.close()
            yield process, reader


def read_slowly(reader):
    """All that comes, in parts of many sizes: the first after a while, and a pause after each."""
    time.sleep(1)
    parts, sizes = [], cycle((1, 4095, 4096, 4097, 30000, 65536))
    while part := reader.read(next(sizes)):
        parts.append(part)
        time.sleep(0.005)
    return b''.join(parts)


def slow(waits, program):
    with piped(program, waits, seconds=SECONDS_SLOWLY) as (process, reader):
        printed = read_slowly(reader)
        end = end_of(process)
    whole = whole_of(LARGEST)
    return status_fault(end) or front_fault(printed, whole, len(whole)) or quiet_fault(end.said)


def held(reader):
    """How many bytes a pipe holds once some have come and no more do; what it holds when the program's time is over, where none come."""
    before, now = 0, 0
    for _ in range(2 * SECONDS):
        time.sleep(0.3)
        before, now = now, struct.unpack('i', fcntl.ioctl(reader, termios.FIONREAD, bytes(4)))[0]
        if now and before == now:
            break
    return now


def take_and_leave(reader, size):
    """Takes so many bytes and closes the pipe. Answers them, and how many had been written by then."""
    taken = b''
    while len(taken) < size and (part := reader.read(size - len(taken))):
        taken += part
    written = len(taken) + held(reader)
    reader.close()
    return taken, written


def leaving_said(waits, size, before, program):
    with piped(program, waits, before) as (process, reader):
        taken, written = take_and_leave(reader, size)
        end = end_of(process)
    whole = whole_of(LARGEST)
    return status_fault(end) or front_fault(taken, whole, size) or said_fault(end.said, errno.EPIPE, written, whole)


def pipes():
    for waits, name in ((True, 'a pipe'), (False, 'a pipe that does not wait')):
        yield Check(f'{name}, read slowly', partial(slow, waits))
        for size in (0, 1, 10000, 100000):
            yield Check(f'{name}, closed after {size} bytes, the signal ignored', partial(leaving_said, waits, size, partial(ignoring, signal.SIGPIPE)))
        # a program of the kit ignores that signal by itself
        yield Check(f'{name}, closed after 10000 bytes, the signal at its default', partial(leaving_said, waits, 10000, None))


def checks():
    return [*without_room(), *limits(), *pipes()]
