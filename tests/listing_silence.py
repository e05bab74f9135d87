"""Cases of listing_cases on a standard input that stays silent: what the program answers before it reads a query. It refuses a register
that it cannot take, and answers any argument with its usage, at once."""
import os
import subprocess
from contextlib import contextmanager
from functools import partial
from pathlib import Path

from listing_inputs import FOLDER, MISSING, SETTLED, laid
from listing_watch import Check, end_of, front_fault, quiet_fault, started, status_fault
from make_damaged import TEN_ROWS, good


@contextmanager
def silence():
    """A pipe that nobody writes to and nobody closes."""
    reader, writer = os.pipe()
    try:
        yield reader
    finally:
        os.close(reader)
        os.close(writer)


def run(program, folder, stdin, words=()):
    """How the program ends, and what it prints."""
    with started(program, folder, words, stdin=stdin, stdout=subprocess.PIPE) as process:
        printed = process.stdout.read()
        return end_of(process), printed


def not_refused(file, program):
    with laid(file) as folder, silence() as stdin:
        end, printed = run(program, folder, stdin)
    expected = b'refused 18 0\n'
    return status_fault(end) or front_fault(printed, expected, len(expected)) or quiet_fault(end.said)


def registers():
    for name, file in (('no file', MISSING), ('a folder in place of the file', FOLDER), ('a file of 200,000 bytes', bytes(200000)),
                       ('a file of 65,537 bytes', good(65513, [(8, [255] * 65513)]))):
        yield Check(f'{name}, standard input silent', partial(not_refused, file))


def usage_fault(end, printed):
    usage = end.said.startswith(b'usage: list_parts') and end.said.endswith(b'\n')
    return status_fault(end) or front_fault(printed, b'', 0) or (None if usage else f'standard error: {end.said}')


def no_usage(file, words, program):
    with laid(file) as folder, silence() as stdin:
        return usage_fault(*run(program, folder, stdin, words))


def inputs_touched(program):
    """The register is a pipe without a writer, so that opening it would wait; the place in standard input shows whether that was read."""
    with laid(MISSING, SETTLED) as folder, open(Path(folder) / 'query', 'rb', buffering=0) as text:
        os.mkfifo(Path(folder) / 'parts.bsl')
        wrong = usage_fault(*run(program, folder, text, ['--help']))
        return wrong or (f'{text.tell()} bytes of standard input were read' if text.tell() else None)


def arguments():
    for words in (['--help'], ['-h'], [''], ['parts.bsl'], ['a', 'b'], ['', '']):
        yield Check(f'the arguments {words}, standard input silent', partial(no_usage, TEN_ROWS, words))
    yield Check('an argument, no file', partial(no_usage, MISSING, ['--help']))
    yield Check('an argument, and inputs that must not be read', inputs_touched)


def checks():
    return [*registers(), *arguments()]
