"""The cases of listing_cases: a file, a standard input, and what the program must print of them where a case states it."""
import random
import tempfile
from contextlib import contextmanager
from pathlib import Path
from typing import NamedTuple, Optional, Union

from make_damaged import DAMAGED, MANY_COLUMNS, STATED, TEN_ROWS, TOP, entry, good, trailer

MISSING, FOLDER, CLOSED = 'missing', 'a folder', 'closed'
SETTLED = b'segment 8\n0 < 512\n1 = 5\n'
SIX_LINES = b"""rows 10 matches 3
test 0 read 12 of 20
test 1 read 10 of 10
row 0: 100 5
row 5: 0 5
row 7: 300 5
"""
SIGNS = [b'<', b'<=', b'>', b'>=', b'=', b'!=']


class Slow(NamedTuple):
    """A text that comes through a pipe in parts, some time apart."""
    parts: list


class Case(NamedTuple):
    """The bytes of the file, or MISSING or FOLDER; and those of standard input, or a stored file's path, FOLDER or CLOSED."""
    name: str
    file: Union[bytes, str]
    text: Union[bytes, str, Slow, Path]
    printed: Optional[bytes] = None


@contextmanager
def laid(file, text=None):
    """A folder with this file as its register, and this text, where there is one, in the file `query`."""
    with tempfile.TemporaryDirectory() as folder:
        path = Path(folder) / 'parts.bsl'
        if file == FOLDER:
            path.mkdir()
        elif file != MISSING:
            path.write_bytes(file)
        if text is not None:
            (Path(folder) / 'query').write_bytes(text)
        yield folder


def refused(name, file, text, number, place=0):
    return Case(name, file, text, b'refused %d %d\n' % (number, place))


def query(size, tests=()):
    lines = [b'segment %d\n' % size] + [b'%d %s %d\n' % test for test in tests]
    return b''.join(lines)


def text_of(size):
    """Well formed lines of so many bytes in all; more than 16 tests, so that only their number is refused."""
    text = b'segment 8\n'
    while len(text) + 8 + 6 <= size:
        text += b'0 < 512\n'
    return text + b'0 < ' + b'1' * (size - len(text) - 5) + b'\n'


def settled():
    yield Case('the settled example', TEN_ROWS, SETTLED, SIX_LINES)
    parts = [SETTLED[:3], SETTLED[3:10], SETTLED[10:23], SETTLED[23:]]
    yield Case('the settled example through a slow pipe', TEN_ROWS, Slow(parts), SIX_LINES)
    yield Case('a byte at a time', TEN_ROWS, Slow([bytes([byte]) for byte in SETTLED]), SIX_LINES)
    for size in (16, 32, 64):
        yield Case(f'the settled tests, segment {size}', TEN_ROWS, query(size, [(0, b'<', 512), (1, b'=', 5)]))
    yield Case('the tests exchanged', TEN_ROWS, query(8, [(1, b'=', 5), (0, b'<', 512)]))


def examples():
    """The stored examples, by the listings that are stored with them."""
    for stored in sorted(TOP.glob('examples/*/*.query')):
        file = (stored.parent / 'parts.bsl').read_bytes()
        yield Case(str(stored.relative_to(TOP)), file, stored, stored.with_suffix('.listing').read_bytes())


def damaged():
    """The stored files, by the numbers that are stored with them."""
    for line in STATED.read_text().splitlines():
        name, verdict, first, second = line.split()
        if (DAMAGED / name).is_file():
            file = (DAMAGED / name).read_bytes()
            stated = f'refused {first} {second}\n'.encode() if verdict == 'refused' else None
            yield Case(f'damaged/{name}', file, b'segment 8\n', stated)


def refused_queries():
    yield refused('no such column', TEN_ROWS, query(8, [(0, b'<', 1), (2, b'=', 9)]), 12, 1)
    yield refused('no such column, by far', TEN_ROWS, query(8, [(4294967295, b'=', 4294967295)]), 12)
    yield refused('a literal of 2^3', TEN_ROWS, query(8, [(0, b'<', 1), (1, b'<', 7), (1, b'<', 8)]), 13, 2)
    yield refused('a literal of 2^11', TEN_ROWS, query(8, [(0, b'!=', 2048)]), 13)
    yield refused('17 tests', TEN_ROWS, query(8, [(0, b'<', 1)] * 17), 11)
    yield refused('17 tests, the last malformed', TEN_ROWS, query(8, [(0, b'<', 1)] * 16) + b'0 <1\n', 17, 17)
    for size in (0, 1, 7, 9, 24, 63, 65, 128, 4294967295):
        yield refused(f'segment {size}', TEN_ROWS, query(size, [(9, b'<', 1)]), 14)


def malformed():
    for text in (b'', b'\n', b'segment 8', b'segment\n', b'segments 8\n', b'Segment 8\n', b' segment 8\n', b'segment  8\n',
                 b'segment 08\n', b'segment 8 \n', b'segment 8\r\n', b'segment +8\n', b'segment 4294967296\n', b'0 < 5\n'):
        yield refused(f'the text {text!r}', TEN_ROWS, text, 17)
    for line in (b'\n', b'\x00', b'0 < 5', b'0<5\n', b'0 < 5 \n', b'0  < 5\n', b'0 == 5\n', b'0 <> 5\n', b'0 < 05\n', b'0 < -1\n',
                 b'0 < \n', b'a < 5\n', b'0 < 5\r\n', b'0 < 4294967296\n', b'4294967296 < 0\n', b'segment 8\n'):
        yield refused(f'the line {line!r}', TEN_ROWS, query(8, [(0, b'<', 1)]) + line, 17, 2)
    yield refused('two malformed lines', TEN_ROWS, query(8, [(0, b'<', 1)] * 3) + b'0 <\n0\n', 17, 4)


def order():
    """What is refused first where two things are wrong."""
    bad_text, bad_query = b'segment x\n', query(9, [(0, b'<', 1)] * 17)
    yield refused('a missing file and a malformed text', MISSING, bad_text, 18)
    yield refused('a text too long and a damaged file', b'', text_of(4097), 18)
    yield refused('a damaged file and a malformed text', b'', bad_text, 17)
    yield refused('a damaged file, 17 tests and segment 9', b'', bad_query, 11)
    yield refused('a damaged file and segment 9', b'', query(9), 1)
    yield refused('segment 9 and no such column', TEN_ROWS, query(9, [(2, b'<', 1)]), 14)
    yield refused('no such column and a literal too large', TEN_ROWS, query(8, [(2, b'<', 1), (0, b'<', 2048)]), 12)
    yield refused('a literal too large and no such column', TEN_ROWS, query(8, [(0, b'<', 2048), (2, b'<', 1)]), 13)


def unreadable():
    yield refused('no file', MISSING, SETTLED, 18)
    yield refused('a folder in place of the file', FOLDER, SETTLED, 18)
    yield refused('standard input closed', TEN_ROWS, CLOSED, 18)
    yield refused('standard input a folder', TEN_ROWS, FOLDER, 18)
    yield refused('no file and no standard input', MISSING, CLOSED, 18)


def listed_in(size):
    """A register of which all rows are listed in so many bytes."""
    rows = size // 16
    digits = size - len(f'rows {rows} matches {rows}\n') - sum(len(f'row {row}: \n') for row in range(rows))
    each, more = divmod(digits, rows)
    return good(rows, [(32, [10 ** (each if row < more else each - 1) for row in range(rows)])])


def sizes():
    """Files and texts at the limits of what is taken, and listings at the edge of what is printed at a time."""
    for size in (65535, 65536):
        file = good(size - 24, [(8, [row % 251 for row in range(size - 24)])])
        yield Case(f'a file of {size} bytes', file, query(64, [(0, b'=', 250)]))
    yield refused('a file of 65,537 bytes', good(65513, [(8, [0] * 65513)]), query(64, [(0, b'=', 250)]), 18)
    yield refused('a file of 200,000 bytes', bytes(200000), query(8), 18)
    for size in (4095, 4096):
        yield refused(f'a text of {size} bytes, too many tests', TEN_ROWS, text_of(size), 11)
        yield refused(f'a text of {size} bytes, one line', TEN_ROWS, b'segment 8' + b' ' * (size - 10) + b'\n', 17)
    yield refused('a text of 4,096 bytes, the last line cut off', TEN_ROWS, text_of(4097)[:4096], 17, text_of(4097).count(b'\n') - 1)
    yield refused('a text of 4,097 bytes', TEN_ROWS, text_of(4097), 18)
    yield refused('a text of 4,097 bytes in parts', TEN_ROWS, Slow([text_of(4097)[:4096], b'\n']), 18)
    yield refused('a text of 100,000 bytes', TEN_ROWS, b'0' * 100000, 18)
    for size in (65535, 65536, 65537, 131072):
        yield Case(f'a listing of {size} bytes', listed_in(size), query(8))


def shapes():
    """Registers at the edges: no rows, no tests, every row, the most columns, the greatest width."""
    for widths in ([11], [11, 3]):
        empty = good(0, [(width, []) for width in widths])
        yield Case(f'no rows, {len(widths)} columns', empty, query(8, [(0, b'<', 512)]), b'rows 0 matches 0\ntest 0 read 0 of 0\n')
        yield Case(f'no rows, {len(widths)} columns, no tests', empty, query(64), b'rows 0 matches 0\n')
    yield Case('no tests', TEN_ROWS, query(16))
    yield Case('the largest listing', good(65512, [(8, [255] * 65512)]), query(64))
    yield Case('the largest listing, by 16 tests', good(65512, [(8, [255] * 65512)]), query(64, [(0, b'>=', 255)] * 16))
    yield Case('32 columns, no tests', MANY_COLUMNS, query(8))
    yield Case('32 columns, the last 16', MANY_COLUMNS, query(8, [(column, b'>', 1) for column in range(16, 32)]))
    wide = good(2038, [(8, [(row * 7 + column) % 256 for row in range(2038)]) for column in range(32)])
    yield Case('32 columns, every row', wide, query(32, [(31, b'!=', 0), (0, b'>=', 0)]))
    greatest = good(5, [(32, [0, 1, 2147483648, 4294967294, 4294967295])])
    for sign in SIGNS:
        for literal in (0, 2147483648, 4294967295):
            yield Case(f'width 32, {sign.decode()} {literal}', greatest, query(8, [(0, sign, literal)]))


def chance():
    """Registers and queries by chance, with the pads as they fall."""
    draw = random.Random(1)
    for number in range(100):
        rows, widths = draw.randrange(150), [draw.randrange(1, 33) for _ in range(draw.randrange(1, 9))]
        slices = [(width + 7) // 8 for width in widths]
        body = bytes(draw.choice([0, 1, 127, 128, 255, draw.randrange(256)]) for _ in range(rows * sum(slices)))
        directory = b''.join(entry(width, rows * sum(slices[:column])) for column, width in enumerate(widths))
        file = body + directory + trailer(rows, len(widths), len(body))
        tests = [by_chance(draw, widths) for _ in range(draw.choice([0, 1, 2, 3, 16]))]
        yield Case(f'chance {number}', file, query(draw.choice([8, 16, 32, 64]), tests))


def by_chance(draw, widths):
    column = draw.randrange(len(widths))
    most = 2 ** widths[column] - 1
    return column, draw.choice(SIGNS), draw.choice([0, most, most // 2, draw.randrange(most + 1)])


def cases():
    groups = (settled, examples, damaged, refused_queries, malformed, order, unreadable, sizes, shapes, chance)
    return (case for group in groups for case in group())
