"""Registers that are scanned, and what must be answered, from the codes alone: row by row, with the counts by the printed rule.

It knows nothing of the product's code. The rows found are those whose codes meet every test. A slice of a segment counts for a
test while some row of the segment is equal by the bytes before it on that test and not ruled out by any test by those bytes. A text is
refused first, then a file, and then the query.
"""
import operator

from expect_opening import opened
from expect_texts import asked
from make_damaged import good
from requested import Refused, call, fitted, numbers

MEETS = {'<': operator.lt, '<=': operator.le, '>': operator.gt, '>=': operator.ge, '=': operator.eq, '!=': operator.ne}
OUT = {'<': 'g', '<=': 'g', '>': 'l', '>=': 'l', '=': 'lg', '!=': ''}
TEN = [(100, 5), (511, 4), (512, 4), (513, 1), (2047, 5), (0, 5), (600, 0), (300, 5), (520, 5), (515, 5)]
DIRTY_PADS = bytes([0x00, 0x80, 0xBF, 0x1F]) + good(2, [(11, [5, 1024])])[4:]  # codes 5 and 1024, and every pad bit set


def cut(width, code):
    size = (width + 7) // 8
    return (code << (8 * size - width)).to_bytes(size, 'big')


def standing(width, code, literal, taken):
    ours, theirs = cut(width, code)[:taken], cut(width, literal)[:taken]
    return 'e' if ours == theirs else 'l' if ours < theirs else 'g'


def counts(rows, widths, size, tests):
    found = [0] * len(tests)
    for first in range(0, len(rows), size):
        segment = rows[first:first + size]
        for taken in range(4):
            kept = [row for row in segment
                    if not any(standing(widths[c], row[c], lit, taken) in OUT[sign] for c, sign, lit in tests)]
            for number, (c, sign, lit) in enumerate(tests):
                if taken < (widths[c] + 7) // 8 and any(standing(widths[c], row[c], lit, taken) == 'e' for row in kept):
                    found[number] += len(segment)
    return found


def judged(rows, widths, size, tests):
    if size not in (8, 16, 32, 64):
        raise Refused(14)
    for place, (column, _, literal) in enumerate(tests):
        if column >= len(widths):
            raise Refused(12, place)
        if literal >= 2 ** widths[column]:
            raise Refused(13, place)
    return [all(MEETS[sign](row[column], literal) for column, sign, literal in tests) for row in rows]


def packed(met):
    return [sum(1 << k for k, so in enumerate(met[first:first + 8]) if so) for first in range(0, len(met), 8)]


def text_of(size, tests):
    return b''.join([b'segment %d\n' % size] + [b'%d %s %d\n' % (column, sign.encode(), literal) for column, sign, literal in tests])


def scan_call(case, file, size, tests, elements=10, lent=None):
    text = text_of(size, tests)

    def reply():
        size, tests = asked(text)
        widths, rows = opened(file)
        met = judged(rows, widths, size, tests)
        slots = counts(rows, widths, size, tests)
        return [sum(met), sum(slots)] + slots + [0] * (16 - len(slots)), fitted(packed(met), lent)
    return call('scan', 18, case, [numbers('file', file), numbers('text', text)], reply, (elements, lent))


def show(case, rows, widths, size, tests, lent=None):
    """A register that is scanned into just the bytes of its rows, where no other room is asked for."""
    columns = [[row[column] for row in rows] for column in range(len(widths))]
    lent = (len(rows) + 7) // 8 if lent is None else lent
    return scan_call(case, good(len(rows), list(zip(widths, columns))), size, tests, lent=lent)


def ten_rows():
    widths, below, five = [11, 3], (0, '<', 512), (1, '=', 5)
    yield show('both tests, 8', TEN, widths, 8, [below, five])
    yield show('exchanged, 8', TEN, widths, 8, [five, below])
    for size in (16, 32, 64):
        yield show(f'both tests, {size}', TEN, widths, size, [below, five])
    yield show('first alone, 8', TEN, widths, 8, [below])
    yield show('second alone, 8', TEN, widths, 8, [five])
    yield show('no tests, 8', TEN, widths, 8, [])
    yield show('no rows, 8', [], widths, 8, [below, five])
    for literal in (4, 5):
        for sign in MEETS:
            yield show(f'rows ruled out by {sign} {literal}, 8', TEN, widths, 8, [below, (1, sign, literal)])


def edges():
    """Every comparison, with literals at the edges of a byte and of a column."""
    byte = [0, 1, 126, 127, 128, 129, 254, 255]
    word = [0, 1, 4294967295, 4294967294, 2147483647, 2147483648, 16777215, 16777216]
    odd, bit = [0, 255, 256, 257, 511, 512, 1023, 1024], [0, 1, 1, 0, 1, 0, 0, 1]
    for width, codes, literals in ((8, byte, (127, 128, 0, 255)), (32, word, (2147483648, 4294967295)), (11, odd, (256, 1024)), (1, bit, (1,))):
        for literal in literals:
            for sign in MEETS:
                yield show(f'width {width}, {sign} {literal}', [(code,) for code in codes], [width], 8, [(0, sign, literal)])
    for sign, literal in (('=', 5), ('<=', 5), ('>', 5), ('=', 1024), ('!=', 1024)):
        yield scan_call(f'dirty pads, {sign} {literal}', DIRTY_PADS, 8, [(0, sign, literal)], lent=1)


def short_segments():
    """Last segments of every length."""
    for rows in range(1, 71):
        codes = [(300 * row % 512,) for row in range(rows)]
        for size in (8, 16, 32, 64):
            yield show(f'short, {rows} rows, {size}', codes, [9], size, [(0, '>=', 100), (0, '<', 300)])


def refusals():
    widths, below, no_file = [11, 3], (0, '<', 512), bytes([1, 2, 3])
    yield show('16 tests', TEN, widths, 8, [below] * 16)
    yield show('17 tests', TEN, widths, 8, [below] * 17)
    yield show('a great count', TEN, widths, 8, [below] * 500)
    yield show('size 0', TEN, widths, 0, [below])
    yield show('size 7', TEN, widths, 7, [below])
    yield show('size 24', TEN, widths, 24, [below] * 16)
    yield show('size 24, 17 tests', TEN, widths, 24, [below] * 17)
    yield show('size 128', TEN, widths, 128, [below])
    yield show('column 2', TEN, widths, 8, [below, (2, '<', 8)])
    yield show('literal 2^3', TEN, widths, 8, [below, (1, '=', 8)])
    yield show('literal 2^11', TEN, widths, 8, [(0, '!=', 2048)])
    yield show('column and literal', TEN, widths, 8, [(2, '<', 9999), (1, '=', 8)])
    yield show('literal, then column', TEN, widths, 8, [(1, '>', 8), (5, '=', 1)])
    yield show('a byte short', TEN, widths, 8, [below], lent=1)
    yield show('no result', TEN, widths, 8, [below], lent=0)
    yield show('a byte more', TEN, widths, 8, [below], lent=3)
    yield scan_call('no file', no_file, 7, [below] * 16, lent=0)
    yield scan_call('no file, 17 tests', no_file, 7, [below] * 17, lent=0)


def calls():
    for group in (ten_rows, edges, short_segments, refusals):
        yield from group()
