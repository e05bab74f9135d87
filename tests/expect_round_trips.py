"""Registers that are written, opened and looked up again, and what must be answered, by the printed rules.

The file of a register is made by make_damaged, column by column. Refused are, in this order: too many rows (3), no columns or too many (4), a width
that fits no column (6), codes that are not rows x columns (9), a code that is too large for its column (8), and an output that is too short (10).
"""
from expect_opening import lookup_call, open_call
from expect_scans import TEN
from make_damaged import TWO_ROWS, good
from requested import Refused, call, fitted, numbers


def file_of(rows, widths, codes):
    if rows > 1048576:
        raise Refused(3)
    if not 1 <= len(widths) <= 32:
        raise Refused(4)
    for column, width in enumerate(widths):
        if not 1 <= width <= 32:
            raise Refused(6, column)
    if len(codes) != rows * len(widths):
        raise Refused(9)
    for place, code in enumerate(codes):
        if code >= 2 ** widths[place % len(widths)]:
            raise Refused(8, place)
    return good(rows, [(width, codes[column::len(widths)]) for column, width in enumerate(widths)])


def write_call(case, rows, widths, codes, lent, elements=256):
    def reply():
        file = list(file_of(rows, widths, codes))
        return [len(file)], fitted(file, lent)
    return call('write', 1, case, [f'rows {rows}', numbers('widths', widths), numbers('codes', codes)], reply, (elements, lent))


def round_trip(case, rows, widths, codes):
    """The register is written and opened, and each code looked up twice in one list, with an element to spare."""
    file = file_of(rows, widths, codes)
    yield write_call(case, rows, widths, codes, 256)
    yield open_call(case, file)
    for place in range(len(codes)):
        row, column = divmod(place, len(widths))
        yield lookup_call(f'{case}, row {row}, column {column}', file, column, [row, row], 3, 3)


def refused_writing():
    widths, codes = [11, 3], [5, 1, 1024, 7]
    yield write_call('1048577 rows', 1048577, widths, codes, 60)
    yield write_call('no columns', 2, [], codes, 60)
    yield write_call('33 columns', 2, [8] * 33, codes, 60)
    yield write_call('a width of 0', 2, [11, 0], codes, 60)
    yield write_call('a width of 33, and one of 0', 2, [33, 0], codes, 60)
    yield write_call('a code too few', 2, widths, codes[:3], 60)
    yield write_call('a code too many', 1, widths, codes[:3], 60)
    yield write_call('a code of 2^3', 2, widths, [2047, 8, 2048, 7], 60)
    yield write_call('a code of 2^64 - 1, and one of 2^3', 2, widths, [2047, 7, 2 ** 64 - 1, 8], 60)
    yield write_call('a byte short', 2, widths, codes, 37)
    yield write_call('no output', 2, widths, codes, 0)
    yield write_call('nothing wrong', 2, widths, codes, 38)
    yield write_call('no rows', 0, widths, [], 32)


def refused_looking_up():
    """In a file of two rows and one column."""
    rows, past = [1, 0, 1], [1, 2, 3]
    yield lookup_call('any order, and repeated', TWO_ROWS, 0, rows, 4, 3)
    yield lookup_call('no rows asked', TWO_ROWS, 0, [], 4, 0)
    yield lookup_call('a column at the end', TWO_ROWS, 1, rows, 4, 3)
    yield lookup_call('a column past the end', TWO_ROWS, 2 ** 64 - 1, rows, 4, 3)
    yield lookup_call('a row at the end', TWO_ROWS, 0, past, 4, 3)
    yield lookup_call('an output one short', TWO_ROWS, 0, rows, 4, 2)
    yield lookup_call('a file without its last byte', TWO_ROWS[:27], 1, past, 4, 0)


def calls():
    yield from round_trip('ten rows', 10, [11, 3], [code for row in TEN for code in row])
    for width in range(1, 33):
        largest = 2 ** width - 1
        yield from round_trip(f'width {width}', 4, [width], [0, 1, largest // 2 + 1, largest])
    yield from refused_writing()
    yield from refused_looking_up()
