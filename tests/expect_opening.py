"""Files that are opened and measured, and what must be answered, by the printed rules.

The stored files of tests/damaged are named for what is wrong with them. What opening each answers stands in tests/damaged.answers as well, which is
written by hand and not by a script: a number and a place, or rows and columns. Of the register of ten rows all is asked that its directory says.
"""
from make_damaged import DAMAGED, MANY_COLUMNS, MARK, STATED, TEN_ROWS
from requested import Refused, call, fitted, numbers

MOST_ROWS, MOST_COLUMNS = 1048576, 32


def little(part):
    return int.from_bytes(part, 'little')


def widths_of(directory, rows):
    """The width of each column, and the bytes of all slices."""
    widths, before = [], 0
    for column in range(len(directory) // 8):
        entry = directory[8 * column:8 * column + 8]
        width = entry[0]
        if not 1 <= width <= 32 or any(entry[1:4]) or little(entry[4:]) != before:
            raise Refused(6, column)
        widths.append(width)
        before += rows * ((width + 7) // 8)
    return widths, before


def opened(file):
    """The widths of a file's columns, and the codes of its rows."""
    if len(file) < 16 or file[-4:] != MARK:
        raise Refused(1)
    trailer = file[-16:]
    rows, columns, version, offset = little(trailer[:4]), little(trailer[4:6]), little(trailer[6:8]), little(trailer[8:12])
    if version != 1:
        raise Refused(2)
    if rows > MOST_ROWS:
        raise Refused(3)
    if not 1 <= columns <= MOST_COLUMNS:
        raise Refused(4)
    if offset != len(file) - 16 - 8 * columns:
        raise Refused(5)
    widths, body = widths_of(file[offset:-16], rows)
    if body != offset:
        raise Refused(7)
    return widths, codes_of(file, rows, widths)


def codes_of(file, rows, widths):
    """The codes of each row: the bytes of its slices joined, without the pad."""
    at, columns = 0, []
    for width in widths:
        size = (width + 7) // 8
        slices = [file[at + rows * j:at + rows * (j + 1)] for j in range(size)]
        columns.append([int.from_bytes(stored, 'big') >> (8 * size - width) for stored in zip(*slices)])
        at += rows * size
    return list(zip(*columns))


def open_call(case, file, stated=None):
    def reply():
        widths, rows = opened(file)
        return [len(rows), len(widths)], []
    made = call('open', 2, case, [numbers('file', file)], reply)
    if stated is not None and made.answer != f'open {case}: ' + ' '.join(map(str, stated)):
        raise SystemExit(f'{case}: tests/damaged.answers states {stated}, and by the rules it is {made.answer}')
    return made


def widths_call(case, file, elements, lent):
    def reply():
        widths, _ = opened(file)
        return [len(widths)], fitted(widths, lent)
    return call('widths', 1, case, [numbers('file', file)], reply, (elements, lent))


def lookup_call(case, file, column, rows, elements, lent):
    def reply():
        widths, codes = opened(file)
        if column >= len(widths):
            raise Refused(12)
        for place, row in enumerate(rows):
            if row >= len(codes):
                raise Refused(15, place)
        return [len(rows)], fitted([codes[row][column] for row in rows], lent)
    return call('lookup', 1, case, [numbers('file', file), f'column {column}', numbers('rows', rows)], reply, (elements, lent))


def stored():
    """Each stored file with its name and what is stated of it. Where 18 is stated it is the listing program that takes no file so large."""
    for line in STATED.read_text().splitlines():
        name, verdict, first, second = line.split()
        if (DAMAGED / name).is_file():
            stated = [int(first), int(second), 0, 0, 0] if verdict == 'refused' else [0, 0, 0, int(first), int(second)]
            yield name, (DAMAGED / name).read_bytes(), None if first == '18' else stated


def calls():
    for name, file, stated in stored():
        yield open_call(name, file, stated)
        yield widths_call(name, file, 33, 32)
    yield open_call('the register of ten rows', TEN_ROWS, [0, 0, 0, 10, 2])
    for room in range(4):
        yield widths_call(f'the register of ten rows, room for {room}', TEN_ROWS, 4, room)
    for column in range(3):
        yield lookup_call(f'the register of ten rows, column {column}', TEN_ROWS, column, range(10), 11, 10)
    yield widths_call('32 columns, room for 31', MANY_COLUMNS, 33, 31)
