#!/usr/bin/env python3
"""Makes the stored files that are opened by the calls of tests/calls and by the program `list_parts`: the same bytes at every run.

Writes each file of tests/damaged, and parts.bsl of the program. A file is named for what is wrong with it and
is good in every other way, so that only that fault can refuse it. Where that cannot be, a note beside it says what else
is wrong. What each must answer stands in tests/damaged.answers, which is written by hand and not by this script.
"""
from pathlib import Path

import usage

TOP = Path(__file__).resolve().parent.parent
DAMAGED = TOP / 'tests' / 'damaged'
STATED = TOP / 'tests' / 'damaged.answers'
PARTS = TOP / 'crates' / 'list_parts' / 'data' / 'parts.bsl'

MARK = bytes([0x42, 0x53, 0x4C, 0x31])


def little(number: int, size: int) -> bytes:
    return number.to_bytes(size, 'little')


def slices(width: int) -> int:
    return (width + 7) // 8


def column_bytes(width: int, codes: list[int]) -> bytes:
    """The slices of a column: the first byte of every row, then the second, and so on; pads 0."""
    size = slices(width)
    stored = [(code << (8 * size - width)).to_bytes(size, 'big') for code in codes]
    return bytes(row[at] for at in range(size) for row in stored)


def entry(width: int, offset: int, spare: bytes = bytes(3)) -> bytes:
    return little(width, 1) + spare + little(offset, 4)


def trailer(rows: int, columns: int, directory: int, version: int = 1, mark: bytes = MARK) -> bytes:
    return little(rows, 4) + little(columns, 2) + little(version, 2) + little(directory, 4) + mark


def good(rows: int, columns: list[tuple[int, list[int]]]) -> bytes:
    """A whole file from the width and the codes of each column."""
    body, directory = b'', b''
    for width, codes in columns:
        directory += entry(width, len(body))
        body += column_bytes(width, codes)
    return body + directory + trailer(rows, len(columns), len(body))


def changed(file: bytes, at: int, new: bytes) -> bytes:
    """The file with bytes put over its own; a place below 0 counts from the end."""
    at %= len(file)
    return file[:at] + new + file[at + len(new):]


TWO_ROWS = good(2, [(11, [5, 1024])])
BODY, ENTRY, TRAILER = TWO_ROWS[:4], TWO_ROWS[4:12], TWO_ROWS[12:]
TEN_ROWS = good(10, [(11, [100, 511, 512, 513, 2047, 0, 600, 300, 520, 515]), (3, [5, 4, 4, 1, 5, 5, 0, 5, 5, 5])])
FIRST_ENTRY, SECOND_ENTRY = 30, 38  # where the two entries of TEN_ROWS start
THREE_COLUMNS = good(2, [(8, [1, 2]), (9, [3, 4]), (10, [5, 6])])
MANY_COLUMNS = good(3, [(width, [0, 1, 2 ** width - 1]) for width in range(1, 33)])


def opening() -> dict[str, bytes]:
    return {
        'settled_two_rows': TWO_ROWS,
        'settled_ten_rows': TEN_ROWS,
        'no_rows': good(0, [(11, [])]),
        'widest_column': good(2, [(32, [0, 2 ** 32 - 1])]),
        'thirty_two_columns': MANY_COLUMNS,
        'dirty_pads': bytes([0x00, 0x80, 0xBF, 0x1F]) + ENTRY + TRAILER,
    }


def too_short_or_unmarked() -> dict[str, bytes]:
    names = ['first', 'second', 'third', 'fourth']
    wrong = {f'{name}_byte_of_mark_wrong': changed(TWO_ROWS, at - 4, bytes([MARK[at] ^ 1])) for at, name in enumerate(names)}
    return {
        'empty': b'',
        'fifteen_bytes': TRAILER[1:],  # the mark is there
        'settled_without_last_byte': TWO_ROWS[:-1],
        **wrong,
    }


def other_versions() -> dict[str, bytes]:
    return {f'version_{version}': BODY + ENTRY + trailer(2, 1, 4, version=version) for version in (0, 2, 257)}


def many_rows() -> dict[str, bytes]:
    # So many rows have more bytes than a program takes, so their slices are missing too.
    return {
        'rows_1048577': BODY + ENTRY + trailer(1048577, 1, 4),
        'rows_4294967295': BODY + ENTRY + trailer(4294967295, 1, 4),
        'rows_1048576_without_body': entry(11, 0) + trailer(1048576, 1, 0),
    }


def no_or_many_columns() -> dict[str, bytes]:
    return {
        'columns_0': trailer(2, 0, 0),
        'columns_33': good(2, [(8, [column, column]) for column in range(33)]),
        'columns_65535': BODY + ENTRY + trailer(2, 65535, 4),  # the directory is not of this size
    }


def misplaced_directories() -> dict[str, bytes]:
    long = good(256, [(8, list(range(256)))])
    return {
        'byte_in_front': b'\x00' + TWO_ROWS,
        # a byte stands between directory and trailer
        'directory_one_early': BODY + ENTRY + b'\x00' + TRAILER,
        # the last byte of the directory, 0, is also the first of the trailer, which holds 256 rows
        'directory_one_late': long[:-17] + long[-16:],
        # the same with no rows, so that it would have to start one byte before the file
        'directory_one_before_file': entry(11, 0)[:7] + trailer(0, 1, 0),
        # 32 columns would have it start 244 bytes before the file
        'directory_beyond_file': BODY + ENTRY + trailer(2, 32, 4),
        # 28 - 16 - 8 x 32, as a number of 32 bits
        'directory_wraps': BODY + ENTRY + trailer(2, 32, 2 ** 32 - 244),
        # a trailer has no room for the entry that it counts
        'sixteen_bytes': TRAILER,
    }


def unfit_columns() -> dict[str, bytes]:
    def width(number: int) -> bytes:
        size = 2 * slices(number)
        return bytes(size) + entry(number, 0) + trailer(2, 1, size)

    unfit_second = TEN_ROWS[:20] + bytes(50) + TEN_ROWS[FIRST_ENTRY:SECOND_ENTRY] + entry(33, 20) + trailer(10, 2, 70)
    two_spares = changed(changed(THREE_COLUMNS, -16 - 16 + 1, b'\x01'), -16 - 8 + 1, b'\x01')
    return {
        'width_0': width(0),
        'width_33': width(33),
        'width_255': width(255),
        'first_spare_byte_not_0': BODY + entry(11, 0, b'\x01\x00\x00') + TRAILER,
        'second_spare_byte_not_0': BODY + entry(11, 0, b'\x00\x01\x00') + TRAILER,
        'third_spare_byte_not_0': BODY + entry(11, 0, b'\x00\x00\x80') + TRAILER,
        'offset_one_late': changed(TEN_ROWS, SECOND_ENTRY, entry(3, 21)),
        'offset_one_early': changed(TEN_ROWS, SECOND_ENTRY, entry(3, 19)),
        'offset_of_next_column': changed(TEN_ROWS, FIRST_ENTRY, entry(11, 20)),
        'second_column_unfit': unfit_second,
        'two_columns_unfit': two_spares,
        'last_of_32_unfit': changed(MANY_COLUMNS, -16 - 8 + 1, b'\x01'),
    }


def wrong_bodies() -> dict[str, bytes]:
    return {
        'body_one_byte_more': BODY + b'\x00' + ENTRY + trailer(2, 1, 5),
        'body_one_byte_less': BODY[:3] + ENTRY + trailer(2, 1, 3),
    }


def two_faults() -> dict[str, bytes]:
    return {
        'mark_and_version_wrong': BODY + ENTRY + trailer(2, 1, 4, version=2, mark=b'BSL2'),
        'version_2_and_rows_1048577': BODY + ENTRY + trailer(1048577, 1, 4, version=2),
        'rows_1048577_and_columns_0': trailer(1048577, 0, 0),
        'columns_0_and_directory_one_early': b'\x00' + trailer(2, 0, 0),
        'byte_in_front_and_width_0': b'\x00' + BODY + entry(0, 0) + TRAILER,
        'width_0_and_body_too_long': BODY + entry(0, 0) + TRAILER,
    }


def large_files() -> dict[str, bytes]:
    return {f'file_of_{size}_bytes': good(size - 24, [(8, [0] * (size - 24))]) for size in (65536, 65537)}


def main() -> None:
    usage.words()
    groups = [opening(), too_short_or_unmarked(), other_versions(), many_rows(), no_or_many_columns(),
              misplaced_directories(), unfit_columns(), wrong_bodies(), two_faults(), large_files()]
    DAMAGED.mkdir(parents=True, exist_ok=True)
    for group in groups:
        for name, file in group.items():
            (DAMAGED / name).write_bytes(file)
    PARTS.parent.mkdir(parents=True, exist_ok=True)
    PARTS.write_bytes(TEN_ROWS)


if __name__ == '__main__':
    main()
