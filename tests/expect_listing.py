#!/usr/bin/env python3
"""Prints what the program `list_parts` must print of a file and a query's text, by the printed rules, row by row.

It knows nothing of the product's code: the text is read by expect_texts, the codes come from expect_opening, the rows that are met and the counts
from expect_scans. Refused are, in this order: a file that is not read or has more than 65,536 bytes (18), a text that is not
read or has more than 4,096 (18), a malformed text (17), more than 16 tests (11), a file that does not open (1 to 7), a
segment size (14), and each test in turn by its column (12) and its literal (13).
usage: expect_listing.py FILE < TEXT
"""
import sys

import usage
from expect_opening import opened
from expect_scans import counts, judged
from expect_texts import asked
from requested import Refused

MOST_FILE, MOST_TEXT = 65536, 4096


def lines_of(file, text):
    if file is None or len(file) > MOST_FILE or text is None or len(text) > MOST_TEXT:
        raise Refused(18)
    size, tests = asked(text)
    widths, rows = opened(file)
    found = [row for row, met in enumerate(judged(rows, widths, size, tests)) if met]
    yield f'rows {len(rows)} matches {len(found)}'
    for place, count in enumerate(counts(rows, widths, size, tests)):
        yield f'test {place} read {count} of {len(rows) * ((widths[tests[place][0]] + 7) // 8)}'
    for row in found:
        yield f'row {row}: ' + ' '.join(map(str, rows[row]))


def listing(file, text):
    """What is printed of a file and a text; None stands for one that cannot be read."""
    try:
        lines = list(lines_of(file, text))
    except Refused as refusal:
        lines = ['refused {} {}'.format(*refusal.args[:2])]
    return ''.join(line + '\n' for line in lines).encode()


def main():
    register, = usage.words('REGISTER')
    with open(register, 'rb') as file:
        sys.stdout.buffer.write(listing(file.read(), sys.stdin.buffer.read()))


if __name__ == '__main__':
    main()
