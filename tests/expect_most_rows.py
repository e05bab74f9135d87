#!/usr/bin/env python3
"""Prints what the program `try_most_rows` must print, from the codes alone: row by row, with the counts by the printed rule.

It knows nothing of the product's code. The rows found are those whose codes meet every test. A slice of a segment counts for a
test while some row of the segment is equal by the bytes before it on that test and not ruled out by any test by those bytes.
A row's standing depends on its code alone, so it is worked out once for each of the 4096 codes.
"""
import operator

import usage

MEETS = {'<': operator.lt, '>=': operator.ge, '!=': operator.ne}
OUT = {'<': 'g', '>=': 'l', '!=': ''}
ROWS, WIDTH, SLICES, PAD = 1048576, 12, 2, 4
NEED = ROWS // 8
FOUR = [('>=', 100), ('<', 1000), ('!=', 900), ('!=', 3000)]
CODES = [(row * 1103 + row // 7 * 331) % 5000 % 4096 for row in range(ROWS)]


def standing(code, literal, taken):
    ours, theirs = (number << PAD >> 8 * (SLICES - taken) for number in (code, literal))
    return 'e' if ours == theirs else 'l' if ours < theirs else 'g'


def kept_open(tests, code, taken):
    """The tests that a row of this code keeps open after so many slices."""
    if any(standing(code, literal, taken) in OUT[sign] for sign, literal in tests):
        return frozenset()
    return frozenset(number for number, (_, literal) in enumerate(tests) if standing(code, literal, taken) == 'e')


def counts(size, tests):
    found = [0] * 4
    for taken in range(SLICES):
        by_code = [kept_open(tests, code, taken) for code in range(1 << WIDTH)]
        for first in range(0, ROWS, size):
            segment = CODES[first:first + size]
            for number in frozenset().union(*(by_code[code] for code in segment)):
                found[number] += len(segment)
    return found


def rows_met(tests):
    return [all(MEETS[sign](code, literal) for sign, literal in tests) for code in CODES]


def packed(met):
    return [sum(1 << k for k in range(8) if met[first + k]) for first in range(0, len(met), 8)]


def digest(result):
    total = 0
    for byte in result:
        total = (total * 31 + byte) % 65521
    return total


def line(name, refusal, matches, slots, result):
    number, place, need = refusal
    words = ' '.join(map(str, slots))
    print(f'{name}: number {number} place {place} need {need} matches {matches} total {sum(slots)} counts {words}, '
          f'digest {digest(result)}, after it 77')


def show(name, size, tests):
    met = rows_met(tests)
    line(name, (0, 0, 0), sum(met), counts(size, tests), packed(met))


def refused(name, refusal):
    line(name, refusal, 0, [0] * 4, [77] * NEED)


def main():
    usage.words()
    for size in (8, 16, 32, 64):
        show(f'four tests, {size}', size, FOUR)
    show('a byte more, 64', 64, FOUR)
    refused('a byte short, 64', (10, 0, NEED))
    show('no tests, 8', 8, [])
    refused('17 tests, 8', (11, 0, 0))
    refused('a great count, 8', (11, 0, 0))
    refused('17 tests, 24', (14, 0, 0))
    refused('no file, 17 tests, 7', (1, 0, 0))
    refused('1048577 rows, 8', (3, 0, 0))


main()
