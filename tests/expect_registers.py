#!/usr/bin/env python3
"""Writes what the programs `make_p6` and `make_recall` must print: the file of each example register, byte by byte.

It knows nothing of the product's code. The ten rows are the settled ones. A row of the other follows from its number: the
crystal lot, the board issue, the test bench and the site, of 12, 5, 4 and 3 bits.
"""
import usage
from make_damaged import TEN_ROWS, TOP, good


def recall_row(row):
    lot = 1700 + row // 40 - (row % 11 >= 9)
    issue = 3 + row // 800 - (row % 50 >= 48)
    bench = (row % 12 * 7 + row // 90) % 12
    site = (row // 16 + (row % 5 == 4)) % 6
    return lot, issue, bench, site


def recall():
    columns = zip((12, 5, 4, 3), map(list, zip(*map(recall_row, range(10000)))))
    return good(10000, list(columns))


def main():
    usage.words()
    (TOP / 'crates' / 'make_p6' / 'stdout').write_bytes(TEN_ROWS)
    (TOP / 'crates' / 'make_recall' / 'stdout').write_bytes(recall())


if __name__ == '__main__':
    main()
