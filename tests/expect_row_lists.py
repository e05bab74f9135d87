"""Bits whose rows are listed, and what must be answered, bit by bit, by the printed rules.

It knows nothing of the product's code. A row is listed when its bit is set: bit row % 8, of value 2 to that power, of byte row / 8.
Refused are, in this order: more rows than 1,048,576 (3); bytes that are not rows / 8 rounded up, or a bit set past the last row (16); an
output with too few elements (10, with the number of rows to list as its need). A refused call changes nothing.
"""
from requested import Refused, call, fitted, numbers

MOST = 1048576


def is_set(bits, row):
    return bits[row // 8] // 2 ** (row % 8) % 2 == 1


def listed(rows, bits):
    if rows > MOST:
        raise Refused(3)
    if len(bits) != (rows + 7) // 8 or any(is_set(bits, row) for row in range(rows, 8 * len(bits))):
        raise Refused(16)
    return [row for row in range(rows) if is_set(bits, row)]


def show(case, rows, bits, lent, elements=12):
    def reply():
        front = fitted(listed(rows, bits), lent)
        return [len(front)], front
    return call('list', 1, case, [f'rows {rows}', numbers('bits', bits)], reply, (elements, lent))


def every_byte():
    """Eight rows, and every byte there is; then every number of rows up to two bytes, and every last byte."""
    for byte in range(256):
        yield show(f'byte {byte}', 8, [byte], 9, 9)
    for rows in range(17):
        for byte in range(256):
            bits = [[], [byte], [165, byte]][(rows + 7) // 8]
            yield show(f'rows {rows}, last byte {byte}', rows, bits, 18, 18)


def refused():
    yield show('a byte short', 10, [0xA1], 12)
    yield show('a byte long', 10, [0xA1, 0, 0], 12)
    yield show('a bit past the last row', 10, [0xFF, 0x07], 12)
    yield show('no rows and a byte', 0, [0xA1], 12)
    yield show('1048577 rows', 1048577, [0xA1], 12)
    yield show('2^64 - 1 rows, no output', 2 ** 64 - 1, [0xA1], 0)
    yield show('an output one short', 10, [0xFF, 0x03], 9)
    yield show('no output', 8, [0xA1], 0)
    yield show('a bit past the last row, no output', 10, [0xFF, 0x07], 0)


def accepted():
    """What is accepted at the edge of a refusal."""
    yield show('no rows', 0, [], 12)
    yield show('no rows, no output', 0, [], 0)
    yield show('no row set, no output', 10, [0, 0], 0)
    yield show('rows 0, 5 and 7', 10, [0xA1, 0], 12)
    yield show('an output of just the rows', 10, [0xFF, 0x03], 10)


def largest():
    """As many rows as there may be, every bit set: an output one element short, which is not changed, and one that is an element longer."""
    yield show('the largest, one short', MOST, [255] * (MOST // 8), MOST - 1, MOST + 1)
    yield show('the largest', MOST, [255] * (MOST // 8), MOST + 1, MOST + 1)


def calls():
    for group in (every_byte, refused, accepted, largest):
        yield from group()
