"""Texts of queries that are read, and what must be answered, by the printed rules. Each name says what is to be seen in the text.

Line 0 is the word "segment" and a number, each further line a column, a comparison and a literal; one space between, a line feed after each line;
decimals below 2^32 without leading zeros. Refused are the first malformed line (17, with the line from 0 as its place; an empty text has no line 0)
and, where every line is well formed, more than 16 tests (11).
"""
from requested import SIGNS, Refused, call, numbers

GOOD = {
    'settled': b'segment 8\n0 < 512\n1 = 5\n',
    'no_tests': b'segment 64\n',
    'six_signs': b'segment 16\n0 < 1\n1 <= 2\n2 > 3\n3 >= 4\n4 = 5\n5 != 6\n',
    'same_test_twice': b'segment 8\n7 >= 70\n7 >= 70\n',
}

# Line 0 is the word, one space, a number and a line feed.
FIRST_LINES = {
    'empty': b'',
    'line_feed_alone': b'\n',
    'word_cut_short': b'segm',
    'word_alone': b'segment\n',
    'word_and_space': b'segment \n',
    'no_line_feed': b'segment 8',
    'double_space': b'segment  8\n',
    'leading_space': b' segment 8\n',
    'trailing_space': b'segment 8 \n',
    'tab': b'segment\t8\n',
    'another_word': b'segments 8\n',
    'capitals': b'SEGMENT 8\n',
    'carriage_return': b'segment 8\r\n',
    'nul_behind': b'segment 8\0\n',
    'nul_for_line_feed': b'segment 8\0',
    'test_first': b'0 < 512\nsegment 8\n',
}

# Any decimal below 2^32 is a size here. Nothing larger wraps into one.
SIZES = {
    'size_12': b'segment 12\n',
    'size_0': b'segment 0\n',
    'size_00': b'segment 00\n',
    'size_08': b'segment 08\n',
    'size_with_sign': b'segment +8\n',
    'size_in_hexadecimal': b'segment 0x8\n',
    'size_4294967295': b'segment 4294967295\n',
    'size_4294967296': b'segment 4294967296\n',
    'size_42949672950': b'segment 42949672950\n',
    'size_8_over_2_to_the_64': b'segment 18446744073709551624\n',
    'size_of_300_digits': b'segment ' + b'7' * 300 + b'\n',
    'size_of_300_zeros': b'segment ' + b'0' * 300 + b'8\n',
}

LINES = {
    'less': b'0 < 1\n',
    'at_most': b'0 <= 1\n',
    'equal_less': b'0 =< 1\n',
    'equal_twice': b'0 == 1\n',
    'less_more': b'0 <> 1\n',
    'differs_apart': b'0 ! = 1\n',
    'at_least_apart': b'0 > = 1\n',
    'exclamation_alone': b'0 ! 1\n',
    'no_sign': b'0 1\n',
    'no_space_before_sign': b'0< 1\n',
    'no_space_after_sign': b'0 <1\n',
    'no_space_after_long_sign': b'0 <=1\n',
    'line_feed_after_sign': b'0 <\n1\n',
    'greatest_numbers': b'4294967295 != 4294967295\n',
    'column_too_large': b'4294967296 = 1\n',
    'literal_too_large': b'0 = 4294967296\n',
    'zeros': b'0 = 0\n',
    'column_00': b'00 = 1\n',
    'literal_01': b'0 = 01\n',
    'letter_in_number': b'0 = 1a\n',
    'no_column': b'= 1\n',
    'no_literal': b'0 =\n',
    'literal_of_nothing': b'0 = \n',
    'empty_line': b'\n',
    'line_of_spaces': b'   \n',
    'line_leading_space': b' 0 < 1\n',
    'line_trailing_space': b'0 < 1 \n',
    'double_space_before_sign': b'0  < 1\n',
    'double_space_after_sign': b'0 <  1\n',
    'tab_in_line': b'0\t< 1\n',
    'carriage_return_in_line': b'0 < 1\r\n',
    'nul_in_line': b'0 < 1\0\n',
    'fourth_word': b'0 < 1 2\n',
    'line_without_line_feed': b'0 < 1',
}

# The first malformed line is reported, and every line is judged before the tests are counted.
PLACES = {
    'lines_1_and_5_bad': b'segment 8\nx\n0 < 1\n0 < 1\n0 < 1\ny\n',
    'line_5_bad': b'segment 8\n0 < 1\n0 < 1\n0 < 1\n0 < 1\ny\n',
    'lines_0_and_2_bad': b'segment\n0 < 1\nx\n',
    'line_2_cut_short': b'segment 8\n0 < 1\n2 >=',
    'sixteen_tests': b'segment 8\n' + b'0 < 9\n' * 16,
    'seventeen_tests': b'segment 8\n' + b'0 < 9\n' * 17,
    'seventeen_tests_and_line_20_bad': b'segment 8\n' + b'0 < 9\n' * 19 + b'0 <9\n',
    'seventeenth_without_line_feed': b'segment 8\n' + b'0 < 9\n' * 16 + b'0 < 9',
    'eighty_tests': b'segment 8\n' + b'0 < 9\n' * 80,
}


def decimal(word, line):
    digits = word.isascii() and word.isdigit()
    if not digits or str(int(word)) != word or int(word) >= 2 ** 32:
        raise Refused(17, line)
    return int(word)


def read_test(words, line):
    if len(words) != 3 or words[1] not in SIGNS:
        raise Refused(17, line)
    return decimal(words[0], line), words[1], decimal(words[2], line)


def asked(text):
    """The segment size and the tests of a query's text."""
    *lines, rest = text.decode('latin-1').split('\n')
    size, tests = None, []
    for place, words in enumerate(line.split(' ') for line in lines):
        if place > 0:
            tests.append(read_test(words, place))
        elif len(words) == 2 and words[0] == 'segment':
            size = decimal(words[1], 0)
        else:
            raise Refused(17, 0)
    if rest or size is None:
        raise Refused(17, len(lines))
    if len(tests) > 16:
        raise Refused(11)
    return size, tests


def read_call(case, text):
    def reply():
        size, tests = asked(text)
        slots = [n for column, sign, literal in tests for n in (column, SIGNS.index(sign), literal)]
        return [size, len(tests)] + slots + [0] * (48 - len(slots)), []
    return call('read', 50, case, [numbers('text', text)], reply)


def calls():
    after_size = {name: b'segment 8\n' + line for name, line in LINES.items()}
    for group in (GOOD, FIRST_LINES, SIZES, after_size, PLACES):
        for case, text in group.items():
            yield read_call(case, text)
