"""Requests of the program `try_calls`, and what it must answer: a line each.

A request is the call's name, a space, the case's name, a colon, and the numbers that the call takes, with words between them for whoever reads
it: a slice is its length and its elements, an output how many elements it has and how many of them are lent. The answer is the request up to its
colon, the numbers of the reply and, where there is an output, a bar and every element of it. An element that no call touched holds 77.
"""
from typing import NamedTuple

UNTOUCHED = 77
SIGNS = ['<', '<=', '>', '>=', '=', '!=']


class Refused(Exception):
    """A number, a place and a need."""

    def __init__(self, number, place=0, need=0):
        super().__init__(number, place, need)


class Call(NamedTuple):
    request: str
    answer: str


def call(name, takes, case, words, reply, out=None):
    """`reply` answers the values and what stands at the front of the output, or raises a refusal; `takes` is how many values there are."""
    try:
        values, front = reply()
        numbers = [0, 0, 0] + values
    except Refused as refusal:
        numbers, front = list(refusal.args) + [0] * takes, []
    answer = ' '.join(map(str, numbers))
    request = f'{name} {case}: ' + ', '.join(words)
    if out is not None:
        elements, lent = out
        request += f', output {elements} lent {lent}'
        answer += ' |' + ''.join(f' {x}' for x in front + [UNTOUCHED] * (elements - len(front)))
    return Call(request, f'{name} {case}: {answer}')


def numbers(word, elements):
    return ' '.join(map(str, [word, len(elements), *elements]))


def fitted(front, room):
    """What an output of so many elements holds at its front."""
    if room < len(front):
        raise Refused(10, 0, len(front))
    return front
