#!/usr/bin/env python3
"""The distance from one sequence number to another, by the words of request K1 in document 02.

Reads lines on the standard input and prints an answer to each:

    D A B    two decimal numbers of at most 4,294,967,295, leading zeros or not, one space before each:
             `0 DISTANCE`, or `10 0` where either is above 16,777,215
    other    `? 0 -`; a line of more than 131,202 bytes is such a line
"""

import re
import sys

TURN = 2**24  # "counted around 2 to the 24th"
LEAST, MOST = -8_388_608, 8_388_607  # "from -8,388,608 to 8,388,607"
HIGHEST = 16_777_215  # refusal 10 "when either number is above 16,777,215"

LONGEST_LINE = 131_202
HIGHEST_GIVEN = 4_294_967_295
PAIR = re.compile(rb"D ([0-9]+) ([0-9]+)")
OTHER = b"? 0 -\n"
REFUSED = b"10 0\n"


def distance(a, b):
    """Counted around, a number leads from a to b if a and that number make b, but for whole turns. From one number below
    2 to the 24th to another one turn back or forth is enough, and one number alone may lie in the range."""
    ways = (b - a - TURN, b - a, b - a + TURN)
    (way,) = [w for w in ways if LEAST <= w <= MOST]
    return way


def number(digits):
    """Decimal digits; None for a number above all that may be given."""
    digits = digits.lstrip(b"0") or b"0"
    if len(digits) > 10 or int(digits) > HIGHEST_GIVEN:
        return None
    return int(digits)


def answer(line):
    pair = PAIR.fullmatch(line) if len(line) <= LONGEST_LINE else None
    if pair is None:
        return OTHER
    a, b = number(pair[1]), number(pair[2])
    if a is None or b is None:
        return OTHER
    if a > HIGHEST or b > HIGHEST:
        return REFUSED
    there, back = distance(a, b), distance(b, a)
    # "Swapping the numbers negates it, except at half the circle, where both ways give -8,388,608."
    assert there == -back or there == back == LEAST, (a, b)
    return b"0 %d\n" % there


def main():
    write = sys.stdout.buffer.write
    for line in sys.stdin.buffer:
        write(answer(line[:-1] if line.endswith(b"\n") else line))


if __name__ == "__main__":
    main()
