#!/usr/bin/env python3
"""All IEs of a message body, by the words of request K3 in document 02.

Reads lines on the standard input and prints an answer to each:

    B [rows=N] [zero=T,T,..] HEX
             HEX is the body: digit pairs of either case, at most 65,600, or `-` for none. N is the table's length; without
             it there is room for all. T,T,.. are the types that may have length zero, at most 256 of them, and none behind
             `zero=`; without it they are the repository's own. These numbers are decimal, at most 65,535, leading zeros or
             not. The two words come in either order, each once at most, and one space stands before each word:
             `0 COUNT TYPE:ENTERPRISE:PLACE:LENGTH ..`, or `ANSWER PLACE VALUE VALUE VALUE`
    other    `? 0 -`; a line of more than 132,202 bytes is such a line
"""

import re
import sys

TOP_BIT = 0x8000
NO_ENTERPRISE = 65_536  # "65,536 when there is none"
LONGEST_BODY = 65_535
OWN_LIST = frozenset((22, 41, 159))  # "the repository's own list"

LONGEST_LINE = 132_202
MOST_PAIRS = 65_600
MOST_TYPES = 256
HIGHEST_GIVEN = 65_535
DECIMAL = re.compile(rb"[0-9]+")
DIGITS = re.compile(rb"[0-9A-Fa-f]+")
OTHER = b"? 0 -\n"


class Refused(Exception):
    """Has the answer, the place of the guilty IE, and the answer's values."""


def number_at(body, place):
    return body[place] * 256 + body[place + 1]


def ie_at(body, place, zero_types):
    """The row of the IE that starts at a place, and where the IE ends."""
    left = len(body) - place
    if left < 4:
        raise Refused(1, place, 0, 4, left)  # "1 for a short header"
    raw_type, length = number_at(body, place), number_at(body, place + 2)
    if length == 0 and raw_type not in zero_types:
        raise Refused(11, place, 0, 0, 0)  # "11 for a zero length not listed"
    header, enterprise = 4, NO_ENTERPRISE
    if raw_type & TOP_BIT:
        if left < 6:
            raise Refused(1, place, 0, 6, left)  # "1 for a short vendor header"
        if length < 2:
            # "1 for a vendor length under 2": the Rust says 2 against the length field.
            raise Refused(1, place, 0, 2, length)
        header, enterprise = 6, number_at(body, place + 4)
    # The enterprise number is "counted in the length".
    whole = 4 + length
    if left < whole:
        raise Refused(1, place, 0, whole, left)  # "1 for a short payload"
    return (raw_type, enterprise, place + header, whole - header), place + whole


def all_ies(body, rows, zero_types):
    """What "reading one IE after another from the front gives"."""
    if len(body) > LONGEST_BODY:
        raise Refused(5, 0, len(body), 0, 0)
    table, place = [], 0
    while place < len(body):
        row, place = ie_at(body, place, zero_types)
        table.append(row)
    if rows is not None and len(table) > rows:
        raise Refused(8, 0, len(table), 0, 0)  # "8 last, with the rows needed"
    return table


def number(digits):
    """A decimal number that may be given; None for any other text."""
    if DECIMAL.fullmatch(digits) is None:
        return None
    digits = digits.lstrip(b"0") or b"0"
    if len(digits) > 5 or int(digits) > HIGHEST_GIVEN:
        return None
    return int(digits)


def types(entries):
    """A list of types; None for any other text."""
    if entries == b"":
        return frozenset()
    found = [number(entry) for entry in entries.split(b",")]
    if len(found) > MOST_TYPES or None in found:
        return None
    return frozenset(found)


def body_of(digits):
    """The bytes of digit pairs; None for any other text."""
    if digits == b"-":
        return b""
    if len(digits) % 2 != 0 or len(digits) > 2 * MOST_PAIRS or DIGITS.fullmatch(digits) is None:
        return None
    return bytes.fromhex(digits.decode())


def asked(line):
    """Body, table's length and list of a line; None for a line of any other form."""
    if len(line) > LONGEST_LINE:
        return None
    letter, *words = line.split(b" ")
    if letter != b"B" or not words:
        return None
    given = {}
    for word in words[:-1]:
        key, equals, value = word.partition(b"=")
        if key not in (b"rows", b"zero") or not equals or key in given:
            return None
        given[key] = number(value) if key == b"rows" else types(value)
    body = body_of(words[-1])
    if body is None or None in given.values():
        return None
    return body, given.get(b"rows"), given.get(b"zero", OWN_LIST)


def answer(line):
    question = asked(line)
    if question is None:
        return OTHER
    try:
        table = all_ies(*question)
    except Refused as refusal:
        return b"%d %d %d %d %d\n" % refusal.args
    return b"0 %d%s\n" % (len(table), b"".join([b" %d:%d:%d:%d" % row for row in table]))


def main():
    write = sys.stdout.buffer.write
    for line in sys.stdin.buffer:
        write(answer(line[:-1] if line.endswith(b"\n") else line))


if __name__ == "__main__":
    main()
