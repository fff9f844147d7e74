#!/usr/bin/env python3
"""The strict verdict on a payload of each kind, by the words of document 01 and of request K4 in document 02.

Reads lines on the standard input and prints an answer to each:

    VU HEX   the strict verdict on a payload of UE IP Address, and alike with F, S, N, O and P for U. HEX is digit pairs of
             either case, at most 65,600, or `-` for the empty payload:
             `yes` or `no`
    other    `? 0 -`
"""

import re
import sys

LONGEST_PAYLOAD = 65_535

MOST_PAIRS = 65_600
LINE = re.compile(rb"V([UFSNOP]) (-|(?:[0-9A-Fa-f]{2})+)")
OTHER = b"? 0 -\n"


class Refused(Exception):
    """The reader refuses the payload; which number it answers has no part in the verdict."""


def behind(payload, place, width):
    """The place behind a field, which has to be there."""
    if len(payload) < place + width:
        raise Refused
    return place + width


def flags_of(payload, *names):
    """The flags of the first byte, by their bits from 0 on."""
    return {name: bool(payload[0] >> bit & 1) for bit, name in enumerate(names)}


def ue_ip_address(payload):
    place = behind(payload, 0, 1)
    has = flags_of(payload, "V6", "V4", "S/D", "IPv6D", "CHV4", "CHV6", "IP6PL")
    if has["V4"] and has["CHV4"] or has["V6"] and has["CHV6"]:
        raise Refused  # rule 1
    if has["IPv6D"] and has["IP6PL"]:
        raise Refused  # rule 2
    if (has["IPv6D"] or has["IP6PL"]) and not (has["V6"] or has["CHV6"]):
        raise Refused  # rule 3
    for name, width in (("V4", 4), ("V6", 16), ("IPv6D", 1), ("IP6PL", 1)):
        if has[name]:
            place = behind(payload, place, width)
    return True  # "yes exactly when the reader accepts"


def f_teid(payload):
    place = behind(payload, 0, 1)
    has = flags_of(payload, "V4", "V6", "CH", "CHID")
    if has["CH"]:
        if has["CHID"]:
            behind(payload, place, 1)
    else:
        if has["CHID"]:
            raise Refused  # rule 4
        place = behind(payload, 0, 5)
        for name, width in (("V4", 4), ("V6", 16)):
            if has[name]:
                place = behind(payload, place, width)
    return has["V4"] or has["V6"]  # "F-TEID and F-SEID also need V4 or V6"


def f_seid(payload):
    place = behind(payload, 0, 9)
    has = flags_of(payload, "V6", "V4")
    for name, width in (("V4", 4), ("V6", 16)):
        if has[name]:
            place = behind(payload, place, width)
    return has["V4"] or has["V6"]


def text(payload, start, end):
    try:
        payload[start:end].decode("utf-8")
    except UnicodeDecodeError:
        raise Refused from None


def node_id(payload):
    behind(payload, 0, 1)
    # "For Node ID the strict verdict shall clear the high four bits before it judges."
    kind = payload[0] & 0b0000_1111
    if kind == 0:
        behind(payload, 0, 5)
    elif kind == 1:
        behind(payload, 0, 17)
    elif kind == 2:
        text(payload, 1, len(payload))
    else:
        raise Refused
    return True


def outer_header_creation(payload):
    place = behind(payload, 0, 2)
    flags = payload[0]
    # TEID, IPv4, IPv6, port, C-TAG, S-TAG, each by the bits that ask for it
    for bits, width in (((0, 1), 4), ((0, 2, 4), 4), ((1, 3, 5), 16), ((2, 3), 2), ((6,), 3), ((7,), 3)):
        if any(flags >> bit & 1 for bit in bits):
            place = behind(payload, place, width)
    return True


def text_field(payload, place):
    """The place behind a text; None where fewer than two bytes are left, so that the field is absent."""
    if len(payload) - place < 2:
        return None
    start = place + 2
    end = behind(payload, start, payload[place] * 256 + payload[place + 1])
    text(payload, start, end)
    return end


def pfd_contents(payload):
    place = behind(payload, 0, 2)
    flagged = [bit for bit in range(8) if payload[0] >> bit & 1]
    complete = True
    for bit in flagged:
        end = text_field(payload, place)
        # "each flagged field present and each flagged list non-empty"
        complete = complete and end is not None
        # "A flagged list takes fields while two bytes are left, but only one if a later list is flagged too."
        takes_all = bit >= 5 and bit == flagged[-1]
        while end is not None:
            place = end
            end = text_field(payload, place) if takes_all else None
    return complete


KINDS = {
    b"U": ue_ip_address,
    b"F": f_teid,
    b"S": f_seid,
    b"N": node_id,
    b"O": outer_header_creation,
    b"P": pfd_contents,
}


def is_strict(judge, payload):
    if len(payload) > LONGEST_PAYLOAD:
        return False
    try:
        return judge(payload)
    except Refused:
        return False  # "No if the reader refuses."


def answer(line):
    asked = LINE.fullmatch(line)
    if asked is None or len(asked[2]) > 2 * MOST_PAIRS:
        return OTHER
    payload = b"" if asked[2] == b"-" else bytes.fromhex(asked[2].decode())
    return b"yes\n" if is_strict(KINDS[asked[1]], payload) else b"no\n"


def main():
    write = sys.stdout.buffer.write
    for line in sys.stdin.buffer:
        write(answer(line[:-1] if line.endswith(b"\n") else line))


if __name__ == "__main__":
    main()
