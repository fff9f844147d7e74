"""The named ways in which a peer's answer differs from ours. Used by peers/compare.

A class is a function. It is given a Case, whose payload is empty for ALL-ZERO and H-EMPTY alone, and returns the names of
the differences that it accounts for. It must check by the payload's bytes that they are of the shape it says. A difference
that no class takes makes peers/compare fail. The payload of a message header is a whole datagram, that of a body the whole
message.
"""

CLASSES = []


class Class:
    def __init__(self, name, kinds, check, words):
        self.name, self.kinds, self.check, self.words = name, kinds, check, words


def differs(name, kinds, here, there, standard):
    """Names a class: what we do (which is what document 01 says, of headers request K1, of bodies request K3), what the peer
    does, and who is right by the standard."""

    def add(check):
        CLASSES.append(Class(name, kinds, check, (here, there, standard)))
        return check

    return add


# ---------------------------------------------------------------- the bytes, read plainly

NAMES = ["fd", "url", "dn", "cp", "dnp", "afd", "aurl", "adnp"]
SPARE = {"U": 0x80, "F": 0xF0, "S": 0xFC}


def plain(kind, payload):
    """The fields by the flags alone, no rule asked: for U and F, whole payloads only."""
    first, at, got = payload[0], 1, {}
    if kind == "U":
        fields = [("ipv4", 0x02, 4), ("ipv6", 0x01, 16), ("db", 0x08, 1), ("pl", 0x40, 1)]
    else:
        fields = [("teid", 0xFF, 4), ("ipv4", 0x01, 4), ("ipv6", 0x02, 16)]
    for name, bits, width in fields:
        if first & bits or name == "teid":
            got[name] = payload[at:at + width].hex().upper()
            at += width
        else:
            got[name] = "-"
    return got, at


def dotted(text):
    """The text taken as DNS labels, with dots; a cut label gives what is there."""
    out = b""
    while text:
        label, text = text[1:1 + text[0]], text[1 + text[0]:]
        out += label + (b"." if text else b"")
    return out


def label_form(text):
    """How the text stands as labels: whole, closed by a zero byte, or cut."""
    while text:
        if text == b"\0":
            return "closed"
        if len(text) < 1 + text[0]:
            return "cut"
        text = text[1 + text[0]:]
    return "whole"


def shown(text):
    """As tshark's XML gives a text: up to a zero byte, U+FFFD for a byte that isn't ASCII, control bytes escaped or a space."""
    out = ""
    for b in text.split(b"\0")[0]:
        out += "\ufffd" if b > 0x7F else chr(b) if 0x20 <= b < 0x7F else " " if b in b"\t\n\r" else f"\\x{b:x}"
    return out.encode()


def text_of(token):
    return b"" if token == "?" else bytes.fromhex(token.split('"')[1])


def name_there(peer, text):
    """What the peer makes of a node name."""
    if peer == "scapy":
        return dotted(text)
    return shown(text if text[0] >= 0x40 else dotted(text))


def node_there(c):
    """The peer goes by the low four bits of the first byte, and reads what they say."""
    kind, rest, got = c.payload[0] & 15, c.payload[1:], c.theirs.fields
    if c.theirs.verdict != "read" or got["type"] != str(kind):
        return False
    if kind < 2:
        name, width = [("ipv4", 4), ("ipv6", 16)][kind]
        return got[name] == (rest[:width].hex().upper() or "?")
    return kind > 2 or text_of(got["name"]) == name_there(c.peer, rest)


WIRE = {"U": (1, "ipv4 ipv6 db pl"), "F": (1, "teid ipv4 ipv6 cid"), "S": (9, "ipv4 ipv6"), "N": (1, "ipv4 ipv6"),
        "O": (2, "teid ipv4 ipv6 port ctag stag")}


def in_wire_order(c):
    """The fields that the peer gives are the payload's bytes, one behind another, as far as it read."""
    if c.kind == "P":
        return opaque_there(c)
    head, names = WIRE[c.kind]
    values = [(n, c.theirs.fields.get(n, "-")) for n in names.split()]
    given = "".join(v[2:] if n in ("ctag", "stag") else v for n, v in values if v not in ("-", "?"))
    return given == c.payload[head:c.theirs.used].hex().upper()


class Short(Exception):
    pass


def outer_form(payload):
    """PFD Contents with an outer length before each list. The texts of a list may run past it, as they may in the
    dissector. Gives single texts with their places, lists, the end, and whether a list ran past. Raises Short."""
    at, past = 2, False
    singles, lists = {}, {}

    def number():
        nonlocal at
        if at + 2 > len(payload):
            raise Short
        at += 2
        return int.from_bytes(payload[at - 2:at], "big")

    def text():
        nonlocal at
        n = number()
        if at + n > len(payload):
            raise Short
        at += n
        return payload[at - n:at]

    for bit, name in enumerate(NAMES):
        if not payload[0] >> bit & 1:
            continue
        if bit < 5:
            t = text()
            singles[name] = (t, at - len(t))
            continue
        n = number()
        end, lists[name] = at + n, []
        while at < end:
            lists[name].append(text())
            if name == "adnp":
                lists[name].append(text())
        past = past or at > end
    return singles, lists, at, past


def readable(payload):
    """The same, None where it is short."""
    try:
        return outer_form(payload)
    except Short:
        return None


def opaque_there(c):
    """scapy's reading of PFD Contents: a length and bytes for each flagged field, lists too, cut where the payload ends."""
    at = 2
    for bit, name in enumerate(NAMES):
        token = c.theirs.fields[name]
        if not c.payload[0] >> bit & 1:
            if token != "-":
                return False
            continue
        n = int.from_bytes(c.payload[at:at + 2], "big")
        text = c.payload[at + 2:at + 2 + n]
        if token == "?" and text or token != "?" and text_of(token) != text:
            return False
        at = min(at + 2 + n, len(c.payload))
    return at == c.theirs.used or len(c.payload) < 2


def lists_at(payload):
    """Where the first list begins, or None where a text before it is short or no list is flagged."""
    part = readable(bytes([payload[0] & 0x1F]) + payload[1:])
    return part[2] if part and payload[0] >> 5 else None


def hexes(texts):
    return "[" + ",".join('"' + t.hex().upper() + '"' for t in texts) + "]"


# ---------------------------------------------------------------- all kinds

@differs("ALL-ZERO", "UFSNOP", "refusal 1", "tshark: the IE is to be removed; scapy 2.5.0 takes every field's default",
         "tshark: an IE of length 0 is one to be removed (5.6.3, quoted). Whoever walks the IEs decides that; a payload reader isn't asked")
def all_zero(c):
    if c.payload == b"":
        return set(c.items)


@differs("ALL-SPARE", "UFSP", "read over, written as 0", "read over and shown; scapy writes them back",
         "all read alike; here in writing: a spare bit is 0 when sent, and the receiver passes over it (from memory)")
def all_spare(c):
    took = set()
    if c.notes.get("spare") == f"{c.payload[0] & SPARE.get(c.kind, 0):02X}":
        took.add("note spare")
    if c.kind == "P" and c.notes.get("byte1") and int(c.notes["byte1"], 16) == c.payload[1]:
        took.add("note byte1")
    return took | c.kept() if took else took


@differs("ALL-REST", "UFSNOP", "ignored, not used, not written", "noted; scapy writes them back",
         "all read alike: Wireshark's table marks all these IEs as extendable, so later fields may follow those known")
def all_rest(c):
    if c.peer == "scapy" and c.kind == "U" and c.payload[0] & 0x78:
        return None  # the bytes of fields that scapy doesn't know
    if c.notes.get("rest") and c.theirs.used + int(c.notes["rest"]) == len(c.payload):
        return {"note rest"} | c.kept()


@differs("ALL-DEFAULT", "UFSNOP", "refusal 1 (in PFD Contents an absent field)",
         "scapy 2.5.0: where no byte is left a field has its default value (an absent IPv6 address then can't be written); later versions fail",
         "here: a flagged field is to be there (quoted: `shall be present`)")
def all_default(c):
    missing = {k for k, v in c.theirs.fields.items() if v == "?"}
    if c.peer != "scapy" or c.theirs.verdict != "read" or not in_wire_order(c):
        return None
    if not missing and not (c.kind in "OP" and len(c.payload) == 1):
        return None
    if c.ours.number == 0:
        return missing | {"written", "note unwritable"}
    if c.ours.number == 1:
        return {"verdict", "note unwritable"}


# ---------------------------------------------------------------- UE IP Address

def u_rule(rule):
    def check(c):
        if c.peer == "tshark" and c.ours.details == ("2", str(rule)) and c.theirs.verdict == "read":
            got, end = plain("U", c.payload)
            if all(c.theirs.fields[k] == v for k, v in got.items()) and c.theirs.used == end:
                return {"verdict"}
    return check


differs("U-RULE-1", "U", "refusal 2 rule 1: V4 with CHV4, or V6 with CHV6", "tshark: both flags and the address, no note",
        "here (from memory): the pair is forbidden. That it is refused is the Rust's choice")(u_rule(1))
differs("U-RULE-2", "U", "refusal 2 rule 2: IPv6D with IP6PL", "tshark: both bytes, no note",
        "here (from memory): the pair is forbidden. That it is refused is the Rust's choice")(u_rule(2))
differs("U-RULE-3", "U", "refusal 2 rule 3: IPv6D or IP6PL without V6 and CHV6", "tshark: the byte, no note",
        "here (from memory): they go with V6 or CHV6. That it is refused is the Rust's choice")(u_rule(3))


@differs("U-OLD", "U", "bits 3 to 6 are IPv6D, CHV4, CHV6, IP6PL, with their rules and bytes",
         "scapy: spare bits, whose bytes are rest", "here: scapy follows V15.6.0, in which these bits were spare")
def u_old(c):
    if c.peer != "scapy" or not c.payload[0] & 0x78 or c.theirs.verdict != "read":
        return None
    if c.notes.get("spare") != f"{c.payload[0] & 0xF8:02X}" or not in_wire_order(c):
        return None
    took = {"note spare", "note rest", "note unwritable"} | c.kept()
    if c.ours.number:
        return took | {"verdict"}
    return took | {"ip6d", "chv4", "chv6", "ip6pl", "db", "pl", "used"}


# ---------------------------------------------------------------- F-TEID and F-SEID

@differs("F-CHID", "F", "refusal 2 rule 4: CHID without CH, before any length",
         "tshark: TEID and addresses, with the note that the IE is wrongly encoded; scapy: a choose ID behind the addresses",
         "here and tshark: CHID goes with CH alone (quoted). That it is refused is the Rust's choice; scapy's byte is its own")
def f_chid(c):
    if c.ours.details != ("2", "4") or c.theirs.verdict != "read":
        return None
    got, end = plain("F", c.payload)
    if c.peer == "tshark" and all(c.theirs.fields[k] == v for k, v in got.items()) and c.theirs.used == end:
        return {"verdict", "note wrong"}
    got["cid"] = c.payload[end:end + 1].hex().upper()
    if c.peer == "scapy" and all(c.theirs.fields[k] == (v or "?") for k, v in got.items()):
        return {"verdict", "note unwritable"}


@differs("S-NOADDR", "S", "accepted, with its SEID; the strict verdict says no",
         "tshark: the note that the IE is wrongly encoded; it stops behind the flags and shows no SEID",
         "tshark's note and the strict verdict: one of V4 and V6 is to be set (from memory)")
def s_noaddr(c):
    if c.peer == "tshark" and not c.payload[0] & 3 and c.ours.number == 0 and c.theirs.used == 1:
        return {"seid", "used", "note wrong"}


@differs("S-NOADDR-SHORT", "S", "refusal 1", "tshark: only that note, as it stops before the missing bytes",
         "here: the SEID is always there. Both say no")
def s_noaddr_short(c):
    if c.peer == "tshark" and not c.payload[0] & 3 and c.ours.number == 1 and c.theirs.used == 1:
        return {"verdict", "note wrong"}


# ---------------------------------------------------------------- Node ID

@differs("N-NIBBLE", "N", "refusal 3: the type is the whole first byte. The strict verdict clears the high four bits before it judges (K4)",
         "the type is the low four bits, the rest spare", "they, and the strict verdict: the high four bits are spare (quoted)")
def n_nibble(c):
    if c.ours.number == 3 and c.payload[0] >> 4 and node_there(c):
        return {"verdict", "note spare", "note unwritable"} | ({"note wrong"} if c.payload[1:2] >= b"\x40" else set())


@differs("N-TYPE", "N", "refusal 3: types 3 to 15", "accepted, the rest undecoded",
         "both: such a type is left for later versions (from memory), and a receiver can make nothing of it")
def n_type(c):
    if c.ours.number == 3 and c.payload[0] < 16 and node_there(c):
        return {"verdict"}


def name_class(name, want, here, there, standard):
    """The name is read by both, as plain text here and as labels there, and is such by `want`."""

    @differs(name, "N", here, there, standard)
    def check(c):
        text = c.payload[1:]
        if c.payload[0] != 2 or not text or c.ours.number or not want(text) or not node_there(c):
            return None
        wrong = {"note wrong"} if text[0] >= 0x40 else set()
        return {"name"} | wrong | ({"written"} if c.peer == "scapy" else set())


def is_plain(text):
    return all(0x20 < b < 0x7F or b > 0x7F for b in text)


name_class("N-LABELS", lambda t: t[0] < 0x40 and label_form(t) == "whole",
           "the bytes as they stand, length bytes among them", "the labels, with dots between",
           "they: a name is coded as in RFC 1035 3.1 without the trailing zero byte (quoted). A name by the standard is accepted here, and its length bytes stand in the text")
name_class("N-CLOSED", lambda t: t[0] < 0x40 and label_form(t) == "closed" and len(t) > 1,
           "the bytes as they stand", "the labels, and a dot behind the last",
           "neither: the closing zero byte isn't sent")
name_class("N-CUT", lambda t: t[0] < 0x40 and label_form(t) == "cut" and not is_plain(t),
           "the bytes as they stand", "the labels, of the last what is there",
           "neither: the last label is cut off, and nobody says so")
name_class("N-DIGIT", lambda t: t[0] < 0x40 and label_form(t) == "cut" and is_plain(t),
           "the text as it stands", "its first character (a digit, `-` or the like) is taken for a label's length and dropped, without a note",
           "neither: plain text isn't the coding. Of `192.0.2.1` they show `92.0.2.1`")
name_class("N-ZERO", lambda t: t == b"\0", "a text of one zero byte", "an empty name", "neither: no empty label is sent")
name_class("N-PLAIN", lambda t: t[0] >= 0x40, "the text as it stands",
           "tshark: dotted text with the note that the IE is wrongly encoded (a byte that isn't ASCII shown as U+FFFD); scapy: the first letter is a length, and dropped",
           "tshark's note: plain text isn't the coding")


@differs("N-EMPTY", "N", "accepted: the empty name", "tshark: malformed; scapy: an empty name, written back as `0200`",
         "tshark: a name has at least one label (from memory)")
def n_empty(c):
    if c.payload == b"\x02":
        return {"verdict", "name", "written"}


@differs("N-UTF8", "N", "refusal 4", "read: tshark shows U+FFFD for such bytes, scapy the bytes",
         "neither reading has a rule for it: the standard has DNS labels, not UTF-8. The check is the Rust's")
def n_utf8(c):
    if c.ours.number == 4 and node_there(c):
        return {"verdict"} | ({"note wrong"} if c.payload[1] >= 0x40 else set())


# ---------------------------------------------------------------- Outer Header Creation

@differs("O-BYTE1", "O", "ignored, written as 0", "shown: from tshark 4.4 on bit 0 is the N19 indication, bit 1 the N6 indication, bit 2 low-layer SSM and C-TEID; scapy writes the byte back",
         "tshark 4.4: the bits have a meaning since; that they are ignored is the Rust's")
def o_byte1(c):
    if len(c.payload) < 2 or c.notes.get("byte1") != f"{c.payload[1]:02X}":
        return None
    named = {"note n19": 1, "note n6": 2, "note ssm_cteid": 4}
    return {"note byte1"} | c.kept() | {n for n in named if c.payload[1] & named[n]}


@differs("O-TAGS", "O", "a number of 24 bits", "tshark: presence bits, VID, DEI and PCP, from the same three bytes",
         "tshark: that is the coding. Same bytes, more detail")
def o_tags(c):
    took = set()
    for tag in ("ctag", "stag"):
        if tag + ".vid" in c.notes and c.ours.fields[tag] == c.theirs.fields[tag]:
            b = bytes.fromhex(c.ours.fields[tag])
            parts = {"vid": (b[2] >> 4) << 8 | b[3], "dei": b[2] >> 3 & 1, "pcp": b[2] & 7}
            took |= {f"note {tag}.{p}" for p, v in parts.items() if c.notes[f"{tag}.{p}"] == f"{v:X}"}
    return took


# ---------------------------------------------------------------- PFD Contents

def outer_there(c, past=False):
    """tshark's answer is the reading with outer lengths, which a text runs past or not."""
    got = readable(c.payload)
    if not got or c.theirs.verdict != "read":
        return got is None and c.theirs.verdict == "malformed"
    singles, lists, end, ran_past = got
    fields = {n: f'"{t.hex().upper()}"@{at}' for n, (t, at) in singles.items()}
    fields.update({n: hexes(ts) for n, ts in lists.items()})
    return ran_past == past and c.theirs.used == end and all(c.theirs.fields[n] == v for n, v in fields.items())


def missing_here(c):
    """A flagged field that is absent, or a flagged list that is empty, in our answer."""
    return any(c.payload[0] >> bit & 1 and c.ours.fields[n] in ("-", "[]") for bit, n in enumerate(NAMES))


LIST_NOTES = {"note afd.len", "note aurl.len", "note adnp.len"}
LISTS = {"afd", "aurl", "adnp"}


@differs("P-LISTS-OTHER", "P", "the texts of a list stand one behind another, and each list but the last has one",
         "tshark: a two-byte length of the whole list, then its texts (in the third list pairs of name and protocol). Both read, and read other texts",
         "tshark: a list has a length of its own (quoted). **What the standard's coder writes is misread here without a word, as the Rust does**")
def p_lists_other(c):
    if c.peer == "tshark" and c.ours.number == 0 and c.theirs.verdict == "read" and outer_there(c):
        return LISTS | LIST_NOTES | {"used"}


@differs("P-LISTS-REFUSED", "P", "refusal inside a list: 4, as a length byte of 80 or above is text here and isn't UTF-8 (or a text isn't); 1, as bytes behind the list are a text's length here",
         "tshark: reads the list", "tshark, as above")
def p_lists_refused(c):
    if c.peer != "tshark" or c.ours.number not in (1, 4) or not outer_there(c):
        return None
    start = lists_at(c.payload)
    if start is not None and (c.ours.number == 1 or int(c.ours.fields["place"]) >= start):
        return {"verdict"} | LIST_NOTES


@differs("P-LISTS-PAST", "P", "as above: other texts, or a refusal", "tshark: a text that runs past the length of its list is read to its own end, without a note",
         "neither: the two lengths contradict each other")
def p_lists_past(c):
    if c.peer == "tshark" and c.theirs.verdict == "read" and lists_at(c.payload) is not None and outer_there(c, past=True):
        return LISTS | LIST_NOTES | {"used", "verdict"}


@differs("P-LISTS-MALFORMED", "P", "reads the list", "tshark: malformed, as it takes the first text's length for the list's",
         "tshark, as above: **a list written here is malformed there, or another list**")
def p_lists_malformed(c):
    if c.peer != "tshark" or c.ours.number or not outer_there(c):
        return None
    if lists_at(c.payload) is not None and not missing_here(c):
        return {"verdict"}


@differs("P-LISTS-OPAQUE", "P", "texts", "scapy: the bytes that the outer length counts, not taken apart (cut where the payload ends)",
         "scapy as far as it goes, as above")
def p_lists_opaque(c):
    if c.peer != "scapy" or c.theirs.verdict != "read" or not c.payload[0] >> 5 or not opaque_there(c):
        return None
    took = {n for n in LISTS if c.theirs.fields[n].startswith('"')}
    took |= {"used"} | c.kept() if took else set()
    start = lists_at(c.payload)
    if start is not None and (c.ours.number == 1 or c.ours.number == 4 and int(c.ours.fields["place"]) >= start):
        took.add("verdict")
    return took


@differs("P-ABSENT", "P", "an absent field or an empty list: a flag with fewer than two bytes left", "malformed",
         "they: a flagged field is to be there (quoted). The strict verdict says no too")
def p_absent(c):
    if c.ours.number == 0 and c.theirs.verdict == "malformed" and missing_here(c):
        return {"verdict"}


@differs("P-UTF8", "P", "refusal 4: a text isn't UTF-8", "read; tshark shows U+FFFD for each byte that isn't ASCII",
         "they: each field is an OctetString (quoted). The check is the Rust's")
def p_utf8(c):
    if c.ours.number != 4 or c.theirs.verdict != "read" or not (opaque_there(c) if c.peer == "scapy" else outer_there(c)):
        return None
    start = lists_at(c.payload)
    if start is None or int(c.ours.fields["place"]) < start:
        return {"verdict"} | LIST_NOTES


@differs("P-CUT", "P", "refusal 1: a length past the end", "scapy: what is there (tshark: malformed)",
         "here and tshark: the field isn't whole")
def p_cut(c):
    if c.peer == "scapy" and c.ours.number == 1 and len(c.payload) > 1 and c.theirs.verdict == "read":
        if lists_at(c.payload) is None and opaque_there(c):
            return {"verdict"}


@differs("P-SHOWN", "P", "the bytes of the text", "tshark: the same bytes, but shows a text only up to a zero byte (with a note) and U+FFFD for each byte that isn't ASCII",
         "here: the fields are octets; a matter of display")
def p_shown(c):
    if c.peer != "tshark":
        return None
    texts = [text_of(v) for k, v in c.theirs.fields.items() if v.startswith('"') and k != "cp"]
    texts += [bytes.fromhex(t) for n in LISTS for t in c.theirs.fields.get(n, "").strip("[]").replace('"', "").split(",")]
    took = set()
    if "shown" in c.notes and text_of(c.notes["shown"]) in [shown(t) for t in texts]:
        took.add("note shown")
    if "stray" in c.notes and any(b"\0" in t for t in texts):
        took.add("note stray")
    return took


# ---------------------------------------------------------------- message headers

def header_size(datagram):
    return 16 if datagram[0] & 1 else 8


def header_fields(datagram):
    """All but the priority, by their places."""
    if not datagram:
        return {}
    first, n = datagram[0], header_size(datagram)
    places = {"type": (1, 2), "len": (2, 4), "seid": (4, n - 4), "seq": (n - 4, n - 1)}
    fields = {"ver": f"{first >> 5:02X}", "fo": str(first >> 2 & 1), "mp": str(first >> 1 & 1), "s": str(first & 1)}
    fields.update({name: datagram[a:b].hex().upper() for name, (a, b) in places.items()})
    fields["seq"] = fields["seq"].rjust(8, "0")
    return fields if first & 1 else {**fields, "seid": "-"}


def whole_ies(body):
    while body:
        if len(body) < 4 + int.from_bytes(body[2:4], "big"):
            return False
        body = body[4 + int.from_bytes(body[2:4], "big"):]
    return True


class Walk:
    """A datagram as tshark walks it, message by message: how many it begins, the bytes that it says are left behind one
    without FO, what stops it if something does, and whether that is in the first message."""

    def __init__(self, datagram):
        self.begun, self.left, self.fault, at = 0, [], None, 0
        while at < len(datagram) and not self.fault:
            self.first, rest = at == 0, datagram[at:]
            at += self.message(rest)
            if not self.fault and at < len(datagram) and not rest[0] & 4:
                self.left.append(str(len(datagram) - at))

    def message(self, rest):
        if len(rest) < 4:
            self.fault = "cut"
            return 0
        size, header = int.from_bytes(rest[2:4], "big") + 4, header_size(rest)
        self.begun += size % 65536 > 1
        faults = [("wrap", size > 65535), ("cut", len(rest) < header), ("short", size < header), ("long", size > len(rest)),
                  ("body", not whole_ies(rest[header:size])), ("nothing", size == len(rest) and rest[0] & 4)]
        self.fault = next((name for name, is_so in faults if is_so), None)
        return size


def walked(c):
    """The walk, where tshark read the header and says of the rest what the walk does."""
    if c.peer == "tshark" and c.theirs.verdict == "read":
        w = Walk(c.payload)
        said = int(c.notes.get("messages", 1)), c.notes.get("left", ""), "malformed" in c.notes
        return w if said == (w.begun, ",".join(w.left), bool(w.fault)) else None


@differs("H-EMPTY", "H", "refusal 1", "nothing: a datagram without a byte is UDP alone", "all: there is no message")
def h_empty(c):
    if c.payload == b"" and c.theirs.verdict == "none":
        return {"verdict"}


def last_byte(c, priority, note):
    """The header's last byte is the priority here, and there this part of it, and the rest is this note."""
    if c.ours.number or c.theirs.verdict != "read":
        return False
    byte = c.payload[header_size(c.payload) - 1]
    there = f"{byte >> 4:02X}" if priority else "-", byte & 15 if priority else byte
    said = c.theirs.fields["prio"], int(c.notes.get(note, "0"), 16)
    return c.ours.fields["prio"] == f"{byte:02X}" and said == there


@differs("H-PRIORITY", "H", "the whole byte is the priority", "the high four bits, the low four are spare",
         "they: bits 8 to 5 of the byte are the priority (quoted). That the byte is kept whole is the Rust's, and K1 asks for it")
def h_priority(c):
    if c.payload[0] & 2 and last_byte(c, True, "low"):
        return {"prio", "note low"}


@differs("H-PRIORITY-UNSET", "H", "the whole byte is the priority, MP or not", "without MP there is no priority, and the byte is spare",
         "they: the priority is there if MP is 1 (quoted). That it is kept without MP is the Rust's, and K1 asks for it")
def h_priority_unset(c):
    if not c.payload[0] & 2 and last_byte(c, False, "byte"):
        return {"prio", "note byte"}


@differs("H-SPARE", "H", "bits 3 and 4 are read over, written as 0", "read over and shown; scapy writes them back",
         "all read alike; here in writing: a spare bit is 0 when sent, and the receiver passes over it (from memory)")
def h_spare(c):
    first, mask = c.payload[0], 0x1C if c.peer == "scapy" else 0x18
    cleared = bytes([first & 0xE7]) + c.payload[1:header_size(c.payload)]
    if first & 0x18 and c.notes.get("spare") == f"{first & mask:02X}" and c.ours.written in ("-", cleared.hex().upper()):
        return {"note spare"} | c.kept()


@differs("H-FO-OLD", "H", "bit 2 is FO", "scapy: a spare bit, written back",
         "here and tshark: the bit says that another message follows (quoted). scapy follows V15.6.0, in which it was spare")
def h_fo_old(c):
    if c.peer == "scapy" and c.payload[0] & 4 and c.notes.get("spare") == f"{c.payload[0] & 0x1C:02X}":
        return {"fo", "note spare"}


@differs("H-FO-MORE", "H", "FO is kept, and no byte behind the header is looked at", "tshark: reads the next message, behind the length of this one",
         "tshark, for a datagram: another message follows (quoted). Whoever walks the datagram does that; a header reader isn't asked")
def h_fo_more(c):
    w = walked(c)
    if w and c.payload[0] & 4 and not w.fault:
        return {"note messages"}


@differs("H-FO-NOTHING", "H", "FO is kept, and nothing is asked for behind the message",
         "tshark: the header, then malformed (its source means to note that no data is left)",
         "tshark: another message is to follow (quoted)")
def h_fo_nothing(c):
    w = walked(c)
    if w and w.fault == "nothing" and w.first:
        return {"note malformed"}


@differs("H-LEFT", "H", "no byte behind the header is looked at",
         "tshark: the note that data is left though FO isn't set; it reads on as if it were",
         "tshark's note: it is FO that says that another message follows (quoted)")
def h_left(c):
    w = walked(c)
    if w and w.left and not c.payload[0] & 4:
        return {"note left", "note messages"}


@differs("H-NEXT", "H", "one header is read, and no byte behind it is looked at",
         "tshark: malformed, or data left, in what it reads behind the first message",
         "tshark, for a datagram; the first header is the same")
def h_next(c):
    w = walked(c)
    if w and not w.first:
        later = w.left if c.payload[0] & 4 else w.left[1:]
        return ({"note malformed", "note messages"} if w.fault else set()) | ({"note left"} if later else set())


@differs("H-BODY", "H", "the body isn't looked at", "tshark: the header, then malformed, where the bytes that the length counts aren't whole IEs",
         "tshark, for a message; the header is the same")
def h_body(c):
    w = walked(c)
    if w and w.fault == "body" and w.first:
        return {"note malformed"}


@differs("H-LENGTH-LONG", "H", "the length is kept, and compared with nothing", "tshark: the header, then malformed, as the message ends past the datagram",
         "tshark: the length counts what is behind the first 4 bytes (quoted). That it isn't compared is the Rust's, and K1 asks for it")
def h_length_long(c):
    w = walked(c)
    if w and w.fault == "long" and w.first:
        return {"note malformed"}


def stopped_inside(c, fault):
    """tshark stops inside a header that is whole here, at the place where the message ends by its length, or before."""
    if c.peer == "tshark" and c.ours.number == 0 and c.theirs.verdict == "malformed":
        w, size = Walk(c.payload), int.from_bytes(c.payload[2:4], "big") + 4
        return w.fault == fault and w.first and c.theirs.used <= size % 65536


@differs("H-LENGTH-SHORT", "H", "the length is kept, and compared with nothing",
         "tshark: malformed, as the message ends inside its header; the fields before that are shown",
         "tshark, as above: a header without SEID has a length of 4 or more, one with SEID of 12 or more")
def h_length_short(c):
    if stopped_inside(c, "short"):
        return {"verdict"}


@differs("H-LENGTH-WRAP", "H", "the length is kept, and compared with nothing",
         "tshark: malformed, as it adds 4 to the length in 16 bits and cuts the message to 0 to 3 bytes (a length of FFFC or above)",
         "tshark's verdict, though for another reason: no datagram holds such a message")
def h_length_wrap(c):
    if stopped_inside(c, "wrap"):
        return {"verdict"}


@differs("H-DEFAULT", "H", "refusal 1", "scapy 2.5.0: where the bytes end between two fields, those missing have their default value; later versions fail",
         "here: only the SEID may be missing, by S (quoted)")
def h_default(c):
    n = header_size(c.payload)
    if c.peer == "scapy" and c.ours.number == 1 and c.theirs.used == len(c.payload) and len(c.payload) in (1, 2, 4, n - 4, n - 1):
        return {"verdict"}


# ---------------------------------------------------------------- message bodies

NO_ENTERPRISE = 65536
MAY_BE_EMPTY = (22, 41, 159)


def number_at(data, at):
    return int.from_bytes(data[at:at + 2], "big")


def row_at(body, at):
    """The row of the IE at a place, by its bytes, and where it ends by its length."""
    kind, length = number_at(body, at), number_at(body, at + 2)
    if kind >> 15:
        return (kind, number_at(body, at + 4), at + 6, length - 2), at + 4 + length
    return (kind, NO_ENTERPRISE, at + 4, length), at + 4 + length


def plain_rows(body):
    """The rows of a body of whole IEs, None of another."""
    rows, at = [], 0
    while at < len(body):
        row, end = row_at(body, at)
        if row[3] < 0 or len(body) < max(row[2], end):
            return None
        rows.append(row)
        at = end
    return rows


def needed(kind, payload):
    """How many bytes the fields take of such IEs as come with a payload that is too short or too long for them."""
    first = payload[0] if payload else 0
    if kind == 21:
        return 1 + 4 + 4 * (first & 1) + 16 * (first >> 1 & 1) if not first & 4 else 1 + (first >> 3 & 1)
    if kind == 57:
        return 9 + 4 * (first >> 1 & 1) + 16 * (first & 1)
    if kind == 60:
        return {0: 5, 1: 17}.get(first & 15, 2)
    return {19: 1, 40: 2, 52: 4, 96: 4, 104: 4, 108: 4}.get(kind, 0)


class Ies:
    """A body as tshark walks it: the rows that it shows, the places of the IEs that it says are to be removed, and what
    stops it if something does. `empty` are the places of a vendor's empty IEs that it takes so too."""

    def __init__(self, body, empty=()):
        self.rows, self.removed, self.fault, self.at = [], [], None, 0
        while self.at < len(body) and not self.fault:
            self.ie(body, empty)

    def ie(self, body, empty):
        row, end = row_at(body, self.at)
        if len(body) < max(row[2], end):
            self.fault = "cut"
            return
        self.rows.append(row)
        if end == self.at + 4 or row[2] == end and row[2] in empty:
            self.removed.append(row[2])
        else:
            self.fault = self.inside(row, body[row[2]:end])
        self.at = end if not self.fault else self.at

    def inside(self, row, payload):
        if row[1] != NO_ENTERPRISE:
            return {-1: "one", 0: "empty"}.get(row[3])
        if len(payload) < needed(row[0], payload) or row[0] in (1, 3) and Ies(payload).fault:
            return "inside"


def body_walked(c):
    """The walk, where tshark says what the walk does."""
    if c.peer == "tshark":
        said = [int(p) for p in c.notes.get("remove", "").split(",") if p]
        w = Ies(c.body, said)
        return w if (c.theirs.rows, c.theirs.verdict == "malformed", said) == (w.rows, bool(w.fault), w.removed) else None


def guilty(c):
    """The type and length of the IE that is refused here, as far as they are there."""
    head = c.body[c.ours.place:c.ours.place + 4]
    return (number_at(head, 0), number_at(head, 2)) if c.ours.number and len(head) == 4 else (None, None)


class Taken:
    """The last row of scapy's where that IE took other bytes than its length says: its start, type, length and payload by the
    bytes, and how many scapy took. `plain` is that all rows are as their bytes say."""

    def __init__(self, c):
        place, self.count = [int(n) for n in c.notes["taken"].split(":")]
        *before, last = c.theirs.rows
        self.start = before[-1][2] + before[-1][3] if before else 0
        row, self.end = row_at(c.body, self.start)
        self.kind, self.length, self.payload = row[0], self.end - self.start - 4, c.body[place:self.end]
        unread = {None} if len(c.body) < place else set()
        alike = all(there in unread | {here} for here, there in zip(row, last))
        self.plain = alike and last[2] == place and before == plain_rows(c.body[:self.start])


def taken(c):
    t = Taken(c) if c.peer == "scapy" and "taken" in c.notes and c.theirs.rows else None
    return t if t and t.plain else None


BODY = {"verdict", "rows", "note remove", "note taken"}
ENDING = (19, 40, 52, 104)  # types that end in scapy behind the field that it knows


@differs("B-ZERO", "M", "refusal 11: a length of zero, and the type isn't 22, 41 or 159",
         "tshark: the IE is to be removed, and those behind it are read; scapy: reads the IE, its fields from the bytes behind it "
         "if there are any, and from there on other IEs",
         "tshark: an IE of length 0 is one to be removed (5.6.3, quoted). That it is refused is the Rust's, and K3 asks for it")
def b_zero(c):
    kind, length = guilty(c)
    if c.ours.number != 11 or length != 0 or kind >> 15 or kind in MAY_BE_EMPTY:
        return None
    t = taken(c)
    if body_walked(c) or t and t.start == c.ours.place and t.count > 0:
        return BODY
    if c.peer == "scapy" and not t and c.theirs.rows == plain_rows(c.body) and c.theirs.verdict == "read":
        return {"verdict", "rows"}


@differs("B-ZERO-LISTED", "M", "read, with an empty payload: types 22, 41 and 159",
         "tshark: the same, with the note that the IE is to be removed; scapy: a Forwarding Policy (41) takes a byte from the IE "
         "behind it, and from there on other IEs are read",
         "here and tshark: such an IE is one to be removed (5.6.3, quoted)")
def b_zero_listed(c):
    w, t = body_walked(c), taken(c)
    if w and any(number_at(c.body, place - 4) in MAY_BE_EMPTY for place in w.removed):
        return {"note remove"}
    if t and (t.kind, t.length, t.count) == (41, 0, 1):
        return BODY


def from_the_end(c):
    """scapy takes a vendor's length, less 2, for one that counts from the body's end."""
    t = taken(c)
    return t and t.start == c.ours.place and t.count == max(len(c.body) - t.start - 6 + t.length - 2, 0)


@differs("B-VENDOR-ZERO", "M", "refusal 11, as of every type that isn't listed",
         "tshark: to be removed; it shows the next two bytes as the enterprise number, and reads the next IE from these bytes on; "
         "scapy: takes the length, less 2, for one that counts from the end, and reads the last two bytes as an IE; where the "
         "body ends before the number, reads it without one",
         "here, as the enterprise number is counted in the length (from memory). That the refusal is 11 is the Rust's, and "
         "K3 asks for it")
def b_vendor_zero(c):
    kind, length = guilty(c)
    if c.ours.number != 11 or length != 0 or not kind >> 15:
        return None
    numberless = [(kind, None, c.ours.place + 6, -2)] if len(c.body) == c.ours.place + 4 else []
    if body_walked(c) or from_the_end(c):
        return BODY
    if c.peer == "scapy" and numberless and c.theirs.rows == c.ours.rows + numberless:
        return {"verdict", "rows"}


@differs("B-VENDOR-ONE", "M", "refusal 1: a vendor's length under 2 (expected 2, actual 1)",
         "tshark: the IE with its enterprise number, then malformed; scapy: takes the length, less 2, for one that counts from "
         "the end, and reads the last byte as an IE",
         "here and tshark, which refuse it, as above")
def b_vendor_one(c):
    kind, length = guilty(c)
    if c.ours.number != 1 or length != 1 or not kind >> 15 or len(c.body) < c.ours.place + 6:
        return None
    w = body_walked(c)
    if w and w.fault == "one":
        return {"rows"}
    if from_the_end(c):
        return BODY


@differs("B-VENDOR-EMPTY", "M", "read, with an empty payload: the length is 2, and no more is asked for",
         "tshark: the IE with its enterprise number, then malformed, and no IE behind it; with a vendor that it knows (18681) "
         "the note that the IE is to be removed, and it reads on",
         "here and scapy: nothing is said against a vendor's IE without a value (from memory)")
def b_vendor_empty(c):
    w = body_walked(c)
    if w and w.fault == "empty":
        return {"verdict", "rows"}
    if w and any(number_at(c.body, place - 6) >> 15 and number_at(c.body, place - 4) == 2 for place in w.removed):
        return {"note remove"}


@differs("B-INSIDE", "M", "read: no payload is looked into",
         "tshark: malformed, where a payload is shorter than its fields, and no IE behind it is shown; scapy: takes the missing "
         "bytes from the IE behind it and reads on from there, or fails",
         "all: the IE stands where it stands, and its payload is wrong. Who reads the payload says so")
def b_inside(c):
    w, t = body_walked(c), taken(c)
    if w and w.fault == "inside":
        return {"verdict", "rows"}
    if t and t.payload and t.length == len(t.payload) < needed(t.kind, t.payload) and t.count > t.length:
        return BODY
    if c.peer == "scapy" and not t and c.theirs.verdict == "malformed":
        return {"verdict", "rows"} if short_next(c) else None


def short_next(c):
    """scapy's rows are ours up to an IE whose payload is too short."""
    n = len(c.theirs.rows)
    if c.theirs.rows != c.ours.rows[:n] or n == len(c.ours.rows):
        return False
    kind, _, place, length = c.ours.rows[n]
    return length < needed(kind, c.body[place:place + length])


@differs("B-LONGER", "M", "read: the length alone says where the next IE begins",
         "scapy: Cause, Offending IE, Sequence Number and UR-SEQN end behind the field that it knows, and the rest of the "
         "payload is read as IEs",
         "here and tshark (from memory): the length says where an IE ends, and later fields may follow those known")
def b_longer(c):
    t = taken(c)
    if t and t.kind in ENDING and t.length == len(t.payload) > t.count == needed(t.kind, t.payload):
        return BODY


@differs("B-CUT", "M", "refusal 1: the body ends inside an IE",
         "scapy 2.5.0: where it ends between two fields or in a text, what is there",
         "here and tshark: the IE isn't whole")
def b_cut(c):
    t = taken(c)
    if not t or c.ours.number != 1 or t.start != c.ours.place or len(c.body) >= max(t.end, t.start + 4):
        return None
    left = len(c.body) - c.theirs.rows[-1][2]
    if t.count == left or t.kind in ENDING and t.count == needed(t.kind, t.payload) < left:
        return BODY


# ---------------------------------------------------------------- where all are of one mind

# A payload, header or message, the peers that read it as we do, and what is worth knowing about it.
AGREED = [
    ("U 00", "tshark scapy", "no flag at all is accepted", ""),
    ("U 28C0", "tshark", "IPv6D with CHV6 and no V6 is accepted, with its byte", "ties IPv6D to V6 (from memory)"),
    ("U 60C0", "tshark", "a prefix length of 192 is accepted, as any byte is", ""),
    ("U 12", "tshark", "refused: here for the flags, which are looked at first (rule 1), there for the missing address", ""),
    ("F 05", "tshark scapy", "with CH no TEID and no address follow; V4 is kept", "the same (quoted)"),
    ("F 0D05", "tshark scapy", "with CH and CHID one byte follows", "the same"),
    ("F 0C", "tshark", "a choose ID cut off is refused", ""),
    ("F 0000000007", "tshark scapy", "neither CH nor V4 nor V6 is accepted, without a note. The strict verdict says no", "wants V4 or V6 (from memory)"),
    ("F 0100000007C0000201", "tshark scapy", "V4 is bit 0 and V6 bit 1 in F-TEID", "the same"),
    ("S 020000000000000005C0000201", "tshark scapy", "V6 is bit 0 and V4 bit 1 in F-SEID and UE IP Address", "the same"),
    ("O 0000", "tshark scapy", "no bit at all is accepted", ""),
    ("O FF000000000700000001000000000000000000000000000000020868400001800001", "tshark scapy", "all kinds of header at once are accepted, six fields in one order", "the same order (quoted)"),
    ("P 1000000161", "tshark scapy", "a domain name protocol without a domain name is accepted, by the strict verdict too", "forbids it (quoted: the domain name fields shall also be present)"),
    ("H 2001000400000100", "tshark scapy", "without S a header has 8 bytes, with it 16, the SEID in octets 5 to 12", "the same (quoted)"),
    ("H 21010004000001FF", "tshark scapy", "refused: S is set, and fewer than 16 bytes are there", "the same"),
    ("H 20010004FFFFFF00", "tshark scapy", "the sequence number has 24 bits, behind it stands one byte", "the same (quoted)"),
    ("H E005000400000100", "tshark scapy", "version 7 is read as version 1 is, without a note, and so is every other", "has version 1 alone, and an answer of its own to others (from memory)"),
    ("H 20FF000400000100", "tshark scapy", "type 255 is kept, as every number is; tshark calls it unknown", "leaves it for later versions (from memory)"),
    ("H 2101000C000000000000000100000100", "tshark scapy", "S decides whether an SEID is there, whatever the type: here in a Heartbeat Request", "has S, MP and FO 0 in messages between nodes (quoted)"),
    ("H 2005000500000100", "scapy", "a length that doesn't fit is kept, and compared with nothing", "counts what is behind the first 4 bytes (quoted)"),
    ("M 2007000400000100", "tshark scapy", "a body without a byte has no IE", ""),
    ("M 200700090000010001410001FF", "tshark scapy", "a type that nobody knows (321) is a row as any other, by its length",
     "the same (from memory)"),
    ("M 2007000B000001008001000300097F", "tshark scapy",
     "a vendor's IE: the enterprise number (9) is counted in the length, and the payload is what stands behind it",
     "the same (from memory)"),
    ("M 2007000C0000010080000004000000FF", "tshark scapy",
     "the top bit alone makes the type a vendor's; 0 is an enterprise number", ""),
    ("M 2007000C00000100FFFF0004FFFF0102", "tshark scapy", "type and enterprise number 65535 are as any other", ""),
    ("M 2007000A000001008002000248F9", "tshark scapy",
     "a vendor's IE of length 2 has an empty payload; tshark, which knows this vendor, notes that it is to be removed", ""),
    ("M 200700080000010000160000", "tshark scapy",
     "a Network Instance of length 0 is read; tshark notes that it is to be removed", "the same (5.6.3, quoted)"),
    ("M 2007000E0000010000030006006C00020001", "scapy",
     "a group is one IE, whatever stands inside: here a FAR ID of 2 bytes for one of 4", ""),
    ("M 2007000A00000100001300010100", "tshark scapy", "refused: a byte behind the last IE", "the same"),
    ("M 200700090000010000130002FF", "tshark", "refused: a payload cut off", "the same"),
    ("M 2007000A00000100800100030009", "tshark", "refused: a vendor's payload cut off", "the same"),
    ("M 200700080000010080010003", "tshark", "refused: a vendor's IE without its number", "the same"),
]
