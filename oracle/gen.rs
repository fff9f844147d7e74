//! gen KIND N SEED [--form case|full|verdict|build|all|texts] [--from A] [--open] [--list]
//!
//! Prints the first N lines, or N lines from line A on, of an endless sequence of test lines. The sequence is
//! fixed by KIND, form and SEED, and each line by its number too. Fixed lines come first, then all of what can
//! be counted up, then random ones.
//!
//!   case    payload lines of at most 4,096 digit pairs
//!   full    payload lines of at most 65,600 digit pairs; of D pairs of numbers, of B bodies with words before them
//!   verdict payload lines as of `full`, with `V` before them
//!   build   record lines
//!   all     every payload of at most three bytes, so of T every text of at most three
//!   texts   of N and P: every text of at most three bytes, as a name, and as a flow description before a URL
//!
//! --open leaves out the byte that ends the last line. --list makes a short list of small lines, to keep.

#[path = "gen/bodies.rs"]
mod bodies;
#[path = "gen/distances.rs"]
mod distances;
#[path = "gen/texts.rs"]
mod texts;

use std::io::Write;

// ---------------------------------------------------------------- random numbers

/// splitmix64
struct Random(u64);

impl Random {
    /// The numbers of one line.
    fn of(seed: u64, line: u64) -> Random {
        let mut mixed = Random(seed);
        Random(mixed.next() ^ line.wrapping_mul(0xD134_2543_DE82_EF95))
    }

    fn next(&mut self) -> u64 {
        self.0 = self.0.wrapping_add(0x9E37_79B9_7F4A_7C15);
        let mut z = self.0;
        z = (z ^ z >> 30).wrapping_mul(0xBF58_476D_1CE4_E5B9);
        z = (z ^ z >> 27).wrapping_mul(0x94D0_49BB_1331_11EB);
        z ^ z >> 31
    }

    /// From 0 on and below n.
    fn below(&mut self, n: usize) -> usize {
        (self.next() % n as u64) as usize
    }

    fn between(&mut self, least: usize, most: usize) -> usize {
        least + self.below(most - least + 1)
    }

    fn one_in(&mut self, n: usize) -> bool {
        self.below(n) == 0
    }

    fn byte(&mut self) -> u8 {
        self.next() as u8
    }

    fn bytes(&mut self, n: usize) -> Vec<u8> {
        let mut v = Vec::with_capacity(n + 7);
        while v.len() < n {
            v.extend(self.next().to_le_bytes());
        }
        v.truncate(n);
        v
    }

    fn pick<'a, T>(&mut self, from: &'a [T]) -> &'a T {
        &from[self.below(from.len())]
    }

    fn shuffle<T>(&mut self, v: &mut [T]) {
        for i in (1..v.len()).rev() {
            v.swap(i, self.below(i + 1));
        }
    }
}

// ---------------------------------------------------------------- the kinds

/// A field of a payload: whether a first byte has it sent, and its width.
type Field = (fn(u8) -> bool, usize);

/// In place of a value's bytes: a text, texts with commas between them, and an output's length in decimal.
const TEXT: usize = usize::MAX;
const LIST: usize = TEXT - 1;
const ROOM: usize = TEXT - 2;

/// The most digit pairs of a good line, and the most bytes.
const PAIRS: usize = 65_600;
const LONGEST_LINE: usize = 2 + 2 * PAIRS;

/// A record line: its first word, and its keys with the bytes of their values, none for a bare key.
struct Call {
    head: &'static str,
    keys: &'static [(&'static str, usize)],
    /// The greatest flag byte that a record can have.
    flags: u8,
}

struct Kind {
    letter: u8,
    /// The longest written form of fixed fields. Every first byte comes with every length up to a little more.
    longest: usize,
    /// A payload that a reader accepts, with any ignored bits.
    good: fn(&mut Random) -> Vec<u8>,
    /// Payloads that always come.
    samples: &'static [&'static str],
    calls: &'static [Call],
    /// The calls of its builder, each with the bytes of its value.
    builder: &'static [(&'static str, usize)],
    /// Record lines that always come.
    lines: &'static [&'static str],
    /// Of a kind that holds texts.
    texts: Option<Texts>,
}

/// What a kind that holds texts has besides.
struct Texts {
    /// A payload of so many bytes, good or broken near its end.
    long: fn(&mut Random, usize, bool) -> Vec<u8>,
    /// Payloads that come after those of every first byte and length.
    edges: fn() -> Vec<Vec<u8>>,
}

const KINDS: [Kind; 8] = [
    Kind {
        letter: b'U',
        longest: 22,
        good: |r| {
            // V6 with V4, or a choice, and at most one of the two single bytes, under V6 or CHV6
            let six = *r.pick(&[0x00, 0x01, 0x20, 0x01, 0x20]);
            let four = *r.pick(&[0x00, 0x02, 0x10]);
            let single = if six == 0 { 0x00 } else { *r.pick(&[0x00, 0x08, 0x40]) };
            let first = six | four | single | r.byte() & 0x84;
            fixed(r, first, &[(|_| true, 1), (|b| b & 2 != 0, 4), (|b| b & 1 != 0, 16), (|b| b & 8 != 0, 1), (|b| b & 64 != 0, 1)])
        },
        samples: &["02C0000201FF", "82C0000201", "12", "48", "40", "6040", "02C00002", "00", "5A", "4B", "28C0"],
        calls: &[
            Call { head: "U", keys: &[("flags", 1), ("v4", 4), ("v6", 16), ("db", 1), ("pl", 1)], flags: 0x7F },
            Call { head: "U.new", keys: &[("v4", 4), ("v6", 16)], flags: 0 },
            Call { head: "U.choose", keys: &[("ch4", 0), ("ch6", 0)], flags: 0 },
        ],
        builder: &[],
        lines: &[],
        texts: None,
    },
    Kind {
        letter: b'F',
        longest: 25,
        good: |r| {
            let first = *r.pick(&[0, 1, 2, 3, 4, 5, 6, 7, 12, 13, 14, 15]) | r.byte() & 0xF0;
            if first & 4 != 0 {
                fixed(r, first, &[(|_| true, 1), (|b| b & 8 != 0, 1)])
            } else {
                fixed(r, first, &[(|_| true, 5), (|b| b & 1 != 0, 4), (|b| b & 2 != 0, 16)])
            }
        },
        samples: &["04", "08", "0C", "0000000007", "05", "0D05", "0800000007", "0100000007C0000201"],
        calls: &[
            Call { head: "F", keys: &[("flags", 1), ("teid", 4), ("v4", 4), ("v6", 16), ("cid", 1)], flags: 0x0F },
            Call { head: "F.new", keys: &[("flags", 1), ("teid", 4), ("v4", 4), ("v6", 16), ("cid", 1)], flags: 0x0F },
            Call { head: "F.new_with_choose", keys: &[("flags", 1), ("teid", 4), ("v4", 4), ("v6", 16), ("cid", 1)], flags: 0x0F },
            Call { head: "F.ipv4", keys: &[("teid", 4), ("v4", 4), ("v6", 16)], flags: 0 },
            Call { head: "F.ipv6", keys: &[("teid", 4), ("v4", 4), ("v6", 16)], flags: 0 },
            Call { head: "F.dual_stack", keys: &[("teid", 4), ("v4", 4), ("v6", 16)], flags: 0 },
            Call { head: "F.choose_ipv4", keys: &[("teid", 4), ("v4", 4), ("v6", 16)], flags: 0 },
            Call { head: "F.choose_ipv6", keys: &[("teid", 4), ("v4", 4), ("v6", 16)], flags: 0 },
            Call { head: "F.choose_dual_stack", keys: &[("teid", 4), ("v4", 4), ("v6", 16)], flags: 0 },
        ],
        builder: &[("teid", 4), ("v4", 4), ("v6", 16), ("dual", 20), ("ch4", 0), ("ch6", 0), ("chdual", 0), ("cid", 1)],
        lines: &[],
        texts: None,
    },
    Kind {
        letter: b'S',
        longest: 29,
        good: |r| {
            let first = r.byte();
            fixed(r, first, &[(|_| true, 9), (|b| b & 2 != 0, 4), (|b| b & 1 != 0, 16)])
        },
        samples: &["020000000000000005C0000201", "FFFFFFFFFFFFFFFFFF"],
        calls: &[
            Call { head: "S", keys: &[("flags", 1), ("seid", 8), ("v4", 4), ("v6", 16)], flags: 3 },
            Call { head: "S.new", keys: &[("seid", 8), ("v4", 4), ("v6", 16)], flags: 0 },
        ],
        builder: &[],
        lines: &[],
        texts: None,
    },
    Kind {
        letter: b'O',
        longest: 34,
        good: |r| {
            // any flags, or few of them
            let first = if r.one_in(2) { r.byte() } else { 1 << r.below(8) | r.byte() & r.byte() & r.byte() };
            fixed(
                r,
                first,
                &[
                    (|_| true, 2),
                    (|b| b & 0x03 != 0, 4),
                    (|b| b & 0x15 != 0, 4),
                    (|b| b & 0x2A != 0, 16),
                    (|b| b & 0x0C != 0, 2),
                    (|b| b & 0x40 != 0, 3),
                    (|b| b & 0x80 != 0, 3),
                ],
            )
        },
        samples: &["01FF00000007C0000201", "0000", "00", "01", "FFFF", "40FF123456", "8000123456", "C000123456", "0400C00002011F"],
        calls: &[
            Call { head: "O", keys: &[("flags", 1), ("teid", 4), ("v4", 4), ("v6", 16), ("port", 2), ("ctag", 4), ("stag", 4)], flags: 0xFF },
            Call { head: "O.new", keys: &[("flags", 1), ("ctag", 4), ("stag", 4)], flags: 0xFF },
            Call { head: "O.gtpu_ipv4", keys: &[("teid", 4), ("v4", 4), ("ctag", 4), ("stag", 4)], flags: 0 },
            Call { head: "O.gtpu_ipv6", keys: &[("teid", 4), ("v6", 16), ("ctag", 4), ("stag", 4)], flags: 0 },
            Call { head: "O.udp_ipv4", keys: &[("v4", 4), ("port", 2), ("ctag", 4), ("stag", 4)], flags: 0 },
            // with keys that the call doesn't take
            Call { head: "O.new", keys: &[("stag", 4), ("teid", 4), ("v4", 4), ("v6", 16), ("port", 2), ("ctag", 4), ("flags", 1)], flags: 0xFF },
            Call { head: "O.gtpu_ipv4", keys: &[("stag", 4), ("teid", 4), ("v4", 4), ("v6", 16), ("port", 2), ("ctag", 4), ("flags", 1)], flags: 0xFF },
            Call { head: "O.gtpu_ipv6", keys: &[("stag", 4), ("teid", 4), ("v4", 4), ("v6", 16), ("port", 2), ("ctag", 4), ("flags", 1)], flags: 0xFF },
            Call { head: "O.udp_ipv4", keys: &[("stag", 4), ("teid", 4), ("v4", 4), ("v6", 16), ("port", 2), ("ctag", 4), ("flags", 1)], flags: 0xFF },
            Call { head: "O.flags.new", keys: &[], flags: 0 },
            Call { head: "O.flags.default", keys: &[], flags: 0 },
            Call { head: "O.flags.gtpu_ipv4", keys: &[], flags: 0 },
            Call { head: "O.flags.gtpu_ipv6", keys: &[], flags: 0 },
            Call { head: "O.flags.udp_ipv4", keys: &[], flags: 0 },
            Call { head: "O.flags.udp_ipv6", keys: &[], flags: 0 },
        ],
        builder: &[],
        lines: &[],
        texts: None,
    },
    Kind {
        letter: b'N',
        longest: 17,
        good: texts::good_node_id,
        samples: &[
            "02", "03", "0261C3", "00C0000201", "00C00002", "00C0000201FF", "01", "0120010DB8000000000000000000000001", "0261",
            "020161", "020361626300", "02036162", "0280", "10C0000201", "0200", "02C3A9", "FF", "026100C3A9ED9FBF",
        ],
        calls: &[
            Call { head: "N", keys: &[("v4", 4), ("v6", 16), ("name", TEXT)], flags: 0 },
            Call { head: "N.new_ipv4", keys: &[("v4", 4), ("v6", 16), ("name", TEXT)], flags: 0 },
            Call { head: "N.new_ipv6", keys: &[("v6", 16), ("v4", 4), ("name", TEXT)], flags: 0 },
            Call { head: "N.new_fqdn", keys: &[("name", TEXT), ("v4", 4), ("v6", 16)], flags: 0 },
            // with one key alone more often
            Call { head: "N", keys: &[("v4", 4)], flags: 0 },
            Call { head: "N", keys: &[("v6", 16)], flags: 0 },
            Call { head: "N", keys: &[("name", TEXT)], flags: 0 },
            Call { head: "N.new_ipv4", keys: &[("v4", 4)], flags: 0 },
            Call { head: "N.new_ipv6", keys: &[("v6", 16)], flags: 0 },
            Call { head: "N.new_fqdn", keys: &[("name", TEXT)], flags: 0 },
        ],
        builder: &[],
        lines: &[
            "N", "N name=-", "N name=61", "N name=C3", "N name=61*3", "N.new_fqdn name=-", "N.new_fqdn", "N.new_ipv4",
            "N.new", "N.fqdn name=61", "N v4=C0000201 name=61", "N name=61 name=62", "N.raw", "N.raw name=0+0",
            "N.raw slice=61 name=0+1", "N.raw slice=61 name=0+2", "N.raw slice=61 name=1+0", "N.raw slice=61 name=2+0",
            "N.raw slice=C3A9 name=0+1", "N.raw slice=C3A9 name=0+2 room=2", "N.raw slice=C3A9 name=0+2 room=3",
            "N.raw slice=61 name=1", "N.raw slice=61 name=0+", "N.raw slice=61 name=+1", "N.raw slice=61 name=0+1 v4=C0000201",
            "N.read", "N.read slice=02,61", "N.read slice=02,61 brief", "N.read slice=-", "N.read slice=", "N.read brief",
        ],
        texts: Some(Texts {
            long: texts::long_node_id,
            edges: texts::node_id_edges,
        }),
    },
    Kind {
        letter: b'P',
        longest: 9,
        good: texts::good_pfd,
        samples: &[
            "010005", "6000000161000162000163", "0100000261", "20000000", "0000", "00", "0100", "01", "FF00", "01000001C3",
            "03000001C3FFFF", "0100FFFF", "01000001", "2000000400026630", "2000000161", "1000000161", "E0000001610001620001630001",
            "E000000161000162000163000164", "A000000161000162000163", "C0FF000161000162000163", "4000000161000162", "0100000161FF",
            "1F000001610001620001630001640001650000", "FF00000161000162000163000164000165000166000167000168000169",
        ],
        calls: &[
            Call { head: "P", keys: &PFD_KEYS, flags: 0xFF },
            Call { head: "P.flow_description", keys: &PFD_MADE, flags: 0 },
            Call { head: "P.url", keys: &PFD_MADE, flags: 0 },
            Call { head: "P.domain_name", keys: &PFD_MADE, flags: 0 },
            Call { head: "P.flow_and_url", keys: &PFD_MADE, flags: 0 },
            Call { head: "P.domain_and_protocol", keys: &PFD_MADE, flags: 0 },
            // with just the keys that the call takes
            Call { head: "P.flow_description", keys: &[("fd", TEXT)], flags: 0 },
            Call { head: "P.url", keys: &[("url", TEXT)], flags: 0 },
            Call { head: "P.domain_name", keys: &[("dn", TEXT)], flags: 0 },
            Call { head: "P.flow_and_url", keys: &[("fd", TEXT), ("url", TEXT)], flags: 0 },
            Call { head: "P.domain_and_protocol", keys: &[("dn", TEXT), ("dnp", TEXT)], flags: 0 },
        ],
        builder: &[
            ("fd", TEXT), ("url", TEXT), ("dn", TEXT), ("cp", TEXT), ("dnp", TEXT), ("afd", LIST), ("aurl", LIST), ("adnp", LIST),
            ("afd+", TEXT), ("aurl+", TEXT), ("adnp+", TEXT),
        ],
        lines: &[
            "P", "P.build", "P fd=-", "P fd=", "P fd=61", "P fd=C3", "P afd=", "P afd=-", "P afd=-,-", "P afd=61,", "P afd=,61",
            "P afd+=61", "P fd+=61", "P.build fd=", "P.build fd+=61", "P.build afd=", "P.build afd", "P.build afd+=",
            "P.build afd+=-", "P.build afd+=61,62", "P.build afd=61,62 afd+=63", "P.build afd+=61 afd=", "P.build fd=C3 fd=61",
            "P.build fd=61 fd=C3", "P.build afd=C3 afd=61", "P.build afd=C3 afd+=61", "P.build afd+=C3 afd=61", "P.build flags=01",
            "P.build url=C3 afd+=C3", "P.build afd+=61 aurl+=62 afd+=63 aurl+=64", "P.build fd=61 fd=62", "P.build.",
            "P.flow_description fd=61 url=62", "P.flow_description fd=", "P.flow_description", "P.flow_and_url fd=61",
            "P.custom_pfd_content cp=61", "P.url url=C3", "P flags=01 fd=61*3", "P flags=FF", "P.raw", "P.raw_build",
            "P.raw afd=0+0*0", "P.raw afd=9+0*0", "P.raw afd=0+0*1", "P.raw fd=0+0", "P.raw fd=1+0",
            "P.raw slice=000161 afd=0+3*1", "P.raw slice=000161 afd=0+3*2", "P.raw slice=000161 afd=0+2*1",
            "P.raw slice=000161 afd=0+3*0", "P.raw slice=00016100 afd=0+4*1", "P.raw slice=000161 afd=0+3*1 room=4",
            "P.raw_build slice=000161,000162 afd+=0 afd+=3", "P.raw_build slice=000161,000162 afd+=0 afd+=2",
            "P.raw_build slice=000161,000162 afd+=3 afd+=0", "P.raw_build slice=000161,000162 afd=0+3*1 afd+=3",
            "P.raw_build slice=000161,000162 afd=0+2*1 afd+=3", "P.raw_build afd+=0", "P.raw_build fd+=0", "P.raw_build fd=0+0",
            "P.read", "P.read slice=6000000161000162000163", "P.read slice=60,00,000161000162000163 brief", "P.read slice=-",
        ],
        texts: Some(Texts {
            long: texts::long_pfd,
            edges: texts::pfd_edges,
        }),
    },
    Kind {
        letter: b'H',
        // A byte more than the longest form, so that every length up to 20 comes.
        longest: 17,
        good: |r| {
            let first = r.byte();
            let mut p = fixed(r, first, &[(|_| true, 8), (|b| b & 1 != 0, 8)]);
            match r.below(8) {
                0 => p[1..].fill(*r.pick(&[0, 255])),
                // a length field that fits
                1 | 2 => (p[2], p[3]) = (0, p.len() as u8 - 4),
                _ => {}
            }
            p
        },
        samples: &[
            "20010004000001A5", "22010004000001A5", "2132000C0123456789ABCDEFABCDEF50", "38FFFFFFFFFFFFFF", "20010004000001", "21010004000001A5",
        ],
        calls: &[
            Call {
                head: "H",
                keys: &[("ver", 1), ("fo", 0), ("mp", 0), ("s", 0), ("type", 1), ("len", 2), ("seid", 8), ("seq", 4), ("prio", 1)],
                flags: 0,
            },
            Call {
                head: "H",
                keys: &[
                    ("ver", 1), ("fo", 0), ("mp", 0), ("s", 0), ("type", 1), ("len", 2), ("seid", 8), ("seq", 4), ("prio", 1),
                    ("room", ROOM),
                ],
                flags: 0,
            },
        ],
        builder: &[],
        lines: &[
            "H", "H ", "H -", "H 21", "H fo", "H mp", "H s", "H fo mp s", "H s mp fo", "H fo fo", "H fo mp fo", "H fo=", "H fo=1", "H s=1",
            "H FO", "H f", "H foo", "H fo ", "H  fo", "H fo  mp", "H fo\tmp", "H\tfo", "H fo\r", "H fo,mp", "H fo+", "H fo+=1", "Hfo", "H -fo",
            "H ver", "H ver=", "H ver=1", "H ver=01", "H ver=001", "H ver=08", "H ver=FF", "H ver=0x01", "H ver=01 ver=01", "H ver=01 ver=02",
            "H Ver=01", "H seq=000001", "H seq=00FFFFFF", "H seq=01000000", "H seq=FFFFFFFF", "H seq=1", "H type=0001", "H len=04",
            "H seid=00000001", "H seid=0123456789ABCDEF", "H s seid=0123456789ABCDEF", "H prio=A5", "H mp prio=A5", "H prio=5", "H flags=21",
            "H rec=H", "H brief", "H.", "H.new", "H.raw room=8", "H room", "H room=", "H room=0", "H room=7", "H room=8", "H room=9",
            "H s room=7", "H s room=8", "H s room=15", "H s room=16", "H s room=17", "H room=16 s", "H room=65535", "H room=65536", "H room=008",
            "H room=8 room=8", "H room=8 ", "H room=-1", "H room=+8", "H room=0x8", "H room=8.0", "H room=65544", "H room=4294967304",
            "H room=18446744073709551624", "H fo=1 room=0",
        ],
        texts: None,
    },
    Kind {
        letter: b'T',
        longest: 0,
        good: |r| {
            let n = r.below(12);
            text(r, n)
        },
        samples: &["61C3", "C3A9", "EDA080", "F48FBFBF"],
        calls: &[],
        builder: &[],
        lines: &[],
        texts: None,
    },
];

const PFD_KEYS: [(&str, usize); 9] = [
    ("flags", 1), ("fd", TEXT), ("url", TEXT), ("dn", TEXT), ("cp", TEXT), ("dnp", TEXT), ("afd", LIST), ("aurl", LIST),
    ("adnp", LIST),
];
const PFD_MADE: [(&str, usize); 5] = [("fd", TEXT), ("url", TEXT), ("dn", TEXT), ("cp", TEXT), ("dnp", TEXT)];

/// The fields that the first byte has sent, the first byte at their front.
fn fixed(r: &mut Random, first: u8, fields: &[Field]) -> Vec<u8> {
    let n = fields.iter().filter(|(sent, _)| sent(first)).map(|(_, width)| width).sum();
    let mut p = r.bytes(n);
    p[0] = first;
    p
}

// ---------------------------------------------------------------- texts

/// Table 3-7 of the Unicode Standard: first byte from and to, second byte from and to, length.
const ROWS: [[u8; 5]; 9] = [
    [0x00, 0x7F, 0x80, 0xBF, 1],
    [0xC2, 0xDF, 0x80, 0xBF, 2],
    [0xE0, 0xE0, 0xA0, 0xBF, 3],
    [0xE1, 0xEC, 0x80, 0xBF, 3],
    [0xED, 0xED, 0x80, 0x9F, 3],
    [0xEE, 0xEF, 0x80, 0xBF, 3],
    [0xF0, 0xF0, 0x90, 0xBF, 4],
    [0xF1, 0xF3, 0x80, 0xBF, 4],
    [0xF4, 0xF4, 0x80, 0x8F, 4],
];

/// A byte of a range, its ends more often than others.
fn within(r: &mut Random, from: u8, to: u8) -> u8 {
    match r.below(4) {
        0 => from,
        1 => to,
        _ => r.between(from as usize, to as usize) as u8,
    }
}

/// A sequence of a row, which is well formed.
fn sequence(r: &mut Random) -> Vec<u8> {
    let [from, to, from2, to2, len] = *r.pick(&ROWS);
    let mut s = vec![within(r, from, to), within(r, from2, to2)];
    s.extend([within(r, 0x80, 0xBF), within(r, 0x80, 0xBF)]);
    s.truncate(len as usize);
    s
}

/// A text of n sequences, which is well formed.
fn text(r: &mut Random, n: usize) -> Vec<u8> {
    (0..n).flat_map(|_| sequence(r)).collect()
}

/// A sequence that isn't well formed: overlong, a surrogate, above the last character, cut, or out of range.
fn broken(r: &mut Random) -> Vec<u8> {
    let tail = |r: &mut Random| within(r, 0x80, 0xBF);
    match r.below(8) {
        0 => vec![within(r, 0xC0, 0xC1), tail(r)],
        1 => vec![0xE0, within(r, 0x80, 0x9F), tail(r)],
        2 => vec![0xF0, within(r, 0x80, 0x8F), tail(r), tail(r)],
        3 => vec![0xED, within(r, 0xA0, 0xBF), tail(r)],
        4 => vec![0xF4, within(r, 0x90, 0xBF), tail(r), tail(r)],
        5 => vec![within(r, 0xF5, 0xFF), tail(r)],
        6 => vec![tail(r)],
        _ => {
            let s = sequence(r);
            s[..r.below(s.len()).max(1)].to_vec()
        }
    }
}

/// Every row with the bytes at and just outside its ranges, of every length, alone and before a letter.
fn edge_texts() -> Vec<Vec<u8>> {
    let around = |from: u8, to: u8| [from.wrapping_sub(1), from, to, to.wrapping_add(1)];
    let tails = around(0x80, 0xBF);
    let mut all: Vec<Vec<u8>> = Vec::new();
    for [from, to, from2, to2, _] in ROWS {
        let mut seconds = tails.to_vec();
        seconds.extend(around(from2, to2));
        let mut level: Vec<Vec<u8>> = around(from, to).iter().map(|b| vec![*b]).collect();
        for next in [&seconds[..], &tails[..], &tails[..]] {
            all.extend(level.iter().cloned());
            level = level.iter().flat_map(|s| next.iter().map(move |b| [&s[..], &[*b][..]].concat())).collect();
        }
        all.extend(level);
    }
    all.sort();
    all.dedup();
    let with_letter: Vec<Vec<u8>> = all.iter().map(|s| [&s[..], b"a"].concat()).collect();
    all.extend(with_letter);
    all
}

/// A text with some of its parts broken, now and then long.
fn any_text(r: &mut Random, most: usize) -> Vec<u8> {
    let n = if r.one_in(200) { r.below(most / 4) } else { r.below(24) };
    let bad = if r.one_in(3) { 0 } else { r.between(1, 3) };
    let mut parts: Vec<Vec<u8>> = (0..n).map(|_| sequence(r)).collect();
    for _ in 0..bad {
        let part = if r.one_in(4) { r.bytes(1) } else { broken(r) };
        // Behind good text more often than at the front, so that the place counts.
        let at = r.below(parts.len() + 1).max(r.below(parts.len() + 1));
        parts.insert(at, part);
    }
    let mut t = parts.concat();
    if r.one_in(4) && !t.is_empty() {
        t.truncate(r.below(t.len()));
    }
    t.truncate(most);
    t
}

// ---------------------------------------------------------------- payload lines

/// Digits of upper, lower or mixed case.
fn hex(r: &mut Random, bytes: &[u8]) -> Vec<u8> {
    const UPPER: &[u8; 16] = b"0123456789ABCDEF";
    const LOWER: &[u8; 16] = b"0123456789abcdef";
    let style = r.below(4);
    let mut s = Vec::with_capacity(2 * bytes.len());
    let mut coin = 0u64;
    for (i, b) in bytes.iter().enumerate() {
        if style == 3 && i % 32 == 0 {
            coin = r.next();
        }
        for d in [b >> 4, b & 15] {
            let lower = style == 2 || (style == 3 && coin & 1 == 1);
            s.push(if lower { LOWER } else { UPPER }[d as usize]);
            coin >>= 1;
        }
    }
    s
}

/// The line of a payload.
fn line_of(r: &mut Random, letter: u8, payload: &[u8]) -> Vec<u8> {
    let mut line = vec![letter, b' '];
    if payload.is_empty() {
        line.push(b'-');
    }
    line.extend(hex(r, payload));
    line
}

struct Payloads<'a> {
    kind: &'a Kind,
    /// The most digit pairs of a good line.
    pairs: usize,
    /// Random lines stay short.
    short: bool,
    /// The lines ask for the strict verdict.
    verdict: bool,
    edges: Vec<Vec<u8>>,
}

impl<'a> Payloads<'a> {
    fn new(kind: &'a Kind, pairs: usize, short: bool, verdict: bool) -> Self {
        let edges = match &kind.texts {
            Some(t) => (t.edges)(),
            None if kind.letter == b'T' && !short => edge_texts(),
            None => Vec::new(),
        };
        Payloads { kind, pairs, short, verdict, edges }
    }

    /// Lines that aren't payload lines, of this letter and of others.
    fn odd_lines(&self) -> Vec<Vec<u8>> {
        let k = self.kind.letter as char;
        let small = k.to_ascii_lowercase();
        let mut all: Vec<Vec<u8>> = ["", " ", "-", "  -", "?", "? 0 -", "X 00", "x 00", "0 00"]
            .iter()
            .map(|l| l.as_bytes().to_vec())
            .collect();
        for end in [
            "", " ", "  ", " --", " - ", "  -", "\t-", "-", " -0", " 0-", " 0", " 000", " 0x00", "00", "  00", "\t00",
            " 00 ", " 00\t", " 00\r", " 00\0", "\0", "\r", " \r", " -\r", " -\0", " 00 00", " 0 0", " 0G", " G0",
            " 0g", " 0:", " 0/", " 0@", " 0`", " +0", " 00\u{e9}", " 00-", " 00.", " 00=", ".", "=", " =", " .", ":00",
        ] {
            all.push(format!("{k}{end}").into_bytes());
        }
        for line in ["{k}{k} 00", " {k} 00", "{k}\n00", "{small} 00", "{small} -"] {
            let line = line.replace("{k}", &k.to_string()).replace("{small}", &small.to_string());
            all.extend(line.split('\n').map(|l| l.as_bytes().to_vec()));
        }
        all
    }

    /// Lengths of payloads around the limits. Short lists have few: the long one, of 131 KB, is in those of S and H alone, and
    /// in no list of verdicts.
    fn limits(&self) -> Vec<usize> {
        let most = self.pairs;
        match (self.short, most) {
            (true, 4_096) => vec![4_096, 4_097],
            (true, _) if self.verdict || !b"SH".contains(&self.kind.letter) => vec![],
            (true, _) => vec![65_536],
            (false, 4_096) => vec![4_095, 4_096, 4_097, 4_098],
            (false, _) => vec![4_096, 4_097, 65_534, 65_535, 65_536, 65_537, most - 1, most, most + 1],
        }
    }

    fn counted(&self) -> usize {
        self.lengths() + self.edges.len()
    }

    /// How many pairs of a first byte and a length there are, and the empty payload. For verdicts every length up to 20 comes.
    fn lengths(&self) -> usize {
        match (self.kind.letter, self.verdict) {
            (b'T', _) => 0,
            (_, false) => 1 + 256 * (self.kind.longest + 3),
            (_, true) => 1 + 256 * (self.kind.longest + 3).max(20),
        }
    }

    /// The line of a payload. Of the Node IDs that are judged every second one has any high four bits in its first byte.
    fn line(&self, r: &mut Random, mut payload: Vec<u8>) -> Vec<u8> {
        if self.verdict && self.kind.letter == b'N' && r.one_in(2) {
            if let Some(first) = payload.first_mut() {
                *first = *first & 0x0F | r.byte() & 0xF0;
            }
        }
        line_of(r, self.kind.letter, &payload)
    }

    /// Every length up to a little above the longest form, with every first byte; then the edges of texts.
    fn counted_line(&self, i: usize, r: &mut Random) -> Vec<u8> {
        let payload = match i {
            _ if i >= self.lengths() => return self.line(r, self.edges[i - self.lengths()].clone()),
            0 => Vec::new(),
            _ => {
                let mut p = r.bytes(1 + (i - 1) / 256);
                p[0] = (i - 1) as u8;
                p
            }
        };
        line_of(r, self.kind.letter, &payload)
    }

    fn random_line(&self, r: &mut Random) -> Vec<u8> {
        let n = if self.short { r.below(9_800) } else { r.below(10_000) };
        match n {
            0..=7_999 => {
                let payload = self.payload(r);
                self.line(r, payload)
            }
            8_000..=9_799 => self.malformed(r),
            _ => self.long_line(r),
        }
    }

    fn payload(&self, r: &mut Random) -> Vec<u8> {
        if self.kind.letter == b'T' {
            let most = if self.short { 96 } else { self.pairs.min(4096) };
            return any_text(r, most);
        }
        let mut p = (self.kind.good)(r);
        match r.below(10) {
            0..=3 => {
                if r.one_in(2) {
                    let n = r.between(1, 8);
                    p.extend(r.bytes(n));
                }
                p
            }
            4..=7 => damaged(r, p),
            8 => {
                let n = r.below(self.kind.longest + 4);
                r.bytes(n)
            }
            _ => {
                let n = r.below(if self.short { 96 } else { 300 });
                r.bytes(n)
            }
        }
    }

    /// A payload line with one thing wrong with it, now and then two.
    fn malformed(&self, r: &mut Random) -> Vec<u8> {
        if r.one_in(16) {
            let n = r.below(40);
            return without_ends(r.bytes(n));
        }
        if r.one_in(8) {
            return r.pick(&self.odd_lines()).clone();
        }
        let payload = (self.kind.good)(r);
        let mut line = line_of(r, self.kind.letter, &payload);
        for _ in 0..if r.one_in(4) { 2 } else { 1 } {
            spoil(r, &mut line);
        }
        without_ends(line)
    }

    /// Long payloads, and lines that are too long by a little or by much.
    fn long_line(&self, r: &mut Random) -> Vec<u8> {
        let letter = self.kind.letter;
        let n = match r.below(200) {
            0..=39 if self.pairs > 4_096 && self.kind.texts.is_some() => r.between(4_097, 65_536),
            0..=99 => r.below(4_097),
            100..=179 => r.between(4_094, 4_099),
            180..=184 if self.pairs > 4_096 => r.between(4_097, self.pairs),
            185..=187 if self.pairs > 4_096 => r.between(65_534, 65_537),
            188..=189 if self.pairs > 4_096 => r.between(self.pairs - 1, self.pairs + 2),
            190..=191 => return self.very_long(r),
            _ => r.between(2_000, 4_100),
        };
        let payload = match (letter, &self.kind.texts) {
            (b'T', _) => any_long_text(r, n),
            (_, Some(t)) => {
                let good = r.one_in(2);
                (t.long)(r, n, good)
            }
            _ => {
                let mut p = (self.kind.good)(r);
                let had = p.len().min(n);
                p.truncate(n);
                p.extend(r.bytes(n - had));
                p
            }
        };
        let mut line = self.line(r, payload);
        if r.one_in(8) {
            spoil(r, &mut line);
        }
        without_ends(line)
    }

    /// A line of up to 200,000 bytes that is no good one.
    fn very_long(&self, r: &mut Random) -> Vec<u8> {
        let n = r.between(2 * self.pairs + 3, 200_000.max(2 * self.pairs + 4));
        let mut line = match r.below(4) {
            0 => vec![b'0'; n],
            1 => vec![b' '; n],
            2 => r.bytes(n),
            _ => {
                let digits = r.bytes(n / 2);
                hex(r, &digits)
            }
        };
        line[0] = self.kind.letter;
        line[1] = b' ';
        without_ends(line)
    }
}

/// The line that asks for the strict verdict on the payload of another.
fn judged(line: Vec<u8>) -> Vec<u8> {
    [b"V", &line[..]].concat()
}

/// Lines that almost ask for a verdict, with k for the kind's letter.
const ODD_VERDICTS: [&str; 12] =
    ["v", "vk 00", "kV 00", " Vk 00", "V k 00", "VVk 00", "V\tk 00", "Vk", "VT 61", "VH 00", "VV 00", "V.k 00"];

/// A payload with a byte changed, cut, doubled, or bytes taken out or put in.
fn damaged(r: &mut Random, mut p: Vec<u8>) -> Vec<u8> {
    let at = r.below(p.len());
    match r.below(6) {
        0 => p[at] = r.byte(),
        1 => p[at] ^= 1 << r.below(8),
        2 => p.truncate(at),
        3 => p.insert(at, p[at]),
        4 => drop(p.remove(at)),
        _ => p = [&p[..], &p[..]].concat(),
    }
    p
}

/// A text of about n bytes that is good, or bad near its end.
fn any_long_text(r: &mut Random, n: usize) -> Vec<u8> {
    let mut t = text(r, n);
    t.truncate(n);
    if r.one_in(2) {
        let bad = broken(r);
        let at = n.saturating_sub(r.below(12));
        t.splice(at..at, bad);
        t.truncate(n);
    }
    t
}

/// Changes one thing of a line.
fn spoil(r: &mut Random, line: &mut Vec<u8>) {
    const ODD: &[u8] = b" \t\r\0-+.=:/@G`gxXoOlLsS?~\x7f\x80\xff";
    let at = r.below(line.len() + 1);
    let odd = if r.one_in(3) { r.byte() } else { *r.pick(ODD) };
    match r.below(9) {
        0 => line.insert(at, odd),
        1 if at < line.len() => line[at] = odd,
        2 if at < line.len() => drop(line.remove(at)),
        3 => line.push(odd),
        4 => line.truncate(at),
        5 => drop(line.pop()),
        6 if !line.is_empty() => line[0] = if r.one_in(2) { *r.pick(b"UFSNOPHBTufsnop") } else { odd },
        7 if line.len() > 1 => line[1] = odd,
        _ => line.insert(0, odd),
    }
}

/// A line has no byte that ends one.
fn without_ends(mut line: Vec<u8>) -> Vec<u8> {
    line.retain(|c| *c != b'\n');
    line
}

// ---------------------------------------------------------------- record lines

struct Records<'a> {
    kind: &'a Kind,
    short: bool,
}

type Token = (String, &'static str, Vec<u8>);

impl Records<'_> {
    fn fixed_lines(&self) -> Vec<Vec<u8>> {
        let k = self.kind.letter as char;
        let mut all: Vec<Vec<u8>> = Vec::new();
        for end in [
            ".", "=", "..", ". ", "= ", " =", " .", " +=", ".=", ".x", ".new.", ".new.new", ".NEW", ".neww", ".ne",
            ".new ", " .new", ".new\t", ".new\r", ".new\0", "  flags=01", " flags=01 ", " flags=01  seid=", " flags",
            " flags=", " flags==01", " flags+=01", " flags=1", " flags=001", " flags=0g", " flags=-", " flags =01",
            " flags= 01", " Flags=01", " flag=01", " flagss=01", " flags=01 flags=01", " flags=01 flags", " flags=01,",
            " flags=01.", " v4=", " v4=-", " v4=C00002", " v4=C000020", " v4=C000020100", " v4=192.0.2.1", " v6=::1",
            "\tflags=01", " flags=01\r", " flags=01\0", " flags=\u{e9}", " \u{e9}=01",
        ] {
            all.push(format!("{k}{end}").into_bytes());
        }
        for line in [".", "=", "..", "=.", ".new", " =", "= =", "X.new", "X flags=01", "?=."] {
            all.push(line.as_bytes().to_vec());
        }
        let small = k.to_ascii_lowercase();
        for line in [format!("{small}.new"), format!("{small} flags=01"), format!("{k}{k} flags=01"), format!(" {k}.new")] {
            all.push(line.into_bytes());
        }
        all.extend(self.kind.lines.iter().map(|l| l.as_bytes().to_vec()));
        if !self.short && self.kind.letter == b'H' {
            // Good lines as long as they may be, and a byte longer.
            all.extend([0, 1].map(|more| zeros_in("H fo room=", "8", LONGEST_LINE + more)));
        }
        all
    }

    /// For each call: every choice of keys from every key on; and every flag byte with every choice of the others.
    /// Of a builder every sequence of up to four calls.
    fn counted(&self) -> usize {
        self.built() + self.kind.calls.iter().map(|c| c.turned_lines() + c.flag_lines()).sum::<usize>()
    }

    /// How many sequences of up to four builder calls there are.
    fn built(&self) -> usize {
        match self.kind.builder.len() {
            0 => 0,
            n => (0..=4).map(|calls| n.pow(calls)).sum(),
        }
    }

    /// The words of builder calls. Two addresses have a comma between them.
    fn builder_tokens(&self, calls: &[usize], r: &mut Random) -> Vec<Token> {
        let token = |i: &usize| {
            let (key, width) = self.kind.builder[*i];
            let mut value = match width {
                TEXT => texts::text_value(r),
                LIST => texts::list_value(r),
                _ => {
                    let bytes = r.bytes(width);
                    hex(r, &bytes)
                }
            };
            if key == "dual" {
                value.insert(8, b',');
            }
            (key.to_string(), if width == 0 { "" } else { "=" }, value)
        };
        calls.iter().map(token).collect()
    }

    fn counted_line(&self, mut i: usize, r: &mut Random) -> Vec<u8> {
        let n = self.kind.builder.len();
        if i < self.built() {
            let mut calls = Vec::new();
            while i > 0 {
                i -= 1;
                calls.push(i % n);
                i /= n;
            }
            return self.builder_line(&self.builder_tokens(&calls, r));
        }
        i -= self.built();
        for c in self.kind.calls {
            let (turned, flagged) = (c.turned_lines(), c.flag_lines());
            if i < turned {
                return c.line(&c.turned(i % c.choices(), i / c.choices(), r));
            }
            i -= turned;
            if i < flagged {
                let mut tokens = c.turned(1 | i / 256 << 1, 0, r);
                tokens[0].2 = format!("{:02X}", i % 256).into_bytes();
                return c.line(&tokens);
            }
            i -= flagged;
        }
        unreachable!()
    }

    fn builder_line(&self, tokens: &[Token]) -> Vec<u8> {
        line_of_words(&format!("{}.build", self.kind.letter as char), tokens)
    }

    /// Builder calls with repeats, now and then spoilt.
    fn random_build(&self, r: &mut Random) -> Vec<u8> {
        let count = if r.one_in(20) { r.below(60) } else { r.below(10) };
        // Of few different calls more often, since address and choice of one family are refused.
        let few = r.bytes(4);
        let any = r.one_in(3);
        let calls: Vec<usize> = (0..count)
            .map(|_| if any { r.below(self.kind.builder.len()) } else { *r.pick(&few) as usize % self.kind.builder.len() })
            .collect();
        let mut tokens = self.builder_tokens(&calls, r);
        match r.below(10) {
            0..=6 => {}
            7 => {
                let mut line = self.builder_line(&tokens);
                spoil_words(r, &mut line, &format!("{}.build", self.kind.letter as char), self.kind.heads());
                return without_ends(line);
            }
            _ if tokens.is_empty() => {}
            _ => spoil_token(r, &mut tokens, self.short, self.kind),
        }
        without_ends(self.builder_line(&tokens))
    }

    fn random_line(&self, r: &mut Random) -> Vec<u8> {
        if self.kind.texts.is_some() {
            match r.below(400) {
                0 if !self.short => return texts::big_line(r, self.kind.letter),
                1..=120 => return without_ends(texts::raw_line(r, self.kind.letter)),
                _ => {}
            }
        }
        if !self.kind.builder.is_empty() && r.one_in(2) {
            return self.random_build(r);
        }
        let c = r.pick(self.kind.calls);
        let mut tokens = c.turned(c.choices() - 1, 0, r);
        let kept = r.below(5);
        tokens.retain(|_| r.below(4) <= kept);
        if r.one_in(2) {
            r.shuffle(&mut tokens);
        }
        if r.one_in(2) {
            return c.line(&tokens);
        }
        if r.one_in(3) || tokens.is_empty() {
            let mut line = c.line(&tokens);
            spoil_words(r, &mut line, c.head, self.kind.heads());
            return without_ends(line);
        }
        spoil_token(r, &mut tokens, self.short, self.kind);
        c.line(&tokens)
    }
}

impl Call {
    fn choices(&self) -> usize {
        1 << self.keys.len()
    }

    /// A call without keys has one line.
    fn turned_lines(&self) -> usize {
        self.choices() * self.keys.len().max(1)
    }

    fn flag_lines(&self) -> usize {
        match self.keys.first() {
            Some(("flags" | "ver", _)) => 256 * self.choices() / 2,
            _ => 0,
        }
    }

    /// The tokens of the keys whose bits are set, from a key on and around.
    fn turned(&self, choice: usize, from: usize, r: &mut Random) -> Vec<Token> {
        let n = self.keys.len();
        let order = (0..n).map(|i| (from + i) % n).filter(|i| choice >> i & 1 == 1);
        order
            .map(|i| {
                let (key, width) = self.keys[i];
                match width {
                    TEXT => return (key.to_string(), "=", texts::text_value(r)),
                    LIST => return (key.to_string(), "=", texts::list_value(r)),
                    ROOM => return (key.to_string(), "=", room_value(r)),
                    _ => {}
                }
                let mut value = r.bytes(width);
                if key == "flags" && !r.one_in(6) {
                    value[0] &= self.flags;
                }
                // A header has 3 bits of the version and 24 of the sequence number; a record may have more.
                if key == "ver" && r.one_in(2) {
                    value[0] &= 7;
                }
                if key == "seq" && r.one_in(2) {
                    value[0] = r.one_in(4) as u8;
                }
                if r.one_in(8) {
                    value.fill(*r.pick(&[0, 255]));
                }
                (key.to_string(), if width == 0 { "" } else { "=" }, hex(r, &value))
            })
            .collect()
    }

    fn line(&self, tokens: &[Token]) -> Vec<u8> {
        line_of_words(self.head, tokens)
    }
}

/// An output's length: around those of headers, any, and now and then a word that is none.
fn room_value(r: &mut Random) -> Vec<u8> {
    let n = match r.below(16) {
        0 => r.below(65_536),
        1 => r.below(24),
        2 => return r.pick(&ODD_ROOMS).as_bytes().to_vec(),
        _ => *r.pick(&[0, 7, 8, 9, 15, 16, 17, 65_535]),
    };
    let zeros = if r.one_in(16) { r.below(24) } else { 0 };
    format!("{}{n}", "0".repeat(zeros)).into_bytes()
}

const ODD_ROOMS: [&str; 20] = [
    "65536", "65544", "4294967304", "18446744073709551615", "18446744073709551624", "99999999999999999999999", "", "-", "-8", "+8",
    "8.0", "0x10", "1e1", "1F", "8,16", "8+8", "8*1", "\u{668}", "16\r", "\t16",
];

/// A line of so many bytes: zeros between two words.
fn zeros_in(head: &str, end: &str, bytes: usize) -> Vec<u8> {
    format!("{head}{}{end}", "0".repeat(bytes - head.len() - end.len())).into_bytes()
}

fn line_of_words(head: &str, tokens: &[Token]) -> Vec<u8> {
    let mut line = head.as_bytes().to_vec();
    for (key, op, value) in tokens {
        line.push(b' ');
        line.extend(key.as_bytes());
        line.extend(op.as_bytes());
        line.extend(value);
    }
    line
}

impl Kind {
    /// Ends of first words, of this kind's calls and of others.
    fn heads(&self) -> &'static [&'static str] {
        match self.texts {
            None => &FIXED_HEADS,
            Some(_) => &TEXT_HEADS,
        }
    }
}

const FIXED_HEADS: [&str; 27] = [
    ".", "=", ".new", ".New", ".ne", ".newer", ".new.new", "  ", " .", " =", "\t", ".choose", ".build", ".ipv4", ".ipv6",
    ".dual_stack", ".choose_ipv4", ".choose_dual", ".new_with_choose", ".gtpu_ipv4", ".udp_ipv4", ".udp_ipv6", ".flags",
    ".flags.", ".flags.new", ".flags.ipv4", ".default",
];

const TEXT_HEADS: [&str; 26] = [
    ".", "=", ".new", ".new_ipv4", ".new_ipv6", ".new_fqdn", ".new_fqd", "  ", " .", " =", "\t", ".build", ".Build", ".builder",
    ".raw", ".raw_build", ".read", ".flow_description", ".url", ".domain_name", ".flow_and_url", ".domain_and_protocol", ".urls",
    ".custom_pfd_content", ".fd", ".build.build",
];

/// Changes the words of a record line, whatever they say.
fn spoil_words(r: &mut Random, line: &mut Vec<u8>, head: &str, heads: &[&str]) {
    match r.below(6) {
        0 => {
            let new = [&head.as_bytes()[..1], r.pick(heads).as_bytes()].concat();
            line.splice(..head.len(), new);
        }
        1 => line[0] = *r.pick(b"UFSNOPHBTufsnop.= "),
        2 => {
            let spaces: Vec<usize> = (0..line.len()).filter(|i| line[*i] == b' ').collect();
            if !spaces.is_empty() {
                let at = *r.pick(&spaces);
                line.splice(at..=at, r.pick(&["  ", "\t", "", "=", " =", "\0", ".", ","]).bytes());
            }
        }
        3 => line.extend(r.pick(&[" ", "\r", "\0", "\t", " x", " x=1", " =", ".", "=", " fo"]).bytes()),
        _ => spoil(r, line),
    }
}

/// Keys of all kinds, and some of none.
const KEYS: [&str; 21] = [
    "teid", "cid", "flags", "seid", "v4", "v6", "name", "fd", "", "v", "v5", "ipv4", "db", "pl", "port", "ctag", "stag", "ch4",
    "ch6", "chdual", "dual",
];

/// Keys of the kinds that hold texts, and some of none.
const TEXT_KEYS: [&str; 24] = [
    "v4", "v6", "name", "flags", "fd", "url", "dn", "cp", "dnp", "afd", "aurl", "adnp", "afd+", "aurl+", "adnp+", "fd+", "", "d",
    "af", "slice", "room", "brief", "teid", "afd++",
];

/// Keys of headers, and some of none.
const HEADER_KEYS: [&str; 20] = [
    "ver", "fo", "mp", "s", "type", "len", "seid", "seq", "prio", "room", "", "v", "version", "f", "se", "flags", "brief", "msg", "rec",
    "teid",
];

/// Changes one token: its key, its sign, its value, or how often it is there.
fn spoil_token(r: &mut Random, tokens: &mut Vec<Token>, short: bool, kind: &Kind) {
    let at = r.below(tokens.len());
    let (key, op, value) = &mut tokens[at];
    match r.below(12) {
        0 => {
            let again = (key.clone(), *op, if r.one_in(2) { value.clone() } else { b"00".to_vec() });
            let to = r.below(tokens.len() + 1);
            tokens.insert(to, again);
        }
        1 => *op = *r.pick(&["", "+=", "==", "= ", " =", "-", ":", "+", "."]),
        2 => value.clear(),
        3 if !value.is_empty() => value.truncate(r.below(value.len())),
        4 => value.push(b'0'),
        5 => value.extend(b"00"),
        6 => *value = value.repeat(2),
        7 if !value.is_empty() => {
            let i = r.below(value.len());
            value[i] = *r.pick(b"gG:/@`-+ .,=*xX\0\x7f\x80\xff");
        }
        8 if kind.texts.is_some() => *key = r.pick(&TEXT_KEYS).to_string(),
        8 if kind.letter == b'H' => *key = r.pick(&HEADER_KEYS).to_string(),
        8 => *key = r.pick(&KEYS).to_string(),
        9 => *key = key.to_uppercase(),
        10 => {
            if r.one_in(2) {
                key.pop();
            } else {
                key.push(*r.pick(&['s', '+', '.', ' ', '4']));
            }
        }
        _ if !short && r.one_in(100) => {
            let n = *r.pick(&[1_000, 60_000, 65_590, 65_600, 90_000]);
            *value = hex(&mut Random(n as u64), &vec![0xA5; n]);
        }
        _ if kind.texts.is_some() => *value = r.pick(&texts::ODD_TEXTS).as_bytes().to_vec(),
        _ => *value = r.pick(&["-", "*2", "00*2", "\"00\"", "0x00", "1.2.3.4", "::"]).as_bytes().to_vec(),
    }
}

// ---------------------------------------------------------------- all short payloads

/// How many payloads of at most three bytes there are.
const SHORT_PAYLOADS: u64 = 1 + 256 + 65_536 + 16_777_216;

fn short_payload(mut i: u64) -> Vec<u8> {
    let mut n = 0;
    while i >= 1 << (8 * n) {
        i -= 1 << (8 * n);
        n += 1;
    }
    i.to_be_bytes()[8 - n..].to_vec()
}

/// A payload whose first text is given. Behind a text of PFD Contents more follows, so that its end isn't the payload's.
fn payload_of_text(letter: u8, text: &[u8]) -> Vec<u8> {
    match letter {
        b'N' => [&[2], text].concat(),
        _ => [&[3, 0, 0, text.len() as u8], text, &[0, 1, b'a']].concat(),
    }
}

// ---------------------------------------------------------------- the sequences

enum Source<'a> {
    Payloads(Payloads<'a>),
    Records(Records<'a>),
    Distances,
    Bodies(bodies::Bodies),
    Short(u8),
    Texts(u8),
}

/// A sequence: fixed lines, then those that are counted up, then random ones.
struct Sequence<'a> {
    seed: u64,
    fixed: Vec<Vec<u8>>,
    counted: usize,
    source: Source<'a>,
}

impl<'a> Sequence<'a> {
    fn payloads(kind: &'a Kind, pairs: usize, seed: u64, short: bool, verdict: bool) -> Self {
        let p = Payloads::new(kind, pairs, short, verdict);
        let mut r = Random::of(seed, u64::MAX);
        let mut fixed = p.odd_lines();
        for sample in kind.samples {
            fixed.push(format!("{} {sample}", kind.letter as char).into_bytes());
        }
        for n in p.limits() {
            let mut payload = match &kind.texts {
                Some(t) => (t.long)(&mut r, n, true),
                None => (kind.good)(&mut r),
            };
            payload.resize(n, b'a');
            fixed.push(line_of(&mut r, kind.letter, &payload));
        }
        if verdict {
            fixed = fixed.into_iter().map(judged).collect();
            fixed.extend(ODD_VERDICTS.map(|line| line.replace('k', &(kind.letter as char).to_string()).into_bytes()));
        }
        Sequence { seed, fixed, counted: p.counted(), source: Source::Payloads(p) }
    }

    fn records(kind: &'a Kind, seed: u64, short: bool) -> Self {
        let p = Records { kind, short };
        // The same seed as the payloads' must not give the same numbers.
        let seed = seed ^ 0x5EED_0F0F_4EC0_4D5A;
        Sequence { seed, fixed: p.fixed_lines(), counted: p.counted(), source: Source::Records(p) }
    }

    fn distances(seed: u64, short: bool) -> Self {
        Sequence { seed, fixed: distances::fixed_lines(short), counted: distances::counted(), source: Source::Distances }
    }

    fn bodies(seed: u64, short: bool) -> Self {
        let b = bodies::Bodies::new(short);
        Sequence { seed, fixed: b.fixed_lines(), counted: b.counted(), source: Source::Bodies(b) }
    }

    fn short_payloads(letter: u8, seed: u64) -> Self {
        Sequence { seed, fixed: Vec::new(), counted: SHORT_PAYLOADS as usize, source: Source::Short(letter) }
    }

    fn short_texts(letter: u8, seed: u64) -> Self {
        Sequence { seed, fixed: Vec::new(), counted: SHORT_PAYLOADS as usize, source: Source::Texts(letter) }
    }

    fn line(&self, i: u64) -> Vec<u8> {
        let n = i as usize;
        if n < self.fixed.len() {
            return self.fixed[n].clone();
        }
        self.later(n - self.fixed.len(), i)
    }

    /// A line behind the fixed ones: the counted, then the random.
    fn later(&self, n: usize, i: u64) -> Vec<u8> {
        let mut r = Random::of(self.seed, i);
        match (&self.source, n < self.counted) {
            (Source::Payloads(p), true) if p.verdict => judged(p.counted_line(n, &mut r)),
            (Source::Payloads(p), false) if p.verdict => judged(p.random_line(&mut r)),
            (Source::Payloads(p), true) => p.counted_line(n, &mut r),
            (Source::Payloads(p), false) => p.random_line(&mut r),
            (Source::Records(p), true) => p.counted_line(n, &mut r),
            (Source::Records(p), false) => p.random_line(&mut r),
            (Source::Distances, true) => distances::counted_line(n),
            (Source::Distances, false) => distances::random_line(&mut r),
            (Source::Bodies(b), true) => b.counted_line(n, &mut r),
            (Source::Bodies(b), false) => b.random_line(&mut r),
            (Source::Short(letter), true) => line_of(&mut Random(0), *letter, &short_payload(n as u64)),
            (Source::Texts(letter), true) => {
                line_of(&mut Random(0), *letter, &payload_of_text(*letter, &short_payload(n as u64)))
            }
            (Source::Short(_) | Source::Texts(_), false) => stop("there are no more payloads of at most three bytes"),
        }
    }

    /// The line i of a short list of n: the fixed, then counted ones spread over all, and random ones.
    fn listed(&self, i: u64, n: u64) -> Vec<u8> {
        let (i, fixed) = (i as usize, self.fixed.len());
        if i < fixed {
            return self.fixed[i].clone();
        }
        let (k, left) = (i - fixed, (n as usize).saturating_sub(fixed).max(1));
        if k % 2 == 0 {
            self.later(self.counted * k / left, i as u64)
        } else {
            self.later(self.counted + k, i as u64)
        }
    }
}

// ---------------------------------------------------------------- the command

fn stop(why: &str) -> ! {
    eprintln!("gen: {why}");
    std::process::exit(2)
}

fn number(word: Option<String>, what: &str) -> u64 {
    word.and_then(|w| w.parse().ok()).unwrap_or_else(|| stop(&format!("{what} is wanted as a number")))
}

fn main() {
    let mut args = std::env::args().skip(1);
    let usage = "usage: gen KIND N SEED [--form case|full|verdict|build|all|texts] [--from A] [--open] [--list]";
    let letter = args.next().unwrap_or_else(|| stop(usage));
    let count = number(args.next(), "N");
    let seed = number(args.next(), "SEED");
    let (mut form, mut from, mut open, mut list) = (String::from("case"), 0, false, false);
    while let Some(a) = args.next() {
        match a.as_str() {
            "--form" => form = args.next().unwrap_or_else(|| stop(usage)),
            "--from" => from = number(args.next(), "A"),
            "--open" => open = true,
            "--list" => list = true,
            _ => stop(usage),
        }
    }
    let kind = KINDS.iter().find(|k| letter.as_bytes() == [k.letter]);
    let sequence = match (kind, form.as_str()) {
        (None, _) if !["B", "D"].contains(&letter.as_str()) => stop(&format!("no kind {letter} yet")),
        (None, "full") if letter == "B" => Sequence::bodies(seed, list),
        (None, "full") => Sequence::distances(seed, list),
        (Some(kind), "case") => Sequence::payloads(kind, 4_096, seed, list, false),
        (Some(kind), "full") => Sequence::payloads(kind, PAIRS, seed, list, false),
        (Some(kind), "verdict") if b"UFSNOP".contains(&kind.letter) => Sequence::payloads(kind, PAIRS, seed, list, true),
        (Some(kind), "build") if !kind.calls.is_empty() => Sequence::records(kind, seed, list),
        (Some(kind), "all") => Sequence::short_payloads(kind.letter, seed),
        (Some(kind), "texts") if kind.texts.is_some() => Sequence::short_texts(kind.letter, seed),
        _ => stop(&format!("{letter} has no form {form}")),
    };
    let mut out = std::io::BufWriter::with_capacity(1 << 16, std::io::stdout().lock());
    for i in from..from + count {
        let mut line = if list { sequence.listed(i, count) } else { sequence.line(i) };
        if !(open && i + 1 == from + count) {
            line.push(b'\n');
        }
        if out.write_all(&line).is_err() {
            return;
        }
    }
    let _ = out.flush();
}
