//! The payloads: classes of each kind, the same on every run and every machine.

/// splitmix64
pub struct Random(u64);

impl Random {
    fn next(&mut self) -> u64 {
        self.0 = self.0.wrapping_add(0x9E37_79B9_7F4A_7C15);
        let mut z = self.0;
        z = (z ^ (z >> 30)).wrapping_mul(0xBF58_476D_1CE4_E5B9);
        z = (z ^ (z >> 27)).wrapping_mul(0x94D0_49BB_1331_11EB);
        z ^ (z >> 31)
    }

    fn below(&mut self, n: usize) -> usize {
        (self.next() % n as u64) as usize
    }

    fn byte(&mut self) -> u8 {
        self.next() as u8
    }

    fn one_of(&mut self, choices: &[u8]) -> u8 {
        choices[self.below(choices.len())]
    }
}

/// Payloads that a reader treats alike.
pub struct Class {
    pub name: String,
    pub accepted: bool,
    pub payloads: Vec<Vec<u8>>,
}

/// How many payloads a class has, at most.
const MOST: usize = 1000;

/// The sizes of names and texts, in bytes, and of lists, in entries.
const TEXTS: [usize; 4] = [10, 100, 1000, 60000];
const LISTS: [usize; 4] = [1, 10, 100, 1000];

fn class(name: &str, accepted: bool, mut make: impl FnMut() -> Vec<u8>) -> Class {
    let first = make();
    let count = (200_000 / (first.len() + 1)).clamp(4, MOST);
    let mut payloads = vec![first];
    payloads.resize_with(count, make);
    Class { name: name.to_string(), accepted, payloads }
}

/// The flag byte of a layout, and how many bytes follow it.
type Layout = (u8, usize);

/// Flags, then `length` bytes of any value; the bits of `spare` are of any value too.
fn bytes(random: &mut Random, flags: u8, spare: u8, length: usize) -> Vec<u8> {
    let mut payload = vec![flags | random.byte() & spare];
    payload.resize_with(1 + length, || random.byte());
    payload
}

/// A class for each layout, one with trailing bytes and one that ends too early.
fn layouts(random: &mut Random, spare: u8, named: &[(&str, &[Layout])]) -> Vec<Class> {
    let mut classes = Vec::new();
    let all: Vec<Layout> = named.iter().flat_map(|(_, l)| l.iter().copied()).collect();
    let any = |random: &mut Random| all[random.below(all.len())];
    for (name, choices) in named {
        classes.push(class(name, true, || {
            let (flags, length) = choices[random.below(choices.len())];
            bytes(random, flags, spare, length)
        }));
    }
    classes.push(class("trailing", true, || {
        let (flags, length) = any(random);
        let more = 1 + random.below(16);
        bytes(random, flags, spare, length + more)
    }));
    classes.push(class("short", false, || {
        let (flags, length) = any(random);
        let mut payload = bytes(random, flags, spare, length);
        payload.truncate(random.below(1 + length));
        payload
    }));
    classes
}

fn ue_ip_address(random: &mut Random) -> Vec<Class> {
    let mut classes = layouts(
        random,
        0x80,
        &[
            ("v4", &[(0x02, 4), (0x06, 4)]),
            ("v6", &[(0x01, 16), (0x05, 16)]),
            ("both", &[(0x03, 20), (0x07, 20)]),
            ("delegation", &[(0x09, 17), (0x0B, 21)]),
            ("prefix", &[(0x41, 17), (0x43, 21)]),
            ("choose", &[(0x10, 0), (0x20, 0), (0x30, 0)]),
            ("none", &[(0x00, 0), (0x04, 0)]),
        ],
    );
    classes.push(class("flags", false, || {
        let flags = random.one_of(&[0x12, 0x21, 0x33, 0x48, 0x49, 0x08, 0x40, 0x0A]);
        bytes(random, flags, 0x80, 22)
    }));
    classes
}

fn f_teid(random: &mut Random) -> Vec<Class> {
    let mut classes = layouts(
        random,
        0xF0,
        &[
            ("v4", &[(0x01, 8)]),
            ("v6", &[(0x02, 20)]),
            ("both", &[(0x03, 24)]),
            ("none", &[(0x00, 4)]),
            ("choose", &[(0x04, 0), (0x05, 0), (0x06, 0), (0x07, 0)]),
            ("choose_id", &[(0x0C, 1), (0x0D, 1), (0x0E, 1), (0x0F, 1)]),
        ],
    );
    classes.push(class("flags", false, || {
        let flags = random.one_of(&[0x08, 0x09, 0x0A, 0x0B]);
        bytes(random, flags, 0xF0, 24)
    }));
    classes
}

fn fseid(random: &mut Random) -> Vec<Class> {
    layouts(
        random,
        0xFC,
        &[
            ("v4", &[(0x02, 12)]),
            ("v6", &[(0x01, 24)]),
            ("both", &[(0x03, 28)]),
            ("none", &[(0x00, 8)]),
        ],
    )
}

fn outer_header_creation(random: &mut Random) -> Vec<Class> {
    // the byte behind the flags is spare
    layouts(
        random,
        0,
        &[
            ("gtpu_v4", &[(0x01, 9)]),
            ("gtpu_v6", &[(0x02, 21)]),
            ("udp_v4", &[(0x04, 7)]),
            ("udp_v6", &[(0x08, 19)]),
            ("v4", &[(0x10, 5)]),
            ("v6", &[(0x20, 17)]),
            ("ctag", &[(0x40, 4)]),
            ("stag", &[(0x80, 4)]),
            ("all", &[(0xFF, 33)]),
            ("none", &[(0x00, 1)]),
        ],
    )
}

/// Every bit of the first byte but S is of any value. The cut ones by the length that they don't reach.
fn header(random: &mut Random) -> Vec<Class> {
    const SEID: Layout = (0x01, 15);
    const PLAIN: Layout = (0x00, 7);
    let mut classes = layouts(random, 0xFE, &[("seid", &[SEID]), ("plain", &[PLAIN])]);
    classes.retain(|class| class.accepted);
    for (least, end, choices) in [(0, 8, &[SEID, PLAIN][..]), (8, 12, &[SEID]), (12, 16, &[SEID])] {
        classes.push(class(&format!("short_{end}"), false, || {
            let (flags, length) = choices[random.below(choices.len())];
            let mut payload = bytes(random, flags, 0xFE, length);
            payload.truncate(least + random.below(end - least));
            payload
        }));
    }
    classes
}

/// A character of so many bytes, in UTF-8.
fn character(random: &mut Random, length: usize) -> char {
    let (low, high) = [(0x20, 0x7E), (0x80, 0x7FF), (0x800, 0xD7FF), (0x10000, 0x10FFFF)][length - 1];
    char::from_u32((low + random.below(high - low + 1)) as u32).unwrap()
}

/// A text of just so many bytes: of ASCII, or of characters of one to four bytes, all lengths equally often.
fn text(random: &mut Random, mixed: bool, size: usize) -> Vec<u8> {
    let mut text = String::new();
    while text.len() < size {
        let most = if mixed { (size - text.len()).min(4) } else { 1 };
        let length = 1 + random.below(most);
        text.push(character(random, length));
    }
    text.into_bytes()
}

/// A text with a byte that no UTF-8 has, at any place.
fn bad_text(random: &mut Random, size: usize) -> Vec<u8> {
    let mut bad = text(random, false, size);
    bad[random.below(size)] = 0xFF;
    bad
}

/// Bytes, then a text of every size, ASCII and mixed.
fn sizes(random: &mut Random, start: impl Fn(usize) -> Vec<u8>) -> Vec<Class> {
    let mut classes = Vec::new();
    for (name, mixed) in [("ascii", false), ("mixed", true)] {
        for size in TEXTS {
            let name = format!("{name}_{size}");
            classes.push(class(&name, true, || [start(size), text(random, mixed, size)].concat()));
        }
    }
    classes
}

pub fn names(random: &mut Random) -> Vec<Class> {
    sizes(random, |_| vec![2])
}

fn node_id(random: &mut Random) -> Vec<Class> {
    let mut classes = layouts(random, 0, &[("v4", &[(0, 4)]), ("v6", &[(1, 16)])]);
    classes.extend(names(random));
    classes.push(class("type", false, || {
        let kind = 3 + random.below(253) as u8;
        bytes(random, kind, 0, 16)
    }));
    classes.push(class("bad_text_100", false, || [vec![2], bad_text(random, 100)].concat()));
    classes
}

fn field(text: &[u8]) -> Vec<u8> {
    [&(text.len() as u16).to_be_bytes(), text].concat()
}

/// Flags, the spare byte, and fields of 20 bytes of ASCII.
fn fields(random: &mut Random, flags: u8, count: usize) -> Vec<u8> {
    let mut payload = vec![flags, random.byte()];
    for _ in 0..count {
        payload.extend(field(&text(random, false, 20)));
    }
    payload
}

fn pfd_contents(random: &mut Random) -> Vec<Class> {
    let mut classes = sizes(random, |size| [&[0x01, 0], &(size as u16).to_be_bytes()[..]].concat());
    classes.push(class("five", true, || fields(random, 0x1F, 5)));
    classes.push(class("all", true, || fields(random, 0xFF, 8)));
    for count in LISTS {
        classes.push(class(&format!("list_{count}"), true, || fields(random, 0x20, count)));
    }
    classes.push(class("absent", true, || {
        let flags = 1 + random.below(255) as u8;
        fields(random, flags, 0)
    }));
    classes.push(class("trailing", true, || {
        let flags = random.one_of(&[0x01, 0x02, 0x04, 0x08, 0x10]);
        let more = text(random, false, 16);
        [fields(random, flags, 1), more].concat()
    }));
    classes.push(class("short", false, || {
        let mut payload = fields(random, 0xFF, 8);
        let field = random.below(8);
        payload.truncate(2 + 22 * field + 2 + random.below(20));
        payload
    }));
    classes.push(class("bad_text_100", false, || {
        [vec![0x01, 0], field(&bad_text(random, 100))].concat()
    }));
    classes
}

/// The most bytes of a message body, and the most IEs of one here.
const BODY: usize = 65535;
const IES: usize = 16000;

/// An IE: type and length, each of two bytes, then bytes of any value.
fn ie(random: &mut Random, raw_type: u16, length: usize) -> Vec<u8> {
    let mut ie = [raw_type.to_be_bytes(), (length as u16).to_be_bytes()].concat();
    ie.resize_with(4 + length, || random.byte());
    ie
}

/// A type that is no vendor's: the Rust has names for nearly all of these.
fn any_type(random: &mut Random) -> u16 {
    1 + random.below(300) as u16
}

/// A vendor's IE: the first two bytes of its value are the enterprise number.
fn vendor_ie(random: &mut Random, length: usize) -> Vec<u8> {
    let raw_type = 0x8000 | random.next() as u16;
    ie(random, raw_type, 2 + length)
}

/// Types and lengths of the IEs in a session establishment request with two PDRs and two FARs. Larger bodies repeat them.
const SESSION: [(u16, usize); 10] = [
    (60, 5),
    (57, 13),
    (1, 61),
    (1, 44),
    (3, 33),
    (3, 14),
    (7, 23),
    (6, 27),
    (113, 1),
    (159, 0),
];

fn session_ie(random: &mut Random, place: usize) -> Vec<u8> {
    let (raw_type, length) = SESSION[place % SESSION.len()];
    ie(random, raw_type, length)
}

/// An IE by its place in the body.
type MakeIe<'a> = &'a dyn Fn(&mut Random, usize) -> Vec<u8>;

fn body(random: &mut Random, count: usize, make: MakeIe) -> Vec<u8> {
    (0..count).flat_map(|place| make(random, place)).collect()
}

/// How many IEs fit into a body.
fn fitting(make: MakeIe) -> usize {
    let (mut random, mut length, mut count) = (Random(0), 0, 0);
    while count < IES {
        length += make(&mut random, count).len();
        if length > BODY {
            break;
        }
        count += 1;
    }
    count
}

/// A class for each size of a body; its name ends with the number of IEs.
fn bodies(random: &mut Random, name: &str, make: MakeIe) -> Vec<Class> {
    let most = fitting(make);
    let mut counts = vec![1, 10, 100, 1000, most];
    counts.retain(|count| *count <= most);
    counts.dedup();
    counts.iter().map(|count| class(&format!("{name}_{count}"), true, || body(random, *count, make))).collect()
}

fn ies(random: &mut Random) -> Vec<Class> {
    let with = |length: usize| move |random: &mut Random, _: usize| {
        let raw_type = any_type(random);
        ie(random, raw_type, length)
    };
    let named: [(&str, MakeIe); 9] = [
        ("empty_22", &|random, _| ie(random, 22, 0)),
        ("empty_159", &|random, _| ie(random, 159, 0)),
        ("payload_1", &with(1)),
        ("payload_4", &with(4)),
        ("payload_16", &with(16)),
        ("vendor_4", &|random, _| vendor_ie(random, 4)),
        ("session", &session_ie),
        ("grouped_1000", &|random, _| ie(random, 1, 1000)),
        ("grouped_65531", &|random, _| ie(random, 1, 65531)),
    ];
    let mut classes: Vec<Class> = named.iter().flat_map(|(name, make)| bodies(random, name, *make)).collect();
    for count in LISTS {
        classes.push(class(&format!("short_{count}"), false, || {
            let mut body = body(random, count, &with(4));
            body.truncate(body.len() - 1 - random.below(7));
            body
        }));
    }
    for count in [1, 1000] {
        classes.push(class(&format!("zero_{count}"), false, || {
            [ie(random, 1, 0), body(random, count - 1, &with(4))].concat()
        }));
    }
    classes
}

/// The classes of the kinds, by name.
pub fn of_kind(kind: &str) -> Vec<Class> {
    let mut random = Random(29244);
    match kind {
        "ue_ip_address" => ue_ip_address(&mut random),
        "f_teid" => f_teid(&mut random),
        "fseid" => fseid(&mut random),
        "node_id" => node_id(&mut random),
        "outer_header_creation" => outer_header_creation(&mut random),
        "pfd_contents" => pfd_contents(&mut random),
        "header" => header(&mut random),
        "ies" => ies(&mut random),
        _ => names(&mut random),
    }
}
