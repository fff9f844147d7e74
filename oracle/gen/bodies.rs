//! Lines of a message body, whose IEs are asked, with a table's length and a list of types before it or without.

use super::{damaged, hex, spoil, without_ends, zeros_in, Random, LONGEST_LINE, PAIRS};

/// The most bytes of a good line: before the longest body there is room for words.
const LONGEST_BODY_LINE: usize = LONGEST_LINE + 1_000;

/// The longest body that isn't too long.
const LONGEST_BODY: usize = 65_535;

/// The top bit of a vendor's type.
const VENDOR: u16 = 0x8000;

/// The types that may have length zero where a line gives no list.
const OWN_LIST: [u16; 3] = [22, 41, 159];

/// Lines of any form: odd ones, those around the words and the hex, and known points.
const ODD_LINES: [&str; 132] = [
    "", " ", "B", "B ", "B  ", "B -", "B --", "B - ", "B  -", " B -", "B\t-", "B -\r", "B -\0", "B\0-", "B-", "BB -", "b -",
    "X -", "? 0 -", "B 0", "B 00", "B 000", "B 0016000", "B 0016 0000", "B 00160000 ", "B 00160000\r", "B 00160000-",
    "B -00160000", "B 0016000G", "B 0x00160000", "B00160000", "B 0016000\u{e9}", "B 00 16 00 00", "B:00160000",
    // one word
    "B rows=1", "B rows=1 ", "B rows=1 -", "B rows=1  -", "B  rows=1 -", "B rows=1\t-", "B - rows=1", "B 00160000 rows=1",
    "B rows= -", "B rows -", "B rows 1 -", "B rows=0 -", "B rows=00 -", "B rows=65535 -", "B rows=65536 -", "B rows=065535 -",
    "B rows=-1 -", "B rows=+1 -", "B rows=1.0 -", "B rows=0x1 -", "B rows=1,2 -", "B rows=A -", "B rows=1\r -", "B rows==1 -",
    "B row=1 -", "B rowss=1 -", "B Rows=1 -", "B ROWS=1 -", "B =1 -", "B = -", "B room=1 -", "B flags=01 -", "B.rows=1 -",
    "B rows=65537 00160000", "B rows=4294967297 -", "B rows=18446744073709551617 -", "B rows=99999999999999999999999 -",
    "B rows=0000000000000000000000000000000000000000000000001 -", "B rows=\u{661} -", "B zero", "B zero=", "B zero= ",
    "B zero=-", "B zero -", "B zero= -", "B zero=22", "B zero=22 -", "B zero=22, -", "B zero=,22 -", "B zero=, -",
    "B zero=22,,41 -", "B zero=22, 41 -", "B zero=22 41 -", "B zero=22;41 -", "B zero=[22] -", "B zero=- -", "B zero=-1 -",
    "B zero=+22 -", "B zero=0x16 -", "B zero=16h -", "B zero=22.0 -", "B zero=22\r -", "B zero=0,65535 -", "B zero=65536 -",
    "B zero=1,65536 -", "B zero=65558 00160000", "B zero=4294967318 00160000", "B zero=00022 00160000", "B zeros=22 -",
    "B Zero=22 -", "B zero==22 -",
    // two words and more
    "B rows=1 zero=22 00160000", "B zero=22 rows=1 00160000", "B rows=1 rows=1 00160000", "B zero=22 zero=22 00160000",
    "B zero= zero= -", "B rows=1 zero=22 rows=1 -", "B zero= rows=0 zero= -", "B rows=1 zero=", "B rows=1 zero= ",
    "B rows=1,zero=22 -", "B rows=1zero=22 -", "B rows=1  zero=22 -", "B rows=1 x=1 -", "B x -", "B rows=1 - zero=22",
    // known points
    "B 801600010000", "B 80160000", "B 80160001", "B 00170000", "B 0017000000160000", "B 0016000000170000", "B 801600021234",
    "B 8016000312", "B zero=32790 80160000", "B zero=32790 801600000000", "B rows=0 00160000", "B 0013000101",
];

/// What a line gives before the body, each word with a space behind it, and the body.
type Case = (String, Vec<u8>);

/// The most bytes of a line of a short list, but for the lists of 256 types.
const SHORT_LINE: usize = 400;

pub struct Bodies {
    short: bool,
    cases: Vec<Case>,
}

/// How many types there are.
const TYPES: usize = 1 << 16;

impl Bodies {
    pub fn new(short: bool) -> Self {
        let mut cases = [cut_bodies(), rooms(), lists()].concat();
        if short {
            // All of them would leave the others few places.
            cases.extend(envelopes().into_iter().step_by(8));
        } else {
            cases.extend([envelopes(), long_lists(), long_bodies()].concat());
        }
        Bodies { short, cases }
    }

    pub fn fixed_lines(&self) -> Vec<Vec<u8>> {
        let mut all: Vec<Vec<u8>> = ODD_LINES.iter().map(|l| l.as_bytes().to_vec()).collect();
        // The longest list that may be given, and one entry more.
        all.extend([255, 256].map(|n| format!("B zero={}23 00170000", "0,".repeat(n)).into_bytes()));
        if !self.short {
            all.extend(longest_lines());
        }
        all
    }

    /// The cases; then, but in a short list, every type with length zero, as it is and listed.
    pub fn counted(&self) -> usize {
        self.cases.len() + if self.short { 0 } else { 2 * TYPES }
    }

    pub fn counted_line(&self, i: usize, r: &mut Random) -> Vec<u8> {
        if let Some((words, body)) = self.cases.get(i) {
            return line_of(r, words, body);
        }
        let i = i - self.cases.len();
        let words = if i < TYPES { String::new() } else { format!("zero={} ", i % TYPES) };
        line_of(r, &words, &ie((i % TYPES) as u16, &[]))
    }

    pub fn random_line(&self, r: &mut Random) -> Vec<u8> {
        loop {
            let line = any_line(r);
            if !self.short || line.len() <= SHORT_LINE {
                return line;
            }
        }
    }
}

fn line_of(r: &mut Random, words: &str, body: &[u8]) -> Vec<u8> {
    let digits = if body.is_empty() { b"-".to_vec() } else { hex(r, body) };
    [b"B ", words.as_bytes(), &digits].concat()
}

/// An IE whose length field says any length. Of a vendor's IE the value begins with the enterprise number.
fn envelope(raw_type: u16, length: usize, value: &[u8]) -> Vec<u8> {
    [&raw_type.to_be_bytes()[..], &(length as u16).to_be_bytes()[..], value].concat()
}

fn ie(raw_type: u16, value: &[u8]) -> Vec<u8> {
    envelope(raw_type, value.len(), value)
}

/// A list of types as it is given.
fn list_word(types: &[u16]) -> String {
    let entries: Vec<String> = types.iter().map(|t| t.to_string()).collect();
    format!("zero={} ", entries.join(","))
}

// ---------------------------------------------------------------- fixed and counted lines

/// Good lines as long as they may be and a byte longer, and bodies of as many pairs as may be and one more.
fn longest_lines() -> Vec<Vec<u8>> {
    let mut all = Vec::new();
    for bytes in [LONGEST_LINE, LONGEST_LINE + 1, LONGEST_BODY_LINE, LONGEST_BODY_LINE + 1] {
        all.push(zeros_in("B rows=", "1 00160000", bytes));
        all.push(zeros_in("B rows=1", " 00160000", bytes));
        all.push(zeros_in("B zero=41,", "23 00170000", bytes));
        all.push(zeros_in("B zero= rows=", "1 0013000101", bytes));
    }
    for pairs in [LONGEST_BODY, LONGEST_BODY + 1, PAIRS, PAIRS + 1] {
        let digits = "0".repeat(2 * pairs);
        all.push(format!("B {digits}").into_bytes());
        all.push(format!("B rows=0 {digits}").into_bytes());
        for bytes in [LONGEST_BODY_LINE, LONGEST_BODY_LINE + 1] {
            all.push(zeros_in("B rows=", &format!("7 {digits}"), bytes));
            all.push(zeros_in("B zero=", &format!("0 rows=9 {digits}"), bytes));
        }
    }
    all
}

/// Bodies of several IEs: plain ones, vendors', empty ones, such as an IE holds, and some that want a list.
fn some_bodies() -> Vec<Vec<u8>> {
    let inner = [ie(56, &[0, 1]), ie(29, &[0, 0, 0, 255]), ie(2, &[ie(20, &[0]), ie(22, &[])].concat())].concat();
    vec![
        [ie(19, &[1]), ie(60, &[0, 192, 0, 2, 1]), ie(96, &[1, 2, 3, 4])].concat(),
        [ie(0x8016, &[0x12, 0x34]), ie(0xFFFF, &[255, 255, 1, 2, 3]), ie(0x8000, &[0, 0, 0]), ie(19, &[1])].concat(),
        [ie(22, &[]), ie(41, &[]), ie(159, &[])].concat(),
        [ie(159, &[]), ie(0x8001, &[0, 9, 7]), ie(19, &[1]), ie(22, &[3, 97, 112, 110]), ie(41, &[])].concat(),
        [ie(1, &inner), ie(22, &[])].concat(),
        [ie(23, &[]), ie(0, &[]), ie(0x7FFF, &[]), ie(19, &[64])].concat(),
    ]
}

/// Each body cut at every place.
fn cut_bodies() -> Vec<Case> {
    let all_words = ["", "zero= ", "zero=159,41,22 ", "zero=0,23,32767 ", "rows=1 ", "zero=0,22,23,32767 rows=3 "];
    let mut all = Vec::new();
    for body in some_bodies() {
        for words in all_words {
            all.extend((0..=body.len()).map(|n| (words.to_string(), body[..n].to_vec())));
        }
    }
    all
}

/// Every choice of a type, a length field and the bytes that are there, at the front and behind an IE, with and without a
/// list that has the type.
fn envelopes() -> Vec<Case> {
    let lengths = (0..=12).chain([255, 256, 257, 32_767, 32_768, 65_528]).chain(65_530..=65_535);
    let mut all = Vec::new();
    for (raw_type, length) in [19, 22, VENDOR | 19, VENDOR | 22].iter().flat_map(|t| lengths.clone().map(move |l| (*t, l))) {
        let whole = envelope(raw_type, length, &[0xAB, 0xCD, 1, 2, 3, 4, 5, 6, 7, 8]);
        for there in 0..=whole.len() {
            for words in [String::new(), "zero= ".to_string(), list_word(&[raw_type])] {
                all.push((words.clone(), whole[..there].to_vec()));
                all.push((words, [&ie(96, &[9, 9, 9, 9])[..], &whole[..there]].concat()));
            }
        }
    }
    all.sort();
    all.dedup();
    all
}

/// Every room from none to some rows too many; and bodies that are refused, whatever the room.
fn rooms() -> Vec<Case> {
    let mut bodies: Vec<(usize, Vec<u8>)> = [0, 1, 2, 3, 4, 9, 10, 11, 32].map(|n| (n, ie(19, &[1]).repeat(n))).to_vec();
    bodies.push((5, [ie(0x8016, &[0x12, 0x34]), ie(19, &[1])].concat().repeat(2)));
    for bad in [vec![0, 19, 0], ie(23, &[]), ie(0x8016, &[])[..4].to_vec(), ie(0x8016, &[7]), envelope(19, 2, &[1])] {
        bodies.push((3, [ie(19, &[1]).repeat(2), bad].concat()));
    }
    let mut all = Vec::new();
    for (count, body) in bodies {
        for room in 0..=count + 3 {
            for words in [format!("rows={room} "), format!("zero= rows={room} "), format!("rows={room} zero=22,23 ")] {
                all.push((words, body.clone()));
            }
        }
    }
    all
}

/// Types of length zero with lists that have them and with lists that have others, near and far.
fn lists() -> Vec<Case> {
    let mut all = Vec::new();
    for t in [0, 1, 21, 22, 23, 41, 159, 255, 256, 5_632, 32_767, VENDOR, VENDOR | 22, 40_704, 65_535] {
        let (before, behind, swapped) = (t.wrapping_sub(1), t.wrapping_add(1), t.swap_bytes());
        let words = [
            String::new(),
            list_word(&[]),
            list_word(&[t]),
            list_word(&[t, t, t]),
            list_word(&[before, t, behind]),
            list_word(&[before, behind]),
            list_word(&[swapped]),
            list_word(&[t ^ VENDOR]),
            list_word(&OWN_LIST),
            list_word(&[159, 41, 22, t]),
            format!("zero=000{t},00{t} "),
            format!("zero={t}0 "),
        ];
        for body in [ie(t, &[]), [ie(19, &[1]), ie(t, &[]), ie(19, &[1])].concat(), [ie(t, &[]), vec![0, 0]].concat()] {
            all.extend(words.iter().map(|w| (w.clone(), body.clone())));
        }
    }
    all
}

/// Lists of around 256 entries, with the type at every end of them, and nowhere.
fn long_lists() -> Vec<Case> {
    let mut all = Vec::new();
    for t in [23, VENDOR | 22] {
        let body = [ie(19, &[1]), ie(t, &[]), ie(96, &[1, 2])].concat();
        for entries in [2, 128, 255, 256, 257] {
            let others: Vec<u16> = (1..=entries).map(|i| 1_000 + 200 * i as u16).collect();
            for at in [0, 1, entries / 2, entries - 2, entries - 1] {
                let mut types = others.clone();
                types[at] = t;
                all.push((list_word(&types), body.clone()));
            }
            all.push((list_word(&others), body.clone()));
            all.push((list_word(&vec![t; entries]), body.clone()));
            all.push((format!("rows=2 {}", list_word(&vec![t; entries])), body.clone()));
        }
    }
    all
}

/// Bodies at and around the limit, whose last IE ends there, before it, and behind it; and as many IEs as there can be.
fn long_bodies() -> Vec<Case> {
    let mut all = Vec::new();
    let mut add = |words: &str, body: Vec<u8>| all.push((words.to_string(), body));
    let small = ie(19, &[1]);
    for n in LONGEST_BODY - 2..=LONGEST_BODY + 2 {
        for first in [19, 22, VENDOR | 22] {
            // one IE alone, a small one before it, and a small one behind it
            add("", ie(first, &vec![7; n - 4]));
            add("", [small.clone(), ie(first, &vec![7; n - 4 - small.len()])].concat());
            add("", [ie(first, &vec![7; n - 4 - small.len()]), small.clone()].concat());
            // a length field that says too much by one, and by all
            add("rows=0 ", envelope(first, n - 3, &vec![7; n - 4]));
            add("zero= ", envelope(first, 65_535, &vec![7; n - 4]));
        }
        // Refusal 5 comes before those of IEs.
        add("rows=0 ", vec![0; n]);
        add("", [vec![0, 19, 255, 255], vec![7; n - 4]].concat());
        add("", [vec![128, 22, 0, 1], vec![7; n - 4]].concat());
    }
    for words in ["", "rows=0 ", "rows=16382 ", "rows=16383 ", "rows=16384 ", "zero= ", "zero=1,22 rows=16382 ", "zero=23 "] {
        for end in [vec![], vec![0], vec![0, 22, 0]] {
            add(words, [ie(22, &[]).repeat(16_383), end].concat());
        }
        add(words, [ie(22, &[]).repeat(16_382), ie(23, &[])].concat());
        add(words, [ie(22, &[]).repeat(16_382), ie(19, &[1, 2, 3])].concat());
    }
    for rows in [10_921, 10_922] {
        add(&format!("rows={rows} "), ie(VENDOR | 22, &[0x12, 0x34]).repeat(10_922));
    }
    all
}

// ---------------------------------------------------------------- random lines

/// Of 5,000 lines 260 are malformed, 13 long, and one near the longest body or line.
fn any_line(r: &mut Random) -> Vec<u8> {
    match r.below(5_000) {
        0 if r.one_in(12) => near_longest_line(r),
        0 => near_longest_body(r).line(r),
        1..=13 => long_body(r).line(r),
        14..=273 => malformed(r),
        _ => small_body(r).line(r),
    }
}

/// What a line asks; the IEs are those that it was made of, whatever has become of them.
struct Asked {
    list: Option<Vec<u16>>,
    ies: usize,
    body: Vec<u8>,
}

impl Asked {
    fn line(&self, r: &mut Random) -> Vec<u8> {
        let mut words = Vec::new();
        if r.one_in(3) {
            words.push(format!("rows={} ", rows(r, self.ies)));
        }
        if let Some(list) = &self.list {
            words.push(if r.one_in(8) { odd_list_word(r, list) } else { list_word(list) });
        }
        r.shuffle(&mut words);
        line_of(r, &words.concat(), &self.body)
    }
}

/// A table's length, mostly around the number of IEs.
fn rows(r: &mut Random, ies: usize) -> String {
    let n = match r.below(10) {
        0 => r.below(65_536),
        1 => 0,
        2..=4 => ies,
        5 | 6 => ies.saturating_sub(1),
        7 => ies + 1,
        _ => r.below(ies + 4),
    };
    format!("{}{n}", zeros(r))
}

/// Now and then some zeros to put before a number.
fn zeros(r: &mut Random) -> String {
    "0".repeat(if r.one_in(16) { r.below(24) } else { 0 })
}

/// A list with zeros before its numbers.
fn odd_list_word(r: &mut Random, list: &[u16]) -> String {
    let entries: Vec<String> = list.iter().map(|t| format!("{}{t}", "0".repeat(r.below(3)))).collect();
    format!("zero={} ", entries.join(","))
}

/// A type: the vendors' have the top bit.
fn any_type(r: &mut Random) -> u16 {
    match r.below(8) {
        0 => r.next() as u16,
        1 => *r.pick(&OWN_LIST),
        2 => *r.pick(&[0, 1, 255, 256, 0x7FFF, VENDOR, VENDOR | 22, 0xFFFF]),
        _ => r.below(320) as u16,
    }
}

/// None where the line gives no list.
fn any_list(r: &mut Random) -> Option<Vec<u16>> {
    let n = match r.below(24) {
        0 => 0,
        1..=6 => r.between(1, 6),
        7 if r.one_in(8) => r.between(250, 256),
        _ => return None,
    };
    let mut list: Vec<u16> = (0..n).map(|_| any_type(r)).collect();
    if n > 1 && r.one_in(4) {
        list[0] = list[n - 1];
    }
    Some(list)
}

/// An IE; an empty one is listed, and is no vendor's.
fn any_ie(r: &mut Random, listed: &[u16], depth: usize) -> Vec<u8> {
    let n = if r.one_in(12) { r.between(1, 40) } else { r.between(1, 8) };
    match r.below(10) {
        0..=2 => {
            let mut value = r.bytes(n + 2);
            if r.one_in(16) {
                value[..2].fill(*r.pick(&[0, 255]));
            }
            ie(any_type(r) | VENDOR, &value[..r.between(2, n + 2)])
        }
        3 | 4 => match listed.iter().filter(|t| **t < VENDOR).collect::<Vec<_>>()[..] {
            [] => ie(19, &[1]),
            ref types => ie(**r.pick(types), &[]),
        },
        5 if depth < 3 => {
            let inner: Vec<Vec<u8>> = (0..r.between(1, 4)).map(|_| any_ie(r, listed, depth + 1)).collect();
            ie(r.between(1, 20) as u16, &inner.concat())
        }
        _ => {
            let value = r.bytes(n);
            ie(any_type(r) & !VENDOR, &value)
        }
    }
}

/// A list, and so many IEs of which the list has the empty ones; now and then it has others.
fn some_ies(r: &mut Random, n: usize) -> (Option<Vec<u16>>, Vec<Vec<u8>>) {
    let list = any_list(r);
    let listed = match &list {
        Some(list) if !r.one_in(8) => list.clone(),
        _ => OWN_LIST.to_vec(),
    };
    (list, (0..n).map(|_| any_ie(r, &listed, 0)).collect())
}

/// Bodies of up to 40 IEs: good ones, cut ones, damaged ones, and random bytes.
fn small_body(r: &mut Random) -> Asked {
    let n = match r.below(40) {
        0 => 0,
        1..=29 => r.between(1, 4),
        30..=38 => r.between(5, 12),
        _ => r.between(13, 40),
    };
    let (list, ies) = some_ies(r, n);
    let body = ies.concat();
    let body = match r.below(20) {
        _ if body.is_empty() => body,
        0..=8 => body,
        9..=11 => body[..r.below(body.len())].to_vec(),
        12..=14 => with_length(r, &ies),
        15 => with_bad_ie(r, &ies, list.as_deref()),
        16 | 17 => damaged(r, body),
        18 => {
            let n = r.below(4);
            [body, r.bytes(n)].concat()
        }
        _ => {
            let n = r.below(40);
            r.bytes(n)
        }
    };
    Asked { list, ies: n, body }
}

/// The body of IEs of which one has another length field.
fn with_length(r: &mut Random, ies: &[Vec<u8>]) -> Vec<u8> {
    let i = r.below(ies.len());
    let (at, mut body) = (ies[..i].concat().len(), ies.concat());
    let (had, left) = (ies[i].len() - 4, body.len() - at - 4);
    let length = match r.below(10) {
        0 => 0,
        1 => 1,
        2 => had.wrapping_sub(1),
        3 => had + 1,
        // to the body's end, and a byte further
        4 => left,
        5 => left + 1,
        6 => r.below(left + 8),
        7 => 65_535 - r.below(8),
        8 => had | 1 << r.below(16),
        _ => r.below(65_536),
    };
    body[at + 2..at + 4].copy_from_slice(&(length as u16).to_be_bytes());
    body
}

/// The body of IEs with one among them that is refused: empty and not listed, or a vendor's that is short, cut or not.
fn with_bad_ie(r: &mut Random, ies: &[Vec<u8>], list: Option<&[u16]>) -> Vec<u8> {
    let vendors: Vec<u16> = list.unwrap_or(&[]).iter().copied().filter(|t| *t >= VENDOR).collect();
    let any = any_type(r);
    let bad = match r.below(4) {
        0 => ie(any, &[]),
        1 => ie(any | VENDOR, &[5]),
        2 => ie(if vendors.is_empty() { any | VENDOR } else { *r.pick(&vendors) }, &[]),
        _ => envelope(any | VENDOR, r.below(3), &[]),
    };
    let at = r.below(ies.len() + 1);
    let mut body = [ies[..at].concat(), bad].concat();
    // Nothing behind it more often than not, so that its own end counts.
    if r.one_in(2) {
        body.extend(ies[at..].concat());
    } else if r.one_in(2) {
        let n = r.below(6);
        body.extend(r.bytes(n));
    }
    body
}

/// Hundreds of IEs, now and then thousands, or a long one among some.
fn long_body(r: &mut Random) -> Asked {
    let n = match r.below(24) {
        0 => r.between(1_000, 5_000),
        1..=7 => r.between(100, 600),
        _ => r.between(1, 12),
    };
    let (list, mut ies) = some_ies(r, n);
    if n < 100 {
        let bytes = if r.one_in(8) { r.between(4_000, 20_000) } else { r.between(200, 4_000) };
        let at = r.below(n);
        ies[at] = ie(any_type(r), &r.bytes(bytes));
    }
    let body = match r.below(8) {
        0 | 1 => cut_near_end(r, ies.concat()),
        2 => with_length(r, &ies),
        3 => with_bad_ie(r, &ies, list.as_deref()),
        _ => ies.concat(),
    };
    Asked { list, ies: n, body }
}

fn cut_near_end(r: &mut Random, mut body: Vec<u8>) -> Vec<u8> {
    let by = if r.one_in(4) { r.below(body.len()) } else { r.below(body.len().min(12)) };
    body.truncate(body.len() - by);
    body
}

/// A body of around 65,535 bytes: filled by one IE, by some of any length, or by the shortest.
fn near_longest_body(r: &mut Random) -> Asked {
    let bytes = match r.below(8) {
        0 => r.between(60_000, 70_000).min(PAIRS),
        1 => LONGEST_BODY + 1,
        2 => r.between(LONGEST_BODY - 5, LONGEST_BODY + 5),
        _ => LONGEST_BODY - r.below(2),
    };
    let few = r.below(6);
    let (list, mut ies) = some_ies(r, few);
    let small = ie(if list.is_some() { 19 } else { 22 }, if list.is_some() { &[1] } else { &[] });
    let way = r.below(3);
    let mut left = bytes - ies.concat().len();
    while left >= 16 {
        let next = match way {
            0 => break,
            1 => ie(any_type(r), &vec![r.byte(); r.between(2, 9_000).min(left - 8)]),
            _ => small.clone(),
        };
        left -= next.len();
        ies.push(next);
    }
    // The last one ends where the body does.
    let last = vec![r.byte(); left - 4];
    ies.push(ie(any_type(r), &last));
    if r.one_in(2) {
        let n = ies.len();
        ies.swap(0, n - 1);
    }
    let body = match r.below(6) {
        0 => cut_near_end(r, ies.concat()),
        1 => with_length(r, &ies),
        _ => ies.concat(),
    };
    Asked { list, ies: ies.len(), body }
}

/// A line of around as many bytes as there may be, or a body of around as many pairs.
fn near_longest_line(r: &mut Random) -> Vec<u8> {
    if r.one_in(2) {
        let pairs = r.between(PAIRS - 1, PAIRS + 2);
        let words = if r.one_in(2) { "" } else { "rows=3 " };
        return line_of(r, words, &vec![0; pairs]);
    }
    let bytes = match r.below(4) {
        0 => r.between(LONGEST_LINE, 200_000),
        1 => r.between(LONGEST_LINE - 2, LONGEST_LINE + 2),
        _ => r.between(LONGEST_BODY_LINE - 2, LONGEST_BODY_LINE + 2),
    };
    let asked = small_body(r);
    let end = String::from_utf8(line_of(r, "", &asked.body)).unwrap();
    zeros_in("B rows=", &format!("{}{}", asked.ies, &end[1..]), bytes)
}

/// Words that stand for a number and are none, or none so small.
const ODD_NUMBERS: [&str; 26] = [
    "65536", "65537", "99999", "100000", "4294967296", "4294967297", "18446744073709551616", "18446744073709551638", "-1",
    "+1", "", "-", "=1", "1=", "0x16", "1F", "a", "1.5", "1e1", "1_0", "1/", ":1", "1\r", "\t1", "1\0", "\u{662}",
];

/// What may stand between two words, and may not.
const BETWEEN: [&str; 12] = ["  ", "\t", "", ",", "=", ";", " \t", "\0", "\r", " - ", " = ", " x "];

/// A line with a thing or two wrong with it: a number, the words, what stands between them, or a byte.
fn malformed(r: &mut Random) -> Vec<u8> {
    let asked = small_body(r);
    let mut line = match r.below(7) {
        0 => return r.pick(&ODD_LINES).as_bytes().to_vec(),
        1 => {
            let words = format!("rows={} ", r.pick(&ODD_NUMBERS));
            line_of(r, &words, &asked.body)
        }
        2 => {
            let mut entries: Vec<String> = (0..r.between(1, 5)).map(|_| any_type(r).to_string()).collect();
            let at = r.below(entries.len());
            entries[at] = r.pick(&ODD_NUMBERS).to_string();
            line_of(r, &format!("zero={} ", entries.join(",")), &asked.body)
        }
        3 if r.one_in(8) => {
            let list = vec![any_type(r); r.between(257, 260)];
            line_of(r, &list_word(&list), &asked.body)
        }
        3 | 4 => odd_words(r, &asked.body),
        5 => {
            let mut line = asked.line(r);
            let spaces: Vec<usize> = (0..line.len()).filter(|i| line[*i] == b' ').collect();
            let at = *r.pick(&spaces);
            line.splice(at..=at, r.pick(&BETWEEN).bytes());
            line
        }
        _ => {
            let mut line = asked.line(r);
            spoil(r, &mut line);
            line
        }
    };
    if r.one_in(6) {
        spoil(r, &mut line);
    }
    without_ends(line)
}

/// Words in any order, too many of them or none, and not all of them known.
fn odd_words(r: &mut Random, body: &[u8]) -> Vec<u8> {
    let mut words: Vec<Vec<u8>> = vec![line_of(r, "", body)[2..].to_vec()];
    let others = ["rows=1", "rows=9", "rows", "rows=1,2", "Rows=1", "zero=", "zero=22", "zero=22,41", "zero", "room=1", "-"];
    for _ in 0..r.between(1, 3) {
        words.push(r.pick(&others).as_bytes().to_vec());
    }
    if r.one_in(4) {
        words.remove(0);
    }
    r.shuffle(&mut words);
    [b"B ", &words.join(&b' ')[..]].concat()
}
