//! Node ID and PFD Contents: payloads, values of record lines, and raw lines, in which texts have places.

use super::{broken, damaged, edge_texts, hex, line_of_words, sequence, text, Random, Token};

// ---------------------------------------------------------------- payloads

/// A text in wire form: a two-byte length, then its bytes.
fn field(text: &[u8]) -> Vec<u8> {
    [&(text.len() as u16).to_be_bytes()[..], text].concat()
}

pub fn good_node_id(r: &mut Random) -> Vec<u8> {
    let n = r.below(12);
    match r.below(5) {
        0 => [vec![0], r.bytes(4)].concat(),
        1 => [vec![1], r.bytes(16)].concat(),
        _ => [vec![2], text(r, n)].concat(),
    }
}

/// Every text at an edge of the UTF-8 table, as a name.
pub fn node_id_edges() -> Vec<Vec<u8>> {
    edge_texts().into_iter().map(|t| [vec![2], t].concat()).collect()
}

/// A name of n bytes with its type, good or broken near its end.
pub fn long_node_id(r: &mut Random, n: usize, good: bool) -> Vec<u8> {
    if n == 0 {
        return Vec::new();
    }
    let mut p = [vec![2], exact_text(r, n - 1)].concat();
    if !good {
        spoil_end(r, &mut p);
    }
    p
}

/// A text of just n bytes, which is good.
fn exact_text(r: &mut Random, n: usize) -> Vec<u8> {
    // Of a long text a part comes again and again.
    let part = text(r, n.min(300));
    let mut t = Vec::with_capacity(n);
    while !part.is_empty() && t.len() + part.len() <= n {
        t.extend(&part);
    }
    while t.len() < n {
        let s = sequence(r);
        if t.len() + s.len() <= n {
            t.extend(s);
        } else {
            t.push(b'a');
        }
    }
    t
}

/// Breaks a long payload near its end: a bad byte or sequence, a byte too few or too many.
fn spoil_end(r: &mut Random, p: &mut Vec<u8>) {
    let at = p.len() - 1 - r.below(p.len().min(12));
    match r.below(4) {
        0 => p[at] = r.byte(),
        1 => {
            let bad = broken(r);
            let to = p.len().min(at + bad.len());
            p.splice(at..to, bad[..to - at].iter().copied());
        }
        2 => p.truncate(at),
        _ => p[at] = 0xFF,
    }
}

/// Flags of any kind, or few of them.
fn pfd_flags(r: &mut Random) -> u8 {
    match r.below(3) {
        0 => r.byte(),
        1 => 1 << r.below(8) | r.byte() & r.byte() & r.byte(),
        _ => 0x20 << r.below(3) | r.byte() & 0xE0 | r.byte() & r.byte() & 0x1F,
    }
}

/// How many texts the flags ask for at least, lists without entries but for those before another one.
fn asked(flags: u8) -> usize {
    (flags & 0x1F).count_ones() as usize + (flags >> 5).count_ones().saturating_sub(1) as usize
}

pub fn good_pfd(r: &mut Random) -> Vec<u8> {
    let flags = pfd_flags(r);
    let more = if flags & 0xE0 == 0 { 0 } else { r.below(4) };
    let mut p = vec![flags, if r.one_in(2) { 0 } else { r.byte() }];
    for _ in 0..asked(flags) + more {
        let n = r.below(5);
        p.extend(field(&text(r, n)));
    }
    p
}

/// A payload of n bytes, good or broken near its end: few long texts, or a list of many.
pub fn long_pfd(r: &mut Random, n: usize, good: bool) -> Vec<u8> {
    if n < 4 {
        return vec![1; n];
    }
    let flags = match pfd_flags(r) {
        0 => 0x20,
        flags => flags,
    };
    let more = match (flags & 0xE0, r.below(4)) {
        (0, _) => 0,
        (_, 0) => r.between(1, 2_000.min(n / 4)),
        _ => r.between(1, 3),
    };
    let mut p = vec![flags, r.byte()];
    let fields = (asked(flags) + more).clamp(1, (n - 2) / 2);
    for left in (1..=fields).rev() {
        let room = (n - p.len()) - 2 * left;
        let size = match left {
            1 => room,
            _ if more > 3 => r.below(2 * room / left + 1),
            _ => r.below(room + 1),
        };
        let size = size.min(65_535).min(room);
        p.extend(field(&exact_text(r, size)));
    }
    p.resize(n, b'a');
    if !good {
        spoil_end(r, &mut p);
    }
    p
}

/// For every flag byte: a payload with all that it asks for, cut everywhere, with bytes behind it, and each of its fields
/// with another length or a bad byte. Then every text at an edge of the UTF-8 table, in every field.
pub fn pfd_edges() -> Vec<Vec<u8>> {
    let mut all = Vec::new();
    for flags in 0..=255u8 {
        let texts = asked_texts(flags);
        let whole = joined(flags, &texts);
        all.extend((0..=whole.len()).map(|n| whole[..n].to_vec()));
        for behind in [&[0][..], &[0, 0], &[0, 0, 0], &[0, 1], &[0, 1, 0x61], &[0, 1, 0xC3], &[0xFF], &[0xFF, 0xFF]] {
            all.push([&whole[..], behind].concat());
        }
        let mut at = 2;
        for t in &texts {
            all.extend(changed(&whole, at, t.len()));
            at += 2 + t.len();
        }
    }
    for (i, edge) in edge_texts().into_iter().enumerate() {
        let (flags, before) = [(0x01, 0), (0x1F, i % 5), (0x20, i % 3), (0xFF, i % 8), (0x60, 1), (0xC0, i % 4)][i % 6];
        let mut texts = vec![b"a".to_vec(); before];
        texts.push(edge);
        all.push(joined(flags, &texts));
    }
    all
}

/// A text for each that the flags ask for, and two more for the last list.
fn asked_texts(flags: u8) -> Vec<Vec<u8>> {
    let texts: [&str; 10] = ["a", "\u{e9}", "", "\u{20ac}", "b", "c", "\u{10348}", "d", "e", ""];
    let more = if flags & 0xE0 == 0 { 0 } else { 2 };
    (0..asked(flags) + more).map(|i| texts[(i + flags as usize) % 10].as_bytes().to_vec()).collect()
}

fn joined(flags: u8, texts: &[Vec<u8>]) -> Vec<u8> {
    let fields: Vec<Vec<u8>> = texts.iter().map(|t| field(t)).collect();
    [vec![flags, 0], fields.concat()].concat()
}

/// A payload with another length of the field at a place, or with a bad byte in its text.
fn changed(p: &[u8], at: usize, len: usize) -> Vec<Vec<u8>> {
    let mut all = Vec::new();
    for to in [len.wrapping_sub(1), len + 1, 0, p.len() - at - 2, p.len() - at - 1, 0xFFFF, len + 256] {
        let mut q = p.to_vec();
        q[at..at + 2].copy_from_slice(&(to as u16).to_be_bytes());
        all.push(q);
    }
    if len > 0 {
        for (place, byte) in [(at + 2, 0x80), (at + 1 + len, 0xC3), (at + 2, 0xFF)] {
            let mut q = p.to_vec();
            q[place] = byte;
            all.push(q);
        }
    }
    all
}

// ---------------------------------------------------------------- values of record lines

/// Values that a text may be mistaken for, and some at the limit of repeats.
pub const ODD_TEXTS: [&str; 26] = [
    "-", "", "*", "*2", "61*", "61*0", "61*00", "61*1", "61*007", "61*2*2", "61*-1", "61*+2", "61* 2", "61*2 ", "6*2", "-*2",
    "61*99999999999999999999", "61*18446744073709551616", "C3*2", "C3A9*2", "61,", ",61", ",", "-,-", "--", "61*0x2",
];

/// A text: empty, hex, or hex so many times.
pub fn text_value(r: &mut Random) -> Vec<u8> {
    match r.below(24) {
        0 | 1 => b"-".to_vec(),
        2 | 3 => {
            let n = r.between(1, 3);
            let part = text(r, n);
            let zeros = if r.one_in(4) { "00" } else { "" };
            [hex(r, &part), format!("*{zeros}{}", r.between(1, 30)).into_bytes()].concat()
        }
        4 => {
            let n = r.below(3);
            let bad = [text(r, n), broken(r)].concat();
            hex(r, &bad)
        }
        _ => {
            let n = r.between(1, 5);
            let good = text(r, n);
            hex(r, &good)
        }
    }
}

/// Texts with commas between them.
pub fn list_value(r: &mut Random) -> Vec<u8> {
    let n = if r.one_in(60) { r.below(200) } else { r.below(5) };
    let texts: Vec<Vec<u8>> = (0..n).map(|_| text_value(r)).collect();
    texts.join(&b","[..])
}

/// Record lines whose texts come near the limits of 65,535 bytes, in the slice or in the written form.
pub fn big_line(r: &mut Random, letter: u8) -> Vec<u8> {
    let total = match r.below(8) {
        0..=3 => r.between(65_535 - 30, 65_535 + 3),
        4 => r.between(4_000, 65_500),
        5 => r.between(65_536, 140_000),
        6 => r.between(131_068, 131_076),
        _ => *r.pick(&[65_534, 65_535, 65_536, 299_999, 300_000, 300_001]),
    };
    if letter == b'N' {
        let head = if r.one_in(2) { "N" } else { "N.new_fqdn" };
        return line_of_words(head, &[("name".into(), "=", big_text(r, total))]);
    }
    let keys: &[&str] = &["fd", "url", "dn", "cp", "dnp", "afd", "aurl", "adnp", "afd+", "aurl+", "adnp+"];
    let (head, keys) = if r.one_in(2) { ("P.build", keys) } else { ("P", &keys[..8]) };
    let mut order: Vec<usize> = (0..keys.len()).collect();
    r.shuffle(&mut order);
    order.truncate(r.between(1, 4));
    let mut tokens: Vec<Token> = Vec::new();
    let mut left = total;
    for (i, k) in order.iter().enumerate() {
        let n = if i + 1 == order.len() { left } else { r.below(left + 1) };
        left -= n;
        let value = match (r.below(3), *k) {
            (0, 5..=7) => big_list(r, n),
            _ => big_text(r, n),
        };
        tokens.push((keys[*k].to_string(), "=", value));
    }
    line_of_words(head, &tokens)
}

/// A text of n bytes: one sequence again and again where that fits, now and then all digits.
fn big_text(r: &mut Random, n: usize) -> Vec<u8> {
    if n == 0 {
        return b"-".to_vec();
    }
    if n < 60_000 && r.one_in(4) {
        let t = exact_text(r, n);
        return hex(r, &t);
    }
    let mut part = sequence(r);
    if n % part.len() != 0 {
        part = b"a".to_vec();
    }
    [hex(r, &part), format!("*{}", n / part.len()).into_bytes()].concat()
}

/// A list of few texts whose fields have n bytes together.
fn big_list(r: &mut Random, n: usize) -> Vec<u8> {
    let count = r.between(1, 5);
    let Some(mut left) = n.checked_sub(2 * count) else { return big_text(r, n) };
    let mut texts = Vec::new();
    for i in (0..count).rev() {
        let size = if i == 0 { left } else { r.below(left + 1) };
        left -= size;
        texts.push(big_text(r, size));
    }
    texts.join(&b","[..])
}

// ---------------------------------------------------------------- raw lines

/// A slice of texts and fields, with where each starts and how long it is.
struct Slice {
    bytes: Vec<u8>,
    texts: Vec<(usize, usize)>,
    fields: Vec<(usize, usize)>,
}

impl Slice {
    fn of(r: &mut Random) -> Slice {
        let mut s = Slice { bytes: Vec::new(), texts: Vec::new(), fields: Vec::new() };
        let only = r.below(4);
        for _ in 0..r.below(9) {
            let n = r.below(4);
            let t = if r.one_in(16) { broken(r) } else { text(r, n) };
            let at = s.bytes.len();
            if only == 0 || (only == 1 && r.one_in(2)) {
                s.texts.push((at, t.len()));
                s.bytes.extend(t);
            } else {
                s.texts.push((at + 2, t.len()));
                s.fields.push((at, 2 + t.len()));
                s.bytes.extend(field(&t));
            }
        }
        if r.one_in(8) && !s.bytes.is_empty() {
            s.bytes = damaged(r, s.bytes);
        }
        s
    }

    /// A text of the slice, now and then a little beside it or far away.
    fn span(&self, r: &mut Random) -> Vec<u8> {
        let (place, len) = if self.texts.is_empty() { (0, 0) } else { *r.pick(&self.texts) };
        let (place, len) = (near(r, place), near(r, len));
        format!("{place}+{len}").into_bytes()
    }

    /// Some fields of the slice one behind the other.
    fn run(&self, r: &mut Random) -> Vec<u8> {
        let (mut place, mut len, mut count) = (0, 0, 0);
        if !self.fields.is_empty() && !r.one_in(8) {
            let from = r.below(self.fields.len());
            let to = r.between(from, self.fields.len() - 1);
            place = self.fields[from].0;
            len = self.fields[to].0 + self.fields[to].1 - place;
            count = to - from + 1;
        }
        let (place, len, count) = (near(r, place), near(r, len), near(r, count));
        format!("{place}+{len}*{count}").into_bytes()
    }

    fn token(&self, r: &mut Random) -> Token {
        let bytes = hex(r, &self.bytes);
        let value = match (bytes.len(), r.below(8)) {
            (0, _) => b"-".to_vec(),
            (n, 0) if n > 2 => {
                let at = 2 * r.between(1, n / 2 - 1);
                [&bytes[..at], b",", &bytes[at..]].concat()
            }
            _ => bytes,
        };
        ("slice".into(), "=", value)
    }
}

/// A number, or one that is a little off, or far away.
fn near(r: &mut Random, n: usize) -> u64 {
    let n = n as u64;
    match r.below(60) {
        0 => n + 1,
        1 => n.saturating_sub(1),
        2 => 0,
        3 => *r.pick(&[u64::MAX, u64::MAX - 1, 1 << 63, 65_535, 65_536, 1 << 32]),
        _ => n,
    }
}

/// A line with places in a slice, now and then with an output that may be too short.
pub fn raw_line(r: &mut Random, letter: u8) -> Vec<u8> {
    let slice = Slice::of(r);
    let mut tokens = Vec::new();
    let head = match (letter, r.below(8)) {
        (_, 0) => {
            let payload = if letter == b'N' { good_node_id(r) } else { good_pfd(r) };
            let bytes = if r.one_in(3) { damaged(r, payload) } else { payload };
            let whole = Slice { bytes, texts: Vec::new(), fields: Vec::new() };
            tokens.push(whole.token(r));
            format!("{}.read", letter as char)
        }
        (b'N', _) => {
            tokens.push(("name".into(), "=", slice.span(r)));
            "N.raw".into()
        }
        (_, 1..=4) => {
            let flags = r.byte();
            tokens.push(("flags".into(), "=", hex(r, &[flags])));
            for (i, key) in ["fd", "url", "dn", "cp", "dnp", "afd", "aurl", "adnp"].iter().enumerate() {
                if r.one_in(3) {
                    let value = if i < 5 { slice.span(r) } else { slice.run(r) };
                    tokens.push((key.to_string(), "=", value));
                }
            }
            "P.raw".into()
        }
        _ => {
            tokens.extend(raw_calls(r, &slice));
            "P.raw_build".into()
        }
    };
    if !head.ends_with("read") {
        let at = r.below(tokens.len() + 1);
        tokens.insert(at, slice.token(r));
        if r.one_in(3) {
            let room = r.below(60);
            tokens.push(("room".into(), "=", room.to_string().into_bytes()));
        }
    }
    if r.one_in(30) {
        tokens.push(("brief".into(), "", Vec::new()));
    }
    if r.one_in(40) {
        let at = r.below(tokens.len());
        tokens[at].2.push(*r.pick(b"0+*-,x "));
    }
    line_of_words(&head, &tokens)
}

/// Calls of a builder with places: settings, and fields that are added one behind the other.
fn raw_calls(r: &mut Random, slice: &Slice) -> Vec<Token> {
    let mut calls: Vec<Token> = Vec::new();
    for _ in 0..r.below(4) {
        match r.below(8) {
            i @ 0..=4 => calls.push((["fd", "url", "dn", "cp", "dnp"][i].into(), "=", slice.span(r))),
            i => calls.push((["afd", "aurl", "adnp"][i - 5].into(), "=", slice.run(r))),
        }
    }
    for key in ["afd+", "aurl+", "adnp+"] {
        if slice.fields.is_empty() || r.one_in(2) {
            continue;
        }
        let from = r.below(slice.fields.len());
        let to = r.between(from, slice.fields.len() - 1);
        for (place, _) in &slice.fields[from..=to] {
            let value = near(r, *place).to_string().into_bytes();
            let at = if r.one_in(3) { r.below(calls.len() + 1) } else { calls.len() };
            calls.insert(at, (key.into(), "=", value));
        }
    }
    calls
}
