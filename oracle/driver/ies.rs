//! Lines of the letter B: a message body, taken apart into its information elements.

use super::line::{bytes_of, payload_of};
use super::raw;
use super::refusal::by_word;
use super::{Options, LONGEST_LINE, OTHER};
use crate::error::PfcpError;
use crate::ie::{Ie, IeIterator};
use std::fmt::Write;

/// The most bytes of a line of the program `desk`: before the longest body there is room for words.
const LONGEST_BODY_LINE: usize = LONGEST_LINE + 1_000;

/// Why a body has no rows.
struct Refused {
    number: u32,
    place: usize,
    values: [usize; 3],
    name: &'static str,
}

/// The elements of a body: how many, and a word for each.
struct Rows {
    count: usize,
    words: String,
}

pub fn answer(o: &Options, line: &[u8], out: &mut String) {
    let body = match payload_of(line, o.max_pairs) {
        Some((b'B', p)) if o.takes(b'B') => p,
        _ => return out.push_str(OTHER),
    };
    let read = all(o, &body);
    print(&read, out);
    if let (Err(refused), true) = (&read, o.full) {
        write!(out, " | {}", refused.name).unwrap();
    }
}

/// A line of the program `desk`. The table's length is nothing of the published Rust's: refusal 8 is said here, last.
pub fn desk_answer(o: &Options, line: &[u8], out: &mut String) {
    let Some((room, body)) = asked(o, line) else { return out.push_str(OTHER) };
    let read = all(o, &body).and_then(|rows| match rows.count {
        n if n > room => Err(Refused { number: 8, place: 0, values: [n, 0, 0], name: "short-table" }),
        _ => Ok(rows),
    });
    print(&read, out);
}

/// The table's length and the body. A line that lends a list of types isn't one, since the published list is fixed.
fn asked(o: &Options, line: &[u8]) -> Option<(usize, Vec<u8>)> {
    if line.len() > LONGEST_BODY_LINE || !o.takes(b'B') {
        return None;
    }
    let words: Vec<&[u8]> = line.split(|c| *c == b' ').collect();
    let (room, digits) = match words[..] {
        [b"B", digits] => (None, digits),
        [b"B", room, digits] => (Some(std::str::from_utf8(room.strip_prefix(b"rows=")?).ok()?), digits),
        _ => return None,
    };
    Some((raw::room(room).ok()?, bytes_of(digits, o.max_pairs)?))
}

fn print(read: &Result<Rows, Refused>, out: &mut String) {
    match read {
        Ok(Rows { count, words }) => write!(out, "0 {count}{words}"),
        Err(Refused { number, place, values: [a, b, c], .. }) => write!(out, "{number} {place} {a} {b} {c}"),
    }
    .unwrap();
}

fn all(o: &Options, body: &[u8]) -> Result<Rows, Refused> {
    if o.limit && body.len() > 65_535 {
        return Err(Refused { number: 5, place: 0, values: [body.len(), 0, 0], name: "long-body" });
    }
    let mut words = String::new();
    let (mut count, mut at) = (0, 0);
    while at < body.len() {
        let ie = Ie::unmarshal(&body[at..]).map_err(|e| {
            same_by_iterator(body, count, &e);
            refused(at, &e)
        })?;
        let len = ie.len() as usize;
        assert!(len >= 4, "the published length wrapped around: its own loop would never end");
        let enterprise = ie.enterprise_id().map_or(65_536, u32::from);
        let place = at + len - ie.payload.len();
        write!(words, " {}:{enterprise}:{place}:{}", ie.raw_type(), ie.payload.len()).unwrap();
        count += 1;
        at += len;
    }
    assert_eq!(IeIterator::new(body).filter(|r| r.is_ok()).count(), count);
    Ok(Rows { count, words })
}

/// The published iterator gives as many elements before the first error, and the same error.
fn same_by_iterator(body: &[u8], count: usize, e: &PfcpError) {
    let mut all = IeIterator::new(body);
    for _ in 0..count {
        assert!(all.next().unwrap().is_ok());
    }
    assert_eq!(&all.next().unwrap().unwrap_err(), e);
}

fn refused(place: usize, e: &PfcpError) -> Refused {
    match e {
        PfcpError::InvalidLength { ie_name, expected, actual, .. } => {
            let name = match ie_name.as_str() {
                "IE" => "short-header",
                "Vendor-specific IE" => "short-vendor-header",
                "Vendor-specific IE value" => "vendor-length-under-2",
                "IE payload" => "short-payload",
                _ => panic!("an error that the driver doesn't know: {e:?}"),
            };
            Refused { number: 1, place, values: [0, *expected, *actual], name }
        }
        PfcpError::InvalidValue { field, reason, .. } if field == "IE" => {
            let number = by_word(reason, &[("Zero-length", 11)]);
            Refused { number, place, values: [0; 3], name: "zero-length" }
        }
        _ => panic!("an error that the driver doesn't know: {e:?}"),
    }
}

/// Asks the published reader about a zero length for each of the 65,536 raw types, and prints those
/// that may have it. Also tests that each raw type comes back, vendor or not.
pub fn zero_types() {
    for t in 0..=65_535u16 {
        let [high, low] = t.to_be_bytes();
        if let Ok(ie) = Ie::unmarshal(&[high, low, 0, 0]) {
            println!("{t} (0x{t:04X}) {:?}", ie.ie_type);
        }
        let ie = Ie::unmarshal(&[high, low, 0, 2, 0x12, 0x34]).unwrap();
        assert_eq!(ie.raw_type(), t);
        assert_eq!(ie.enterprise_id(), (t >= 0x8000).then_some(0x1234));
    }
}
