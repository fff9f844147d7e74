//! Lines of the letter H: message headers.

use super::line::payload_of;
use super::payload::{accepted, refused, within};
use super::record::Record;
use super::refusal::Refusal;
use super::{Options, OTHER};
use crate::error::PfcpError;
use crate::message::header::Header;

/// The published reader has its two lengths in a text alone, and no other number there.
pub fn refusal(e: &PfcpError) -> Refusal {
    let PfcpError::MessageParseError { reason, .. } = e else {
        panic!("an error that the driver doesn't know: {e:?}")
    };
    let words = reason.split(|c: char| !c.is_ascii_digit()).filter(|w| !w.is_empty());
    let numbers: Vec<usize> = words.map(|w| w.parse().expect("a length")).collect();
    let [expected, actual] = numbers[..] else { panic!("not two lengths in {reason:?}") };
    Refusal::Length { field: 0, expected, actual }
}

pub fn answer(o: &Options, line: &[u8], out: &mut String) {
    let p = match payload_of(line, o.max_pairs) {
        Some((b'H', p)) if o.takes(b'H') => p,
        _ => return out.push_str(OTHER),
    };
    if let Err(r) = within(o, &p) {
        return refused(o, &r, out);
    }
    match Header::unmarshal(&p) {
        Ok(h) => {
            assert_eq!(h.message_type_code(), p[1]);
            assert_eq!(h.len() as usize, h.marshal().len());
            accepted(o, &Record::H(h), out)
        }
        Err(e) => refused(o, &refusal(&e), out),
    }
}
