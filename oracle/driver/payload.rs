//! Payload lines: a letter and hex, answered by a reader and the writer behind it.

use super::line::{hex, payload_of};
use super::record::{read, Record};
use super::refusal::{refusal, Refusal};
use super::{Options, OTHER};
use std::fmt::Write;

pub fn answer(o: &Options, line: &[u8], out: &mut String) {
    match payload_of(line, o.max_pairs) {
        Some((b'T', p)) if o.takes(b'T') => text(&p, out),
        Some((kind, p)) if b"UFSNOP".contains(&kind) && o.takes(kind) => of_kind(o, kind, &p, false, out),
        _ => out.push_str(OTHER),
    }
}

/// The answer of a payload; `brief` leaves out what an accepted one is written as, and its fields.
pub fn of_kind(o: &Options, kind: u8, p: &[u8], brief: bool, out: &mut String) {
    match within(o, p) {
        Err(r) => refused(o, &r, out),
        Ok(()) => match read(kind, p) {
            Ok(r) if brief => write!(out, "0 {} -", r.marshal().len()).unwrap(),
            Ok(r) => accepted(o, &r, out),
            Err(e) => refused(o, &refusal(kind, p, &e, o.full), out),
        },
    }
}

/// The standard library's own check of UTF-8: what is good of the text, and the length of the bad
/// sequence behind it, 0 where the text is good or ends inside a sequence.
fn text(p: &[u8], out: &mut String) {
    let (good, bad) = match std::str::from_utf8(p) {
        Ok(_) => (p.len(), 0),
        Err(e) => (e.valid_up_to(), e.error_len().unwrap_or(0)),
    };
    write!(out, "{good} {bad}").unwrap();
}

/// Refusal 5, which the published Rust doesn't have.
pub fn within(o: &Options, p: &[u8]) -> Result<(), Refusal> {
    if o.limit && p.len() > 65_535 {
        return Err(Refusal::InputTooLong { len: p.len() });
    }
    Ok(())
}

pub fn accepted(o: &Options, r: &Record, out: &mut String) {
    let w = r.marshal();
    write!(out, "0 {} {}", w.len(), hex(&w)).unwrap();
    if o.full {
        write!(out, " | {}", r.fields(true)).unwrap();
    }
}

pub fn refused(o: &Options, r: &Refusal, out: &mut String) {
    write!(out, "{} 0 -", r.number()).unwrap();
    if o.full {
        write!(out, " | {}", r.details()).unwrap();
    }
}
