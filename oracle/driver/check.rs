//! What the driver's answers lean on, tested with the published readers alone.

use super::header;
use super::line::payload_of;
use super::record::{read, Record};
use super::refusal::{refusal, Refusal};
use super::Options;
use crate::ie::node_id::NodeId;

/// The claims that fail for a line's payload; none where all hold or the line is no payload line.
pub fn faults(o: &Options, line: &[u8]) -> Vec<String> {
    let Some((kind, p)) = payload_of(line, o.max_pairs) else { return Vec::new() };
    if !b"UFSNOPH".contains(&kind) || !o.takes(kind) {
        return Vec::new();
    }
    match read(kind, &p) {
        Ok(r) => of_record(kind, &p, &r),
        Err(e) if kind == b'H' => of_refusal(&p, &header::refusal(&e)),
        Err(e) => of_refusal(&p, &refusal(kind, &p, &e, true)),
    }
}

fn of_record(kind: u8, p: &[u8], r: &Record) -> Vec<String> {
    let mut faults = Vec::new();
    let w = r.marshal();
    // The used count: the shortest beginning that reads as the same record.
    let used = (0..=p.len()).find(|l| read(kind, &p[..*l]).is_ok_and(|x| x == *r)).unwrap();
    if used != w.len() {
        faults.push(format!("{used} bytes are used and {} written", w.len()));
    }
    match read(kind, &w) {
        Ok(x) if x == *r => {}
        x => faults.push(format!("the written form reads back as {x:?}")),
    }
    // Texts stand in the payload where they stand in the written form.
    let stands = match r {
        Record::P(_) => w.len() <= p.len() && w[0] == p[0] && w[2..] == p[2..w.len()],
        Record::N(NodeId::FQDN(_)) => w == p,
        _ => true,
    };
    if !stands {
        faults.push("texts stand elsewhere in the written form".into());
    }
    faults
}

fn of_refusal(p: &[u8], r: &Refusal) -> Vec<String> {
    let holds = match *r {
        Refusal::Length { expected, actual, .. } => actual == p.len() && expected > actual,
        Refusal::Flags { byte, .. } | Refusal::NodeType { byte } => p.first() == Some(&byte),
        Refusal::Utf8 { place, bad } => place < p.len() && bad <= 3 && same_by_std(&p[place..], bad),
        Refusal::InputTooLong { .. } => false,
    };
    if holds {
        return Vec::new();
    }
    vec![format!("{} doesn't fit the payload", r.details())]
}

/// The standard library says the same of the bytes from the bad place on. A sequence that was cut,
/// `bad` 0, ends within three bytes, where more of the payload may follow.
fn same_by_std(rest: &[u8], bad: usize) -> bool {
    let says = |t: &[u8]| match std::str::from_utf8(t) {
        Err(e) => e.valid_up_to() == 0 && e.error_len().unwrap_or(0) == bad,
        Ok(_) => false,
    };
    if bad > 0 {
        return says(rest);
    }
    (1..=rest.len().min(3)).any(|l| says(&rest[..l]))
}
