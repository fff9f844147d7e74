//! The published errors as refusals of the paper.
//!
//! An error is known by its variant, then by the name of what it refuses, then by a word of its text.

use crate::error::PfcpError;
use crate::ie::pfd_contents::PfdContents;

/// A refusal in the paper's terms.
#[derive(Debug, Clone, PartialEq)]
pub enum Refusal {
    Length { field: u32, expected: usize, actual: usize }, // 1
    Flags { byte: u8, rule: u32 },                         // 2
    NodeType { byte: u8 },                                 // 3
    Utf8 { place: usize, bad: usize },                     // 4
    InputTooLong { len: usize },                                // 5, only with --limit
}

impl Refusal {
    pub fn number(&self) -> u32 {
        match self {
            Refusal::Length { .. } => 1,
            Refusal::Flags { .. } => 2,
            Refusal::NodeType { .. } => 3,
            Refusal::Utf8 { .. } => 4,
            Refusal::InputTooLong { .. } => 5,
        }
    }

    pub fn details(&self) -> String {
        match self {
            Refusal::Length { field, expected, actual } => {
                format!("err=1 field={field} exp={expected} act={actual}")
            }
            Refusal::Flags { byte, rule } => format!("err=2 flags={byte:02X} rule={rule}"),
            Refusal::NodeType { byte } => format!("err=3 type={byte:02X}"),
            Refusal::Utf8 { place, bad } => format!("err=4 place={place} bad={bad}"),
            Refusal::InputTooLong { len } => format!("err=5 len={len}"),
        }
    }
}

/// The number of the one word of the list that the text has.
pub fn by_word(text: &str, words: &[(&str, u32)]) -> u32 {
    let mut found = words.iter().filter(|(w, _)| text.contains(w));
    match (found.next(), found.next()) {
        (Some((_, n)), None) => *n,
        _ => panic!("a text that the driver doesn't know: {text:?}"),
    }
}

/// The paper's field number of a name that a length error has.
fn field_number(name: &str) -> Option<u32> {
    Some(match name {
        "UE IP Address" | "F-TEID" | "F-SEID" | "Node ID" | "Outer Header Creation"
        | "PFD Contents" => 0,
        "UE IP Address IPv4" | "F-TEID IPv4" | "F-SEID IPv4" | "Node ID (IPv4)"
        | "Outer Header Creation IPv4" => 1,
        "UE IP Address IPv6" | "F-TEID IPv6" | "F-SEID IPv6" | "Node ID (IPv6)"
        | "Outer Header Creation IPv6" => 2,
        "UE IP Address IPv6 prefix delegation bits" => 3,
        "UE IP Address IPv6 prefix length" => 4,
        "F-TEID choose ID" => 5,
        "Outer Header Creation TEID" => 6,
        "Outer Header Creation port" => 7,
        "Outer Header Creation C-TAG" => 8,
        "Outer Header Creation S-TAG" => 9,
        "PFD Contents field" => 10,
        _ => return None,
    })
}

/// The byte behind `0x` at the end of a value text.
fn hex_byte(text: &str) -> u8 {
    let digits = text.split_once("0x").map_or("", |(_, d)| d);
    u8::from_str_radix(digits, 16).unwrap_or_else(|_| panic!("no byte in {text:?}"))
}

/// What the standard library's `Utf8Error` says at the end of a text: the index, and the length of
/// the bad sequence, 0 where the text ended inside one.
fn utf8_numbers(text: &str) -> (usize, usize) {
    let (head, index) = text.rsplit_once(" from index ").expect("the text of a Utf8Error");
    let bad = match head.rsplit_once(" sequence of ") {
        Some((_, n)) => n.strip_suffix(" bytes").and_then(|n| n.parse().ok()),
        None if head.contains("incomplete") => Some(0),
        None => None,
    };
    let bad = bad.unwrap_or_else(|| panic!("a text that the driver doesn't know: {text:?}"));
    (index.parse().expect("the index of a Utf8Error"), bad)
}

/// The least number behind `from` up to `to` at which `is` holds, where it holds from some number on.
fn least(from: usize, to: usize, is: impl Fn(usize) -> bool) -> usize {
    let (mut no, mut yes) = (from, to);
    while yes - no > 1 {
        let middle = no + (yes - no) / 2;
        if is(middle) {
            yes = middle
        } else {
            no = middle
        }
    }
    assert!(is(yes) && !is(yes - 1));
    yes
}

/// Where the text starts whose UTF-8 the PFD Contents reader refused. The reader is asked about shorter
/// payloads: cut inside the bad text it wants the text's end, and cut inside the length field before it
/// takes the text as absent and accepts.
fn pfd_text_place(payload: &[u8]) -> usize {
    let answer = |l: usize| PfdContents::unmarshal(&payload[..l]);
    let end = least(1, payload.len(), |l| matches!(answer(l), Err(PfcpError::InvalidValue { .. })));
    let start = least(1, end - 1, |l| {
        l >= 2 && matches!(answer(l), Err(PfcpError::InvalidLength { expected, .. }) if expected == end)
    });
    assert!(answer(start - 1).is_ok());
    start
}

/// The refusal that an error of a payload reader is. The place of a PFD text is looked for only where
/// `details` are wanted.
pub fn refusal(kind: u8, payload: &[u8], e: &PfcpError, details: bool) -> Refusal {
    let unknown = || -> ! { panic!("an error that the driver doesn't know: {e:?}") };
    match e {
        PfcpError::InvalidLength { ie_name, expected, actual, .. } => Refusal::Length {
            field: field_number(ie_name).unwrap_or_else(|| unknown()),
            expected: *expected,
            actual: *actual,
        },
        PfcpError::InvalidValue { field, value, reason } => match (kind, field.as_str()) {
            (b'U', "UE IP Address flags") => Refusal::Flags {
                byte: hex_byte(value),
                rule: by_word(reason, &[("CHV4/", 1), ("IPv6D and", 2), ("IPv6D/", 3)]),
            },
            (b'F', "F-TEID choose ID") => {
                Refusal::Flags { byte: hex_byte(value), rule: by_word(reason, &[("CHID", 4)]) }
            }
            (b'N', "Node ID type") => {
                Refusal::NodeType { byte: value.parse().unwrap_or_else(|_| unknown()) }
            }
            (b'N', "Node ID (FQDN)") => {
                // The published reader drops the standard library's error: ask for it again.
                let u = std::str::from_utf8(&payload[1..]).expect_err("a good name was refused");
                Refusal::Utf8 { place: 1 + u.valid_up_to(), bad: u.error_len().unwrap_or(0) }
            }
            (b'P', "PFD Contents") => {
                let (index, bad) = utf8_numbers(reason);
                let place = if details { pfd_text_place(payload) + index } else { 0 };
                Refusal::Utf8 { place, bad }
            }
            _ => unknown(),
        },
        _ => unknown(),
    }
}
