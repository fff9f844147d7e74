//! The recorded lists, line by line, through the crate: what it answers is compared byte by byte with the recorded answer,
//! every field and every detail of it. The lists are those of `crates/case`, `crates/probe` and `crates/compose`; their
//! answers come from the published Rust (`oracle/README.md`).

mod line;
mod made;
mod record;

use line::{hex, payload, room, slice, taken_apart, value, OTHER};
use made::Fault;
use record::Record;
use std::collections::BTreeMap;
use yerondatt::error::Why;
use yerondatt::Refusal;

/// What came of a line.
enum Outcome {
    /// The crate's answer.
    Answer(String),
    /// There is no such thing in the crate, for this reason.
    Without(&'static str),
}

use Outcome::{Answer, Without};

const RAW: &str = "texts by place: src/raw_lines.rs has these";
const NO_STRING: &str = "a text that no String holds";
const NO_PLACE: &str = "a builder's texts by place, refused for the slice or the place";
const SET_ANEW: &str = "refused for a length to which texts count that were set anew, and the crate has dropped";

#[test]
fn case() {
    replay("crates/case", &line::recorded("case"), false);
}

#[test]
fn probe() {
    replay("crates/probe", &line::recorded("probe"), true);
}

#[test]
fn compose() {
    replay("crates/compose", &line::recorded("compose"), true);
}

#[test]
fn more() {
    let pairs = line::more();
    if !pairs.is_empty() {
        replay("more", &pairs, true);
    }
}

fn replay(name: &str, pairs: &[(Vec<u8>, String)], full: bool) {
    let mut counts: BTreeMap<&str, usize> = BTreeMap::new();
    let mut wrong = Vec::new();
    for (line, recorded) in pairs {
        let class = match outcome(line, recorded, full) {
            Answer(answer) => {
                if answer != *recorded {
                    wrong
                        .push(format!("{}\n  recorded {recorded}\n  answered {answer}", String::from_utf8_lossy(line)));
                }
                "answered"
            }
            Without(reason) => reason,
        };
        *counts.entry(class).or_default() += 1;
    }
    println!("{name}: {} lines, {} of them answered otherwise than recorded", pairs.len(), wrong.len());
    for (class, count) in &counts {
        println!("{name}:   {count} {class}");
    }
    assert!(counts["answered"] > 0, "a list has lines that the crate answers");
    let shown: Vec<&String> = wrong.iter().take(5).collect();
    assert!(wrong.is_empty(), "{name}: {} lines differ, such as {shown:#?}", wrong.len());
}

fn outcome(line: &[u8], recorded: &str, full: bool) -> Outcome {
    if recorded == OTHER {
        return Without("of no known form");
    }
    let line = std::str::from_utf8(line).expect("a line of a known form is a text");
    if line.starts_with("T ") {
        return text(&payload(line));
    }
    if let Some(judged) = line.strip_prefix('V') {
        return Answer(verdict(judged.as_bytes()[0], &payload(judged)));
    }
    if !line.contains(['=', '.']) {
        return Answer(payload_answer(line.as_bytes()[0], &payload(line), full, false));
    }
    let (head, tokens) = taken_apart(line);
    match head {
        "N.raw" | "P.raw" => Without(RAW),
        "P.raw_build" if recorded.starts_with(['5', '6']) => Without(NO_PLACE),
        "P.raw_build" => raw_build_answer(line),
        "N.read" | "P.read" => {
            let brief = value(&tokens, "brief").is_some();
            Answer(payload_answer(head.as_bytes()[0], &slice(&tokens), full, brief))
        }
        _ => record_answer(line, recorded),
    }
}

// ---- payload lines

/// The crate has no check of a text alone. As a name it is accepted, or refused where its good beginning ends, with the
/// length of the bad sequence there.
fn text(bytes: &[u8]) -> Outcome {
    let name = [&[2], bytes].concat();
    match record::read(b'N', &name) {
        Ok((_, used)) => Answer(format!("{} 0", used - 1)),
        Err(Refusal { why: Why::NotUtf8 { place, bad }, .. }) => Answer(format!("{} {bad}", place - 1)),
        Err(Refusal { why: Why::InputTooLong { .. }, .. }) => Without("a text that is too long for a name"),
        Err(refusal) => panic!("a name is refused: {refusal:?}"),
    }
}

fn verdict(kind: u8, payload: &[u8]) -> String {
    String::from(if record::strict(kind, payload) { "yes" } else { "no" })
}

/// Of a Node ID the read goes by the whole first byte and the strict verdict by its low four bits: lines of the verdict tell.
fn has_spare_bits(kind: u8, payload: &[u8]) -> bool {
    kind == b'N' && payload.first().is_some_and(|first| first >> 4 != 0)
}

fn payload_answer(kind: u8, payload: &[u8], full: bool, brief: bool) -> String {
    match record::read(kind, payload) {
        Ok((record, used)) => {
            holds_of_accepted(kind, payload, &record, used);
            let written = record.marshal().expect("what was read can be written");
            match (brief, full) {
                (true, _) => format!("0 {used} -"),
                (false, true) => format!("0 {used} {} | {}", hex(&written), record.fields(true)),
                (false, false) => format!("0 {used} {}", hex(&written)),
            }
        }
        Err(refusal) => {
            assert_eq!(record::read_alone(kind, payload), Err(refusal));
            if !has_spare_bits(kind, payload) {
                assert!(!record::strict(kind, payload), "a refused payload is not strict");
            }
            let number = refusal.number();
            if full {
                format!("{number} 0 - | {}", details(&refusal))
            } else {
                format!("{number} 0 -")
            }
        }
    }
}

/// What the payload's own line doesn't show of a payload that is accepted.
fn holds_of_accepted(kind: u8, payload: &[u8], record: &Record, used: usize) {
    assert_eq!(record::read_alone(kind, payload).as_ref(), Ok(record));
    assert_eq!(
        record::read(kind, &payload[..used]).as_ref(),
        Ok(&(record.clone(), used)),
        "the bytes behind don't count"
    );
    assert_eq!(record::strict(kind, payload), record.is_strict());
    holds_of_writing(record);
}

/// `marshal_to` writes what `marshal` does, changes no byte behind it, and none at all where there is no room.
fn holds_of_writing(record: &Record) {
    let written = record.marshal().expect("a record that can be written");
    let mut out = vec![0xA5; written.len() + 3];
    assert_eq!(record.marshal_to(&mut out), Ok(written.len()));
    assert_eq!(out, [&written[..], &[0xA5; 3]].concat());
    let mut short = vec![0xA5; written.len() - 1];
    let refusal = record.marshal_to(&mut short).expect_err("no room");
    assert_eq!(refusal.why, Why::NoRoom { needed: written.len() });
    assert!(short.iter().all(|byte| *byte == 0xA5));
}

fn details(refusal: &Refusal) -> String {
    let [a, b, c] = refusal.values();
    match refusal.number() {
        1 => format!("err=1 field={a} exp={b} act={c}"),
        2 => format!("err=2 flags={a:02X} rule={b}"),
        3 => format!("err=3 type={a:02X}"),
        4 => format!("err=4 place={a} bad={b}"),
        5 => format!("err=5 len={a}"),
        number => panic!("no reader answers {number}"),
    }
}

// ---- record lines

fn record_answer(line: &str, recorded: &str) -> Outcome {
    if line.starts_with("P.build ") && recorded.starts_with("5 ") && sets_anew(line) {
        return Without(SET_ANEW);
    }
    match made::record(line) {
        Err(Fault::NotUtf8) => Without(NO_STRING),
        Err(Fault::Refused(refusal)) => Answer(refused(&refusal)),
        Ok(record) => Answer(written_answer(&record)),
    }
}

/// Whether a line sets what it had set or added to before.
fn sets_anew(line: &str) -> bool {
    let (_, tokens) = taken_apart(line);
    let again = |(i, token): (usize, &line::Token)| !token.adds && tokens[..i].iter().any(|t| t.key == token.key);
    tokens.iter().enumerate().any(again)
}

fn written_answer(record: &Record) -> String {
    match record.marshal() {
        Ok(written) => {
            holds_of_writing(record);
            format!("0 {} {} | {}", written.len(), hex(&written), record.fields(false))
        }
        Err(refusal) if refusal.why == Why::OutputTooLong => {
            format!("{} | {}", refused(&refusal), record.fields(false))
        }
        Err(refusal) => refused(&refusal),
    }
}

fn refused(refusal: &Refusal) -> String {
    format!("{} {} -", refusal.number(), refusal.values()[0])
}

/// Built, then written into the room that the line gives.
fn raw_build_answer(line: &str) -> Outcome {
    let (_, tokens) = taken_apart(line);
    let mut out = vec![0; room(&tokens)];
    let answer = match made::record(line) {
        Err(Fault::NotUtf8) => return Without(NO_STRING),
        Err(Fault::Refused(refusal)) => refused(&refusal),
        Ok(record) => match record.marshal_to(&mut out) {
            Ok(len) if value(&tokens, "brief").is_some() => format!("0 {len} -"),
            Ok(len) => format!("0 {len} {}", hex(&out[..len])),
            Err(refusal) => refused(&refusal),
        },
    };
    Answer(answer)
}
