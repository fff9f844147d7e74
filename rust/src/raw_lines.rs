//! The recorded lines that speak of places, replayed over the private images: raw lines of `compose`, in which a text may
//! end past its slice and an output may be short, and the places of texts in payloads that `probe` read.

// The lines here add nothing to a list, which is all that isn't used.
#[allow(dead_code)]
#[path = "../tests/replay/line.rs"]
mod line;

use crate::error::{Kind, Refusal};
use crate::image::{self, Image, FLAGS, GIVEN};
use line::{hex, number, numbers, payload, room, slice, taken_apart, value, Token, OTHER};

const TEXTS: [&str; 5] = ["fd", "url", "dn", "cp", "dnp"];
const LISTS: [&str; 3] = ["afd", "aurl", "adnp"];

/// The lines of both programs, and of one's own, that begin so, with their answers.
fn lines(beginning: &str) -> Vec<(String, String)> {
    let all = line::recorded("probe").into_iter().chain(line::recorded("compose")).chain(line::more());
    let known = all.filter(|(_, recorded)| recorded != OTHER);
    let texts = known.map(|(line, recorded)| (String::from_utf8(line).expect("a text"), recorded));
    let found: Vec<_> = texts.filter(|(line, _)| line.starts_with(beginning)).collect();
    assert!(!found.is_empty(), "the list has lines {beginning}");
    found
}

fn answer(kind: Kind, image: &[u8], tokens: &[Token]) -> String {
    let mut out = vec![0xA5; room(tokens)];
    let told = image::write(kind, image, &slice(tokens), &mut out);
    let changed = told.unwrap_or(0);
    assert!(out[changed..].iter().all(|byte| *byte == 0xA5), "nothing behind what is written changes");
    match told {
        Ok(written) if value(tokens, "brief").is_some() => format!("0 {written} -"),
        Ok(written) => format!("0 {written} {}", hex(&out[..written])),
        Err(refusal) => refused(&refusal),
    }
}

fn refused(refusal: &Refusal) -> String {
    format!("{} {} -", refusal.number(), refusal.values()[0])
}

#[test]
fn names_by_place() {
    for (line, recorded) in lines("N.raw ") {
        let (_, tokens) = taken_apart(&line);
        let mut image = Image::<77>::new();
        image.0[40] = 2;
        set_numbers(&mut image, 41, value(&tokens, "name").expect("a name"));
        assert_eq!(answer(Kind::NodeId, &image.0, &tokens), recorded, "{line}");
    }
}

#[test]
fn texts_and_lists_by_place() {
    for (line, recorded) in lines("P.raw ") {
        let (_, tokens) = taken_apart(&line);
        let mut image = Image::<194>::new();
        image.0[FLAGS] = number(&tokens, "flags") as u8;
        image.set_bits(GIVEN, &TEXTS.map(|key| value(&tokens, key).is_some()));
        let texts = TEXTS.iter().enumerate().map(|(i, key)| (42 + 16 * i, key));
        let lists = LISTS.iter().enumerate().map(|(i, key)| (122 + 24 * i, key));
        for (at, key) in texts.chain(lists) {
            if let Some(places) = value(&tokens, key) {
                set_numbers(&mut image, at, places);
            }
        }
        assert_eq!(answer(Kind::PfdContents, &image.0, &tokens), recorded, "{line}");
    }
}

/// Puts the numbers of a place one behind the other.
fn set_numbers<const N: usize>(image: &mut Image<N>, at: usize, places: &str) {
    for (i, number) in numbers(places).into_iter().enumerate() {
        image.set_number(at + 8 * i, number);
    }
}

#[test]
fn places_of_names() {
    for (line, recorded) in lines("N ").into_iter().filter(|(line, recorded)| was_read(line, recorded)) {
        let payload = payload(&line);
        let (image, _) = image::read::<77>(Kind::NodeId, &payload).expect("accepted");
        if image.0[40] == 2 {
            let shown = format!("| rec=N type=2 name={}", text_at(&image, &payload, 41));
            assert!(recorded.ends_with(&shown), "{line}: {shown}");
        }
    }
}

#[test]
fn places_of_texts_and_lists() {
    for (line, recorded) in lines("P ").into_iter().filter(|(line, recorded)| was_read(line, recorded)) {
        let payload = payload(&line);
        let (image, _) = image::read::<194>(Kind::PfdContents, &payload).expect("accepted");
        let mut shown = format!("| rec=P flags={:02X}", image.0[FLAGS]);
        for (i, key) in TEXTS.iter().enumerate() {
            let text = if image.given(i as u8) { text_at(&image, &payload, 42 + 16 * i) } else { "-".into() };
            shown += &format!(" {key}={text}");
        }
        for (i, key) in LISTS.iter().enumerate() {
            shown += &format!(" {key}={}", list_at(&image, &payload, 122 + 24 * i));
        }
        assert!(recorded.ends_with(&shown), "{line}: {shown}");
    }
}

/// A payload line, and one that was accepted.
fn was_read(line: &str, recorded: &str) -> bool {
    !line.contains(['=', '.']) && recorded.starts_with("0 ")
}

fn text_at<const N: usize>(image: &Image<N>, payload: &[u8], at: usize) -> String {
    let (place, len) = (image.count(at), image.count(at + 8));
    format!("\"{}\"@{place}", hex(&payload[place..place + len]))
}

fn list_at(image: &Image<194>, payload: &[u8], at: usize) -> String {
    let (place, bytes, count) = (image.count(at), image.count(at + 8), image.count(at + 16));
    let mut run = &payload[place..place + bytes];
    let mut texts = Vec::new();
    while let [high, low, behind @ ..] = run {
        let (text, rest) = behind.split_at(usize::from(u16::from_be_bytes([*high, *low])));
        texts.push(format!("\"{}\"", hex(text)));
        run = rest;
    }
    assert_eq!(texts.len(), count);
    match count {
        0 => "[]".into(),
        _ => format!("[{}]@{place}+{bytes}", texts.join(",")),
    }
}

#[test]
fn the_layout_is_the_one_that_is_known() {
    assert_eq!(crate::layout_version(), crate::LAYOUT_VERSION);
}

/// The crate never lends too little: that such a call changes nothing is held here.
#[test]
fn a_short_image_or_report_is_refused() {
    let payload = [2, 0, 0, 0, 0, 0, 0, 0, 5, 192, 0, 2, 1];
    let mut image = [0xA5; 69];
    assert_eq!(crate::boundary::read(Kind::Fseid, &payload, &mut image), 8);
    assert_eq!(image, [0xA5; 69]);
    let (mut out, mut report) = ([0xA5; 29], [0xA5; 39]);
    assert_eq!(crate::boundary::write(Kind::Fseid, &[0; 70], &[], &mut out, &mut report), 8);
    assert_eq!((out, report), ([0xA5; 29], [0xA5; 39]));
}
