//! Where a text stops being UTF-8, and how: what the crate tells of names and of texts of PFD Contents, against
//! `std::str::from_utf8`.

use yerondatt::error::{Refusal, Why};
use yerondatt::ie::node_id::NodeId;
use yerondatt::ie::pfd_contents::PfdContents;

/// Both ends of each range of bytes that the rows of UTF-8 tell apart.
const EDGES: [u8; 24] = [
    0x00, 0x7F, 0x80, 0x8F, 0x90, 0x9F, 0xA0, 0xBF, 0xC0, 0xC1, 0xC2, 0xDF, 0xE0, 0xE1, 0xEC, 0xED, 0xEE, 0xEF, 0xF0,
    0xF1, 0xF3, 0xF4, 0xF5, 0xFF,
];

/// Characters of one to four bytes.
const GOOD: &str = "aé€𝄞";

/// The lengths of the good beginning and of the bad sequence behind it, where a text that begins there is refused.
fn told<T>(result: Result<T, Refusal>, begins: usize) -> Option<(usize, usize)> {
    match result.err()?.why {
        Why::NotUtf8 { place, bad } => Some((place - begins, bad)),
        why => panic!("a text is refused otherwise: {why:?}"),
    }
}

/// The bytes behind the text could complete a character that it ends in, and mustn't.
fn pfd_contents(text: &[u8]) -> Vec<u8> {
    let len = u16::try_from(text.len()).expect("a short text").to_be_bytes();
    [&[1, 0], &len[..], text, &[0x80, 0x80, 0x80]].concat()
}

fn is_told_as_by_rust(text: &[u8]) {
    let error = std::str::from_utf8(text).err();
    let expected = error.map(|error| (error.valid_up_to(), error.error_len().unwrap_or(0)));
    assert_eq!(told(NodeId::unmarshal(&[&[2], text].concat()), 1), expected, "a name {text:02X?}");
    assert_eq!(told(PfdContents::unmarshal(&pfd_contents(text)), 4), expected, "a text {text:02X?}");
}

/// All texts of so many of these bytes.
fn texts(bytes: &[u8], len: u32) -> impl Iterator<Item = Vec<u8>> + '_ {
    let letter = move |number: usize, at: u32| bytes[number / bytes.len().pow(at) % bytes.len()];
    (0..bytes.len().pow(len)).map(move |number| (0..len).map(|at| letter(number, at)).collect())
}

#[test]
fn up_to_two_bytes() {
    let all: Vec<u8> = (0..=255).collect();
    (0..=2).flat_map(|len| texts(&all, len)).for_each(|text| is_told_as_by_rust(&text));
}

#[test]
fn up_to_four_bytes_at_the_edges() {
    (3..=4).flat_map(|len| texts(&EDGES, len)).for_each(|text| is_told_as_by_rust(&text));
}

#[test]
fn behind_a_good_beginning() {
    let behind = (1..=3).flat_map(|len| texts(&EDGES, len));
    behind.for_each(|text| is_told_as_by_rust(&[GOOD.as_bytes(), &text].concat()));
}

/// Every beginning of a good text is good or cut.
#[test]
fn cut_anywhere() {
    for len in 0..=GOOD.len() {
        let cut = &GOOD.as_bytes()[..len];
        is_told_as_by_rust(cut);
        let bad = told(NodeId::unmarshal(&[&[2], cut].concat()), 1).map(|(_, bad)| bad);
        assert_eq!(bad, (!GOOD.is_char_boundary(len)).then_some(0));
    }
}
