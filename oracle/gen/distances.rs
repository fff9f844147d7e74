//! Lines of two sequence numbers, whose distance is asked.

use super::{spoil, without_ends, zeros_in, Random, LONGEST_LINE};

/// Sequence numbers go around here.
const CIRCLE: u64 = 1 << 24;
const HALF: u64 = CIRCLE / 2;

/// At and around the start, the half and the end of the circle, and the end of 32 bits; and some between.
const EDGES: [u64; 32] = [
    0, 1, 2, 3, 255, 256, 65_535, 65_536, 4_194_303, 4_194_304, 8_388_606, 8_388_607, 8_388_608, 8_388_609, 8_388_610, 12_582_911,
    12_582_912, 16_777_213, 16_777_214, 16_777_215, 16_777_216, 16_777_217, 25_165_824, 33_554_432, 2_147_483_647, 2_147_483_648,
    4_278_190_080, 4_286_578_688, 4_294_967_294, 4_294_967_295, 4_294_967_296, 4_294_967_297,
];

/// Lines of any form but the plain one.
const ODD_LINES: [&str; 94] = [
    "", " ", "D", "D ", "D  ", "D   ", "D -", "D - -", "D 1", "D 1 ", "D 1  ", "D  1", "D 12", "D1 2", "D  1 2", "D 1  2", " D 1 2", "D 1 2 ",
    "D 1 2  ", "D 1 2 3", "D 1 2 3 4", "D 1 2 D 1 2", "D\t1 2", "D 1\t2", "D 1 2\t", "D 1 2\r", "D 1 2\0", "D 1\0 2", "D\01 2", "D 1\r2",
    "D -1 2", "D 1 -2", "D -1 -2", "D +1 2", "D 1 +2", "D - 1 2", "D 1 --2", "D 0x1 2", "D 1 0x2", "D 0X10 2", "D A B", "D a 1", "D 1 F",
    "D 0001F 1", "D 1h 2", "D 0b1 2", "D 1.0 2", "D 1 2.", "D .1 2", "D 1,2", "D 1, 2", "D 1,000 2", "D 1_000 2", "D 1e3 2", "D 1/ 2",
    "D 1: 2", "D 1 :2", "D :1 2", "D 1 2/", "D a=1 b=2", "D=1 2", "D.1 2", "D 1\u{e9} 2", "D \u{661} \u{662}", "D 1 \u{ff12}", "D\u{a0}1 2",
    "d 1 2", "DD 1 2", "1 2", "X 1 2", "H 1 2", "T 1 2", "? 0 -", "0 5", "D one two", "D 1 2 room=8", "D 00 00", "D 01 2", "D 1 0002",
    "D 0000000000000000000000000000001 2", "D 00000000016777215 0", "D 0 00000000016777216", "D 0000000004294967295 1",
    "D 1 0000000004294967296", "D 4294967301 1", "D 18446744073709551615 0", "D 18446744073709551616 0", "D 1 18446744073709551621",
    "D 18446744073709551621 18446744073709551616", "D 99999999999999999999 1", "D 340282366920938463463374607431768211456 0",
    "D 1 100000000000000000000000000000000000000000000000000", "D 79228162514264337593543950341 5", "D 4294967295 99999999999999999999",
];

pub fn fixed_lines(short: bool) -> Vec<Vec<u8>> {
    let mut all: Vec<Vec<u8>> = ODD_LINES.iter().map(|l| l.as_bytes().to_vec()).collect();
    if !short {
        // Good lines as long as they may be, and a byte longer; and a number of as many digits.
        for bytes in [LONGEST_LINE, LONGEST_LINE + 1] {
            all.push(zeros_in("D ", "7 5", bytes));
            all.push(zeros_in("D 5 ", "16777215", bytes));
            all.push(zeros_in("D 1", " 5", bytes));
        }
    }
    all
}

/// Every pair of edges, in both orders.
pub fn counted() -> usize {
    EDGES.len() * EDGES.len()
}

pub fn counted_line(i: usize) -> Vec<u8> {
    line_of(EDGES[i / EDGES.len()], EDGES[i % EDGES.len()])
}

fn line_of(a: u64, b: u64) -> Vec<u8> {
    format!("D {a} {b}").into_bytes()
}

/// Of a hundred lines 94 are pairs of sequence numbers, two have a number of 32 bits that is none, one has a number above 32
/// bits, and three are malformed.
pub fn random_line(r: &mut Random) -> Vec<u8> {
    let a = any(r);
    match r.below(100) {
        0..=39 => line_of(a, any(r)),
        40..=59 => line_of(a, near(r, a)),
        60..=79 => line_of(a, near(r, a + HALF)),
        80..=88 => {
            let (a, b) = (edge(r), if r.one_in(2) { edge(r) } else { a });
            if r.one_in(2) { line_of(a, b) } else { line_of(b, a) }
        }
        89..=93 => {
            let b = if r.one_in(2) { any(r) } else { near(r, a + HALF) };
            let (zeros, more) = ("0".repeat(r.below(12)), "0".repeat(if r.one_in(20) { r.below(200) } else { r.below(3) }));
            if r.one_in(2) { format!("D {zeros}{a} {more}{b}") } else { format!("D {more}{a} {zeros}{b}") }.into_bytes()
        }
        94 | 95 => with(r, a, above),
        96 => with(r, a, far_above),
        _ => malformed(r, a),
    }
}

/// A sequence number.
fn any(r: &mut Random) -> u64 {
    r.next() % CIRCLE
}

/// A sequence number a little before or behind a number, or some power of two from it.
fn near(r: &mut Random, n: u64) -> u64 {
    let by = match r.below(4) {
        0 => 1 << r.below(23),
        1 => r.below(1_000) as u64,
        _ => r.below(4) as u64,
    };
    if r.one_in(2) { (n + by) % CIRCLE } else { (n + CIRCLE - by) % CIRCLE }
}

/// A sequence number at an edge or near one.
fn edge(r: &mut Random) -> u64 {
    let n = *r.pick(&EDGES) % CIRCLE;
    if r.one_in(2) { n } else { near(r, n) }
}

/// A number that has 32 bits and is no sequence number.
fn above(r: &mut Random) -> u64 {
    match r.below(4) {
        0 => CIRCLE + r.below(4) as u64,
        1 => u64::from(u32::MAX) - r.below(4) as u64,
        2 => CIRCLE << r.below(8),
        _ => CIRCLE + r.next() % ((1 << 32) - CIRCLE),
    }
}

/// A number above 32 bits, its low ones a sequence number more often than not.
fn far_above(r: &mut Random) -> u64 {
    match r.below(4) {
        0 => (1 << 32) + r.below(4) as u64,
        1 => r.next() | 1 << 32,
        _ => 1 << r.between(32, 63) | any(r),
    }
}

/// A pair of which one number or both come from elsewhere.
fn with(r: &mut Random, a: u64, other: fn(&mut Random) -> u64) -> Vec<u8> {
    let x = other(r);
    match r.below(3) {
        0 => line_of(a, x),
        1 => line_of(x, a),
        _ => line_of(x, other(r)),
    }
}

/// Words that stand for a number and are none, or none so small.
const ODD_WORDS: [&str; 24] = [
    "-1", "+1", "-0", "--1", "0x10", "1F", "a", "1.5", "1e3", "1_000", "1,000", "", "-", "=", "1=", "\t1", "1\r", "1\0", "1/", ":1",
    "\u{663}", "18446744073709551616", "1000000000000000000000000000", "4294967296",
];

/// A line with a thing or two wrong with it: its words, how many they are, what stands between them, or a byte.
fn malformed(r: &mut Random, a: u64) -> Vec<u8> {
    let b = any(r);
    let mut line = match r.below(6) {
        0 => return r.pick(&ODD_LINES).as_bytes().to_vec(),
        1 => format!("D {} {b}", r.pick(&ODD_WORDS)).into_bytes(),
        2 => format!("D {a} {}", r.pick(&ODD_WORDS)).into_bytes(),
        3 => {
            let words: Vec<String> = (0..*r.pick(&[0, 1, 1, 3, 3, 4])).map(|_| any(r).to_string()).collect();
            format!("D {}", words.join(" ")).into_bytes()
        }
        4 => {
            let between = [" ", "  ", "\t", ",", "", " \t", "\0", "-", " - ", "="];
            let (first, second) = (*r.pick(&between), *r.pick(&between));
            format!("D{first}{a}{second}{b}").into_bytes()
        }
        _ => {
            let mut line = line_of(a, b);
            spoil(r, &mut line);
            line
        }
    };
    if r.one_in(6) {
        spoil(r, &mut line);
    }
    without_ends(line)
}
