//! The recorded lines: where they are, and how they are taken apart. `oracle/README.md` has their forms. Only lines of a
//! known form come here, so a line that can't be taken apart is a fault of the test.

use std::env;
use std::fs;
use std::path::Path;

/// The recorded answer to a line of no known form.
pub const OTHER: &str = "? 0 -";

/// The lines of a program's list with their answers.
pub fn recorded(program: &str) -> Vec<(Vec<u8>, String)> {
    let folder = Path::new(env!("CARGO_MANIFEST_DIR")).join("../crates").join(program);
    pairs(&folder.join("stdin"), &folder.join("stdout"))
}

/// Lines of one's own, such as `oracle/gen` makes, with the oracle's answers: two variables name their files.
pub fn more() -> Vec<(Vec<u8>, String)> {
    match (env::var_os("REPLAY_LINES"), env::var_os("REPLAY_ANSWERS")) {
        (Some(lines), Some(answers)) => pairs(Path::new(&lines), Path::new(&answers)),
        _ => Vec::new(),
    }
}

/// The lines of one file with the answers of another.
fn pairs(lines: &Path, answers: &Path) -> Vec<(Vec<u8>, String)> {
    let lines = split(lines);
    let answers = split(answers);
    assert_eq!(lines.len(), answers.len(), "as many answers as lines");
    let texts = answers.into_iter().map(|a| String::from_utf8(a).expect("an answer is a text"));
    lines.into_iter().zip(texts).collect()
}

/// The last line may lack the byte that ends it.
fn split(file: &Path) -> Vec<Vec<u8>> {
    let all = fs::read(file).unwrap_or_else(|e| panic!("{}: {e}", file.display()));
    let all = all.strip_suffix(b"\n").unwrap_or(&all);
    all.split(|byte| *byte == b'\n').map(<[u8]>::to_vec).collect()
}

pub fn hex(bytes: &[u8]) -> String {
    bytes.iter().map(|byte| format!("{byte:02X}")).collect()
}

/// Digit pairs of either case.
pub fn unhex(digits: &str) -> Vec<u8> {
    let pair = |at: usize| u8::from_str_radix(&digits[at..at + 2], 16).expect("hex");
    (0..digits.len()).step_by(2).map(pair).collect()
}

/// The payload of a payload line.
pub fn payload(line: &str) -> Vec<u8> {
    match &line[2..] {
        "-" => Vec::new(),
        digits => unhex(digits),
    }
}

/// `KEY`, `KEY=VALUE` or `KEY+=VALUE`.
#[derive(Debug, Clone, Copy)]
pub struct Token<'a> {
    pub key: &'a str,
    pub adds: bool,
    pub value: &'a str,
}

/// The first word of a record line, and the tokens behind it.
pub fn taken_apart(line: &str) -> (&str, Vec<Token<'_>>) {
    let mut words = line.split(' ');
    let head = words.next().unwrap_or("");
    (head, words.map(token).collect())
}

fn token(word: &str) -> Token<'_> {
    let (key, value) = word.split_once('=').unwrap_or((word, ""));
    match key.strip_suffix('+') {
        Some(key) => Token { key, adds: true, value },
        None => Token { key, adds: false, value },
    }
}

/// The value of a key that stands at most once.
pub fn value<'a>(tokens: &[Token<'a>], key: &str) -> Option<&'a str> {
    tokens.iter().find(|token| token.key == key).map(|token| token.value)
}

/// A number of hex digits, 0 where it isn't given.
pub fn number(tokens: &[Token], key: &str) -> u64 {
    value(tokens, key).map_or(0, |digits| u64::from_str_radix(digits, 16).expect("hex"))
}

/// `-` is the empty text, HEX its bytes, HEX*N those bytes N times.
pub fn text_bytes(value: &str) -> Vec<u8> {
    let (digits, times) = value.split_once('*').unwrap_or((value, "1"));
    match digits {
        "-" => Vec::new(),
        _ => unhex(digits).repeat(times.parse().expect("a number")),
    }
}

/// The bytes of a raw line's slice.
pub fn slice(tokens: &[Token]) -> Vec<u8> {
    value(tokens, "slice").map_or(Vec::new(), |texts| texts.split(',').flat_map(text_bytes).collect())
}

/// The room of a raw line's output.
pub fn room(tokens: &[Token]) -> usize {
    value(tokens, "room").map_or(65_535, |room| room.parse().expect("a number"))
}

/// The numbers of PLACE, PLACE+LENGTH or PLACE+BYTES*COUNT.
pub fn numbers(value: &str) -> Vec<u64> {
    value.split(['+', '*']).map(|n| n.parse().expect("a number")).collect()
}
