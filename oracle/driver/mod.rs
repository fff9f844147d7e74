//! The oracle: reads lines, calls the published Rust, prints what it answers.
//!
//! Nothing here decides what a reader or a writer does. The driver takes lines apart, turns errors into
//! the numbers of the paper and prints records. An error that it can't map is a panic, never a guess.

mod build;
mod check;
mod header;
mod ies;
mod line;
mod payload;
mod raw;
mod record;
mod refusal;

use std::io::{BufRead, BufReader, BufWriter, Write};

/// What the command line asks for.
pub struct Options {
    /// Details of refusals and records behind a bar.
    full: bool,
    /// The limit of 65,535 bytes, which the published Rust doesn't have.
    limit: bool,
    /// The most digit pairs of a good line.
    max_pairs: usize,
    /// The letters that count, where not all do.
    letters: Option<Vec<u8>>,
}

impl Options {
    /// Whether lines of this letter count, where a mode has it.
    fn takes(&self, letter: u8) -> bool {
        self.letters.as_ref().map_or(true, |l| l.contains(&letter))
    }
}

/// The answer of any line that is not of the asked form.
const OTHER: &str = "? 0 -";

/// What the program `probe` reads: its longest payload. The programs `compose` and `desk` read lines that are no longer,
/// but for those of a body.
const PROBE_PAIRS: usize = 65_600;
const LONGEST_LINE: usize = 2 + 2 * PROBE_PAIRS;

type Mode = fn(&Options, &[u8], &mut String);

/// A line of the program `compose`: `=` or `.` is in each record line, and in no payload line.
fn compose_line(o: &Options, line: &[u8], out: &mut String) {
    if line.len() <= LONGEST_LINE && line.iter().any(|c| matches!(c, b'=' | b'.')) {
        build::answer(o, line, out);
    } else {
        out.push_str(OTHER);
    }
}

/// A line of the program `desk`: a body, a header to be read, or one to be written, of at least one token. The distances
/// that the program gives too are nothing of the published Rust's.
fn desk_line(o: &Options, line: &[u8], out: &mut String) {
    if line.starts_with(b"B ") {
        ies::desk_answer(o, line, out);
    } else if line.len() > LONGEST_LINE || !line.starts_with(b"H ") {
        out.push_str(OTHER);
    } else if line::payload_of(line, o.max_pairs).is_some() {
        header::answer(o, line, out);
    } else {
        build::answer(o, line, out);
    }
}

pub fn main() {
    let mut o = Options { full: false, limit: false, max_pairs: 4096, letters: None };
    let mut mode: Mode = payload::answer;
    let mut checks = false;
    let mut args = std::env::args().skip(1);
    while let Some(a) = args.next() {
        match a.as_str() {
            "--full" => o.full = true,
            "--limit" => o.limit = true,
            "--header" => mode = header::answer,
            "--ies" => mode = ies::answer,
            "--build" => mode = build::answer,
            "--probe" => {
                o.full = true;
                o.limit = true;
                o.max_pairs = PROBE_PAIRS;
            }
            "--compose" | "--desk" => {
                mode = if a == "--desk" { desk_line } else { compose_line };
                o.full = true;
                o.limit = true;
                o.max_pairs = PROBE_PAIRS;
            }
            "--check" => checks = true,
            "--zero-types" => return ies::zero_types(),
            "--max-pairs" => match args.next().and_then(|x| x.parse().ok()) {
                Some(n) => o.max_pairs = n,
                None => usage(),
            },
            "--letters" => match args.next() {
                Some(l) => o.letters = Some(l.into_bytes()),
                None => usage(),
            },
            _ => usage(),
        }
    }
    let done = if checks { check_all(&o) } else { answer_all(&o, mode) };
    match done {
        Ok(true) => {}
        Ok(false) => std::process::exit(1),
        Err(e) => {
            eprintln!("oracle: {e}");
            std::process::exit(2)
        }
    }
}

fn usage() -> ! {
    eprintln!(
        "usage: oracle [--full] [--limit] [--max-pairs N] [--letters LETTERS] \
         [--header | --ies | --build | --probe | --compose | --desk | --check | --zero-types]"
    );
    std::process::exit(2)
}

/// Hands each line of the standard input on, without the byte that ends it.
fn each_line(mut f: impl FnMut(&[u8]) -> std::io::Result<()>) -> std::io::Result<()> {
    let mut input = BufReader::with_capacity(1 << 16, std::io::stdin().lock());
    let mut line = Vec::new();
    while input.read_until(b'\n', &mut line)? > 0 {
        if line.last() == Some(&b'\n') {
            line.pop();
        }
        f(&line)?;
        line.clear();
    }
    Ok(())
}

/// One answer for each line.
fn answer_all(o: &Options, mode: Mode) -> std::io::Result<bool> {
    let mut output = BufWriter::with_capacity(1 << 16, std::io::stdout().lock());
    let mut out = String::new();
    each_line(|line| {
        out.clear();
        mode(o, line, &mut out);
        out.push('\n');
        output.write_all(out.as_bytes())
    })?;
    output.flush()?;
    Ok(true)
}

/// The oracle's own claims, tested on each line; false where one fails.
fn check_all(o: &Options) -> std::io::Result<bool> {
    let mut output = BufWriter::new(std::io::stdout().lock());
    let (mut lines, mut wrong) = (0u64, 0u64);
    each_line(|line| {
        lines += 1;
        for fault in check::faults(o, line) {
            wrong += 1;
            writeln!(output, "{}: {fault}", String::from_utf8_lossy(line))?;
        }
        Ok(())
    })?;
    writeln!(output, "checked {lines} lines, {wrong} faults")?;
    output.flush()?;
    Ok(wrong == 0)
}
