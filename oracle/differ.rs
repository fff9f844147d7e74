//! differ LINES WANTED GOT FROM MOST
//!
//! Compares two files of answers to the lines of a file. Prints how many answers differ, then the first MOST of
//! them with their lines, counted from FROM on.

use std::io::{BufRead, BufReader, Write};

fn stop(why: &str) -> ! {
    eprintln!("differ: {why}");
    std::process::exit(2)
}

/// The lines of a file, one after another, without the byte that ends them.
struct Lines(BufReader<std::fs::File>);

impl Lines {
    fn of(file: &str) -> Lines {
        let f = std::fs::File::open(file).unwrap_or_else(|e| stop(&format!("{file}: {e}")));
        Lines(BufReader::with_capacity(1 << 16, f))
    }

    fn next(&mut self) -> Option<Vec<u8>> {
        let mut line = Vec::new();
        let n = self.0.read_until(b'\n', &mut line).unwrap_or_else(|e| stop(&e.to_string()));
        (n > 0).then_some(line)
    }
}

/// A line to look at, cut where it is long.
fn shown(line: &Option<Vec<u8>>) -> String {
    let Some(line) = line else { return "(nothing)".into() };
    let (text, ended) = match line.split_last() {
        Some((b'\n', text)) => (text, ""),
        _ => (&line[..], " (no end)"),
    };
    match text.get(..160) {
        Some(start) => format!("{}.. ({} bytes){ended}", start.escape_ascii(), text.len()),
        None => format!("{}{ended}", text.escape_ascii()),
    }
}

fn main() {
    let args: Vec<String> = std::env::args().skip(1).collect();
    let [lines, wanted, got, from, most] = &args[..] else { stop("usage: differ LINES WANTED GOT FROM MOST") };
    let number = |s: &String| s.parse::<usize>().unwrap_or_else(|_| stop("FROM and MOST are numbers"));
    let (mut number_of_line, most) = (number(from), number(most));
    let (mut lines, mut wanted, mut got) = (Lines::of(lines), Lines::of(wanted), Lines::of(got));
    let mut count = 0;
    let mut rows = String::new();
    loop {
        let (line, want, have) = (lines.next(), wanted.next(), got.next());
        if line.is_none() && want.is_none() && have.is_none() {
            break;
        }
        number_of_line += 1;
        if want == have {
            continue;
        }
        count += 1;
        if count <= most {
            rows.push_str(&format!(
                "line {number_of_line}: {}\n  wanted:  {}\n  program: {}\n",
                shown(&line),
                shown(&want),
                shown(&have)
            ));
        }
    }
    let _ = write!(std::io::stdout(), "{count}\n{rows}");
}
