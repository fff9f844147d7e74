//! cut SRC WORK DRIVER
//!
//! Makes a crate root in WORK that compiles the published Rust of SRC/src with the driver in DRIVER. Most files
//! are compiled where they stand. Two name files that aren't there, `ie/mod.rs` and `message/mod.rs`: of these
//! WORK gets copies with lines deleted, and nothing added but `#[path]` lines. WORK/cut-report.txt says what was
//! deleted. A file that isn't as expected stops it all.

use std::fs;
use std::path::{Path, PathBuf};

/// The submodules of `ie` that are compiled.
const KEPT: [&str; 7] = [
    "cause",
    "f_teid",
    "fseid",
    "node_id",
    "outer_header_creation",
    "pfd_contents",
    "ue_ip_address",
];

/// Beginnings of lines that the cut `ie/mod.rs` must still have.
const NEEDED: [&str; 7] = [
    "pub enum IeType ",
    "impl From<u16> for IeType ",
    "pub struct Ie ",
    "impl Ie ",
    "    fn allows_zero_length(",
    "    pub fn unmarshal(",
    "pub struct IeIterator<",
];

fn stop(why: &str) -> ! {
    eprintln!("cut: {why}");
    std::process::exit(1)
}

/// A published file, and what becomes of each of its lines.
struct Cut {
    file: PathBuf,
    lines: Vec<String>,
    /// Why a line is deleted.
    deleted: Vec<Option<&'static str>>,
    /// The file that the module of this line has.
    module: Vec<Option<PathBuf>>,
}

impl Cut {
    fn of(file: PathBuf) -> Cut {
        let text = fs::read_to_string(&file)
            .unwrap_or_else(|e| stop(&format!("{}: {e}", file.display())));
        let lines: Vec<String> = text.lines().map(String::from).collect();
        let n = lines.len();
        Cut { file, lines, deleted: vec![None; n], module: vec![None; n] }
    }

    /// The number of the line that reads just so.
    fn line(&self, text: &str) -> usize {
        let place = self.lines.iter().position(|l| l == text);
        place.unwrap_or_else(|| stop(&format!("{} lacks the line: {text}", self.file.display())))
    }

    /// The line that closes the item which begins at a line.
    fn end(&self, start: usize) -> usize {
        let length = self.lines[start..].iter().position(|l| l == "}");
        start + length.unwrap_or_else(|| stop(&format!("no end of the item at line {}", start + 1)))
    }

    /// The first of the lines right above that begin so.
    fn above(&self, mut line: usize, beginning: &str) -> usize {
        while line > 0 && self.lines[line - 1].starts_with(beginning) {
            line -= 1;
        }
        line
    }

    fn keep_module(&mut self, line: usize, file: PathBuf) {
        if !file.is_file() {
            stop(&format!("{} is missing", file.display()));
        }
        self.module[line] = Some(file);
    }

    /// What is left, with a `#[path]` line before each module.
    fn result(&self) -> Vec<String> {
        let mut out = Vec::new();
        for (i, l) in self.lines.iter().enumerate() {
            if self.deleted[i].is_some() {
                continue;
            }
            if let Some(file) = &self.module[i] {
                out.push(path_line(file));
            }
            out.push(l.clone());
        }
        out
    }

    /// Writes the result, once it is sure that only `#[path]` lines aren't the file's own, in its order.
    fn write(&self, docs: &Path, to: &Path, report: &mut String) {
        let out = self.result();
        let mut rest = self.lines.iter();
        for l in out.iter().filter(|l| !l.starts_with("#[path = ")) {
            if !rest.any(|x| x == l) {
                stop(&format!("a line that isn't the file's own: {l}"));
            }
        }
        save(to, &(out.join("\n") + "\n"));
        let count = self.deleted.iter().filter(|d| d.is_some()).count();
        report.push_str(&format!(
            "{}: {count} of {} lines deleted, {} #[path] lines added\n",
            self.file.strip_prefix(docs).unwrap_or(&self.file).display(),
            self.lines.len(),
            out.len() + count - self.lines.len(),
        ));
        let mut i = 0;
        while i < self.lines.len() {
            let Some(why) = self.deleted[i] else {
                i += 1;
                continue;
            };
            let run = self.deleted[i..].iter().take_while(|d| **d == Some(why)).count();
            report.push_str(&format!("  {} to {}: {why}\n", i + 1, i + run));
            i += run;
        }
    }
}

fn path_line(file: &Path) -> String {
    format!("#[path = {:?}]", file.to_str().unwrap_or_else(|| stop("a path isn't UTF-8")))
}

fn save(to: &Path, text: &str) {
    if let Err(e) = fs::write(to, text) {
        stop(&format!("{}: {e}", to.display()));
    }
}

fn is_name(s: &str) -> bool {
    !s.is_empty() && s.bytes().all(|c| c.is_ascii_alphanumeric() || c == b'_')
}

/// The name of a line such as `pub mod NAME;`.
fn module_of(line: &str) -> Option<&str> {
    let name = line.strip_prefix("pub ").unwrap_or(line).strip_prefix("mod ")?.strip_suffix(';')?;
    is_name(name).then_some(name)
}

/// The first name of a line such as `pub use NAME::TYPE;` or `    NAME::TYPE,`.
fn first_of<'a>(line: &'a str, before: &str, after: &str) -> Option<&'a str> {
    let (name, rest) = line.strip_prefix(before)?.strip_suffix(after)?.split_once("::")?;
    (is_name(name) && is_name(rest)).then_some(name)
}

fn cut_ie(src: &Path) -> Cut {
    let mut cut = Cut::of(src.join("ie/mod.rs"));
    let mut found = Vec::new();
    let mut in_list = false;
    for i in 0..cut.lines.len() {
        let l = cut.lines[i].clone();
        if let Some(name) = module_of(&l) {
            if KEPT.contains(&name) {
                cut.keep_module(i, src.join("ie").join(name).with_extension("rs"));
                found.push(name.to_string());
            } else {
                cut.deleted[i] = Some("a submodule that isn't compiled");
            }
        } else if first_of(&l, "pub use ", ";").map_or(false, |name| !KEPT.contains(&name)) {
            cut.deleted[i] = Some("a name of such a submodule");
        } else if l == "impl_parse_ie!(" {
            in_list = true;
        } else if l == ");" {
            in_list = false;
        } else if in_list && first_of(&l, "    ", ",").map_or(false, |name| !KEPT.contains(&name)) {
            cut.deleted[i] = Some("an entry of impl_parse_ie! for such a submodule");
        }
    }
    let start = cut.line("pub mod builder_support {");
    let (start, end) = (cut.above(start, "///"), cut.end(start));
    for i in start..=end {
        cut.deleted[i] = Some("builder_support, which leans on a missing submodule");
    }
    found.sort();
    if found != KEPT {
        stop(&format!("{} declares only {found:?}", cut.file.display()));
    }
    let left = cut.result();
    for beginning in NEEDED {
        if !left.iter().any(|l| l.starts_with(beginning)) {
            stop(&format!("{} has no line that begins: {beginning}", cut.file.display()));
        }
    }
    cut
}

fn cut_message(src: &Path) -> Cut {
    let mut cut = Cut::of(src.join("message/mod.rs"));
    let header = cut.line("pub mod header;");
    let types = cut.line("pub enum MsgType {");
    let types = cut.above(types, "#[")..=cut.end(types);
    let from = cut.line("impl From<u8> for MsgType {");
    let from = from..=cut.end(from);
    for i in 0..cut.lines.len() {
        if i != header && !types.contains(&i) && !from.contains(&i) {
            cut.deleted[i] = Some("all but the header and MsgType");
        }
    }
    cut.keep_module(header, src.join("message/header.rs"));
    cut
}

fn main() {
    let args: Vec<PathBuf> = std::env::args_os().skip(1).map(PathBuf::from).collect();
    let [docs, work, driver] = &args[..] else { stop("usage: cut SRC WORK DRIVER") };
    let src = docs.join("src");
    let mut report = String::new();
    cut_ie(&src).write(docs, &work.join("ie_mod.rs"), &mut report);
    cut_message(&src).write(docs, &work.join("message_mod.rs"), &mut report);
    save(&work.join("cut-report.txt"), &report);
    let mut root = String::from("// Made by oracle/cut.rs: module declarations alone.\n");
    root.push_str("#![allow(dead_code, unused_imports)]\n");
    for (name, file) in [
        ("error", src.join("error.rs")),
        ("types", src.join("types.rs")),
        ("ie", work.join("ie_mod.rs")),
        ("message", work.join("message_mod.rs")),
        ("driver", driver.join("mod.rs")),
    ] {
        root.push_str(&format!("{}\nmod {name};\n", path_line(&file)));
    }
    root.push_str("fn main() {\n    driver::main()\n}\n");
    save(&work.join("main.rs"), &root);
}
