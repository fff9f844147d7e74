//! Passes over the calls of a class, and the sections that a counter sees: what the programs here share.

use std::ffi::{c_char, CStr};
use std::fmt::Debug;
use std::hint::black_box;
use std::io::Write;
use std::time::Instant;

/// Reading: the payload. Writing: the record and, of ours, the texts.
pub type Side = extern "C" fn(*const u8, usize, *const u8, usize);

/// The arguments of one call.
#[derive(Clone, Copy)]
pub struct Call(pub *const u8, pub usize, pub *const u8, pub usize);

/// One side of a class, ready to run: read, refused, write or utf8; of the loop alone, ours or the Rust's.
pub struct Run {
    kind: &'static str,
    class: String,
    what: &'static str,
    whose: &'static str,
    side: Side,
    calls: Vec<Call>,
}

/// The loop alone, then both sides.
pub fn add(runs: &mut Vec<Run>, kind: &'static str, class: &str, what: &'static str, sides: [(&'static str, Side, &Vec<Call>); 2]) {
    let alone = ("loop", empty as Side, sides[0].2);
    for (whose, side, calls) in [alone, sides[0], sides[1]] {
        runs.push(Run { kind, class: class.to_string(), what, whose, side, calls: calls.clone() });
    }
}

/// A value that stays for the rest of the run.
pub fn kept<T>(value: T) -> *const u8 {
    Box::leak(Box::new(value)) as *const T as *const u8
}

pub fn bytes<'a>(p: *const u8, n: usize) -> &'a [u8] {
    unsafe { std::slice::from_raw_parts(p, n) }
}

/// The check that both sides answer alike.
#[derive(Default)]
pub struct Check {
    answers: usize,
    differ: usize,
}

impl Check {
    pub fn same<T: PartialEq + Debug>(&mut self, kind: &str, payload: &[u8], ours: T, rust: T) {
        self.answers += 1;
        if ours == rust {
            return;
        }
        self.differ += 1;
        if self.differ <= 5 {
            let shown = &payload[..payload.len().min(64)];
            println!("differs: {kind} {shown:02x?}\n  ours {ours:02x?}\n  Rust {rust:02x?}");
        }
    }

    /// How many answers were compared; whether all agree.
    pub fn agree(&self) -> bool {
        println!("check: {} answers, {} differ", self.answers, self.differ);
        self.differ == 0
    }
}

/// The loop and the call alone.
#[inline(never)]
extern "C" fn empty(_: *const u8, _: usize, _: *const u8, _: usize) {}

/// How many instructions `empty` has, if it is compiled as it always was: ret.
fn empty_size() -> u32 {
    let code = unsafe { *(empty as *const u8) };
    (code == 0xC3) as u32
}

/// The loop. The pointer is hidden, so that all sides are called in the same way.
#[inline(never)]
fn pass(side: Side, calls: &[Call]) {
    let side = black_box(side);
    for &Call(a, n, b, m) in calls {
        side(a, n, b, m);
    }
}

/// A counter begins a new section each time that this function is entered.
#[no_mangle]
#[inline(never)]
pub extern "C" fn bench_mark() {
    black_box(0u8);
}

fn count(runs: &[Run]) {
    // first calls set things up, the allocator among them; they aren't counted
    for run in runs {
        pass(run.side, &run.calls[..4]);
    }
    for run in runs {
        bench_mark();
        pass(run.side, &run.calls);
        bench_mark();
    }
    println!("empty {}", empty_size());
    // sections 1, 3, 5 .. are the passes
    for (i, r) in runs.iter().enumerate() {
        println!("section {} {} {} {} {} {}", 2 * i + 1, r.kind, r.class, r.what, r.whose, r.calls.len());
    }
}

/// How often a pass is repeated, so that a clock can see it: some 200 microseconds.
fn repeats(run: &Run) -> usize {
    let start = Instant::now();
    pass(run.side, &run.calls);
    1 + 200_000 / (1 + start.elapsed().as_nanos() as usize)
}

/// Nanoseconds per call.
fn timed(run: &Run, repeats: usize) -> f64 {
    let start = Instant::now();
    for _ in 0..repeats {
        pass(run.side, &run.calls);
    }
    start.elapsed().as_nanos() as f64 / (repeats * run.calls.len()) as f64
}

/// The lowest time of a side counts: all that disturbs a run makes it longer.
fn time(runs: &[Run], rounds: usize) {
    for three in runs.chunks(3) {
        let repeats: Vec<usize> = three.iter().map(repeats).collect();
        let mut lowest = [f64::MAX; 3];
        for turn in 0..3 * rounds {
            // a round starts with another side than the one before it
            let s = (turn + turn / 3) % 3;
            lowest[s] = lowest[s].min(timed(&three[s], repeats[s]));
        }
        for (r, ns) in three.iter().zip(lowest) {
            println!("time {} {} {} {} {ns:.3}", r.kind, r.class, r.what, r.whose);
        }
    }
}

/// What a program of these passes does: `agree` says whether both sides answer alike, `runs` are the passes.
///
///   check          every payload through both sides, which must answer alike (exit 1 if not)
///   addr           the address of bench_mark, for a counter under an emulator
///   count          one pass for each class and side, each behind a call of bench_mark; prints what they are
///   time ROUNDS    times; the sides take turns inside each round
pub fn command(argc: i32, argv: *const *const c_char, agree: fn() -> bool, runs: fn() -> Vec<Run>) -> i32 {
    let args: Vec<String> = (1..argc as usize)
        .map(|i| unsafe { CStr::from_ptr(*argv.add(i)) }.to_string_lossy().into_owned())
        .collect();
    let args: Vec<&str> = args.iter().map(String::as_str).collect();
    let mut status = 0;
    match args[..] {
        ["check"] => status = !agree() as i32,
        ["addr"] => println!("{:#x}", bench_mark as *const () as usize),
        ["count"] => count(&runs()),
        ["time", rounds] => time(&runs(), rounds.parse().unwrap_or(20)),
        _ => {
            println!("usage: check | addr | count | time ROUNDS");
            status = 2;
        }
    }
    std::io::stdout().flush().ok();
    status
}
