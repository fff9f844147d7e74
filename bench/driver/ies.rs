//! ies: one program with both sides of message bodies, the published Rust as the crate `pfcp` and the archives of ies.rt.txt.
//! Its arguments: passes.rs, `command`. Ours is lent a table, the same for all bodies. The Rust reads one IE after another into a
//! new `Vec`, as its own `as_ies` does, and drops that; and once more it drops each IE at once, and has nothing to show for it.

#![no_main]

mod passes;
mod payloads;

use passes::{add, bytes, kept, Call, Check, Run, Side};
use payloads::Class;
use pfcp::error::PfcpError;
use pfcp::ie::Ie;
use std::mem::MaybeUninit;

/// Type, enterprise number or 65,536, place and length of the payload.
type Row = [u32; 4];

/// What a read of a body puts where it is refused: the place, the answer's values.
type Report = [u64; 4];

/// What a read of one IE puts: the answer's values, the used bytes, the fields of a row.
type One = [u64; 8];

/// More rows than any body has.
const ROWS: usize = 16_384;

/// What no read puts, to see what it leaves alone.
const UNTOUCHED: Row = [0xA5A5_A5A5; 4];

extern "C" {
    fn ies_read(body: *const u8, n: usize, table: *mut Row, rows: usize, report: *mut Report) -> u64;
    fn ie_read(payload: *const u8, n: usize, out: *mut One) -> u64;
}

#[inline(never)]
extern "C" fn ours_all(p: *const u8, n: usize, table: *const u8, rows: usize) {
    let mut report = MaybeUninit::<Report>::uninit();
    unsafe { ies_read(p, n, table as *mut Row, rows, report.as_mut_ptr()) };
}

#[inline(never)]
extern "C" fn rust_all(p: *const u8, n: usize, _: *const u8, _: usize) {
    let (body, mut at, mut all) = (bytes(p, n), 0, Vec::new());
    while at < body.len() {
        match Ie::unmarshal(&body[at..]) {
            Ok(ie) => {
                at += ie.len() as usize;
                all.push(ie);
            }
            Err(_) => return,
        }
    }
}

#[inline(never)]
extern "C" fn rust_dropped(p: *const u8, n: usize, _: *const u8, _: usize) {
    let (body, mut at) = (bytes(p, n), 0);
    while at < body.len() {
        match Ie::unmarshal(&body[at..]) {
            Ok(ie) => at += ie.len() as usize,
            Err(_) => return,
        }
    }
}

#[inline(never)]
extern "C" fn ours_one(p: *const u8, n: usize, _: *const u8, _: usize) {
    let mut out = MaybeUninit::<One>::uninit();
    unsafe { ie_read(p, n, out.as_mut_ptr()) };
}

#[inline(never)]
extern "C" fn rust_one(p: *const u8, n: usize, _: *const u8, _: usize) {
    drop(Ie::unmarshal(bytes(p, n)));
}

/// Number and values of a refusal of the Rust's.
fn refusal(error: PfcpError) -> (u64, [u64; 3]) {
    match error {
        PfcpError::InvalidLength { expected, actual, .. } => (1, [0, expected as u64, actual as u64]),
        PfcpError::InvalidValue { .. } => (11, [0; 3]),
        other => panic!("an error that isn't expected: {other:?}"),
    }
}

/// The row of an IE of the Rust's that begins at a place.
fn row(at: usize, ie: &Ie) -> Row {
    let place = at + ie.len() as usize - ie.payload.len();
    [ie.raw_type() as u32, ie.enterprise_id().map_or(65_536, u32::from), place as u32, ie.payload.len() as u32]
}

/// What a read of ours returns and puts, and the rows.
type All = (u64, Report, Vec<Row>);

fn all_of_rust(body: &[u8]) -> All {
    let (mut rows, mut at) = (Vec::new(), 0);
    while at < body.len() {
        match Ie::unmarshal(&body[at..]) {
            Ok(ie) => {
                rows.push(row(at, &ie));
                at += ie.len() as usize;
            }
            Err(error) => {
                let (number, [a, b, c]) = refusal(error);
                return (65_536 + number, [at as u64, a, b, c], Vec::new());
            }
        }
    }
    (rows.len() as u64, [0; 4], rows)
}

/// The rows end where the table is as it was: a row put behind them would be among them here.
fn all_of_ours(body: &[u8], table: &mut [Row]) -> All {
    table.fill(UNTOUCHED);
    let mut report = [0; 4];
    let number = unsafe { ies_read(body.as_ptr(), body.len(), table.as_mut_ptr(), table.len(), &mut report) };
    let end = table.iter().rposition(|row| *row != UNTOUCHED).map_or(0, |last| last + 1);
    (number, report, table[..end].to_vec())
}

fn one_of_rust(payload: &[u8]) -> (u64, One) {
    match Ie::unmarshal(payload) {
        Ok(ie) => {
            let [raw_type, enterprise_id, place, len] = row(0, &ie).map(u64::from);
            (0, [0, 0, 0, ie.len() as u64, raw_type, enterprise_id, place, len])
        }
        Err(error) => {
            let (number, [a, b, c]) = refusal(error);
            (number, [a, b, c, 0, 0, 65_536, 0, 0])
        }
    }
}

fn one_of_ours(payload: &[u8]) -> (u64, One) {
    let mut out = [0xA5; 8];
    let number = unsafe { ie_read(payload.as_ptr(), payload.len(), &mut out) };
    (number, out)
}

/// Every body through both sides, as a whole and for its first IE.
fn agree() -> bool {
    let (mut check, mut table) = (Check::default(), vec![UNTOUCHED; ROWS]);
    for class in payloads::of_kind("ies") {
        for body in &class.payloads {
            let rust = all_of_rust(body);
            check.same("ies", body, rust.0 < 65_536, class.accepted);
            check.same("ies", body, all_of_ours(body, &mut table), rust);
            check.same("ie", body, one_of_ours(body), one_of_rust(body));
        }
    }
    check.agree()
}

/// Bodies as a whole; those of one IE also by the functions that read one.
fn add_class(runs: &mut Vec<Run>, class: Class, table: *const u8) {
    let what = if class.accepted { "read" } else { "refused" };
    let calls = class.payloads.into_iter().map(|body| {
        let body: &'static [u8] = Vec::leak(body);
        Call(body.as_ptr(), body.len(), table, ROWS)
    });
    let calls = calls.collect();
    for (kind, rust) in [("ies", rust_all as Side), ("dropped", rust_dropped)] {
        add(runs, kind, &class.name, what, [("ours", ours_all, &calls), ("rust", rust, &calls)]);
    }
    if class.name.ends_with("_1") {
        add(runs, "ie", &class.name, what, [("ours", ours_one, &calls), ("rust", rust_one, &calls)]);
    }
}

fn runs() -> Vec<Run> {
    let (mut runs, table) = (Vec::new(), kept([UNTOUCHED; ROWS]));
    for class in payloads::of_kind("ies") {
        add_class(&mut runs, class, table);
    }
    runs
}

#[no_mangle]
pub extern "C" fn main(argc: i32, argv: *const *const std::ffi::c_char) -> i32 {
    passes::command(argc, argv, agree, runs)
}
