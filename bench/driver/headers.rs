//! headers: one program with both sides of message headers, the published Rust as the crate `pfcp` and the archives of
//! headers.rt.txt. Its arguments: passes.rs, `command`. As in sides.rs, a side has its record on its own stack, and
//! bench/headers looks for the calls.

#![no_main]

mod passes;
mod payloads;

use passes::{add, bytes, kept, Call, Check, Run, Side};
use payloads::Class;
use pfcp::error::PfcpError;
use pfcp::message::header::Header;
use std::mem::MaybeUninit;
use std::ptr::null;

/// What a read puts: the answer's values, the used bytes, the nine fields.
type Read = [u64; 13];

/// What a write puts: the answer's values, the written bytes.
type Report = [u64; 4];

/// The output that a write is lent.
const OUTPUT_LEN: usize = 64;

extern "C" {
    fn header_read(payload: *const u8, n: usize, out: *mut Read) -> u64;
    fn header_read_alone(payload: *const u8, n: usize, out: *mut Read) -> u64;
    fn header_write(read: *const Read, out: *mut u8, o: usize, report: *mut Report) -> u64;
}

#[inline(never)]
extern "C" fn ours_read(p: *const u8, n: usize, _: *const u8, _: usize) {
    let mut read = MaybeUninit::<Read>::uninit();
    unsafe { header_read(p, n, read.as_mut_ptr()) };
}

#[inline(never)]
extern "C" fn ours_read_alone(p: *const u8, n: usize, _: *const u8, _: usize) {
    let mut read = MaybeUninit::<Read>::uninit();
    unsafe { header_read_alone(p, n, read.as_mut_ptr()) };
}

#[inline(never)]
extern "C" fn rust_read(p: *const u8, n: usize, _: *const u8, _: usize) {
    drop(Header::unmarshal(bytes(p, n)));
}

#[inline(never)]
extern "C" fn ours_write(read: *const u8, _: usize, _: *const u8, _: usize) {
    let mut out = MaybeUninit::<[u8; OUTPUT_LEN]>::uninit();
    let mut report = MaybeUninit::<Report>::uninit();
    unsafe { header_write(read as *const Read, out.as_mut_ptr() as *mut u8, OUTPUT_LEN, report.as_mut_ptr()) };
}

#[inline(never)]
extern "C" fn rust_write(record: *const u8, _: usize, _: *const u8, _: usize) {
    let record = unsafe { &*(record as *const Header) };
    drop(record.marshal());
}

/// The Rust's record, laid out as a read of ours puts it.
fn laid(record: &Header) -> Read {
    [
        0,
        0,
        0,
        record.len() as u64,
        record.version as u64,
        record.has_fo as u64,
        record.has_mp as u64,
        record.has_seid as u64,
        record.message_type_code() as u64,
        record.length as u64,
        record.seid.0,
        record.sequence_number.0 as u64,
        record.message_priority as u64,
    ]
}

/// Answer, values, used bytes and fields; of a refusal the two lengths as the Rust's sentence has them.
fn check_read(check: &mut Check, payload: &[u8], number: u64, read: &Read) {
    match Header::unmarshal(payload) {
        Ok(record) => check.same("header", payload, (number, read), (0, &laid(&record))),
        Err(PfcpError::MessageParseError { reason, .. }) => {
            let ours = format!("(expected at least {} bytes, got {})", read[1], read[2]);
            check.same("header", payload, (number, read[0], &read[3..]), (1, 0, &[0; 10][..]));
            check.same("header", payload, &ours[..], &reason[reason.find('(').unwrap_or(0)..]);
        }
        Err(other) => check.same("header", payload, format!("answer {number}"), format!("{other:?}")),
    }
}

/// What is written, against what the Rust writes; the output behind that stays as it was.
fn check_write(check: &mut Check, payload: &[u8], read: &Read, record: &Header) {
    let form = record.marshal();
    let (mut out, mut report) = ([0xA5; OUTPUT_LEN], [0xA5; 4]);
    let number = unsafe { header_write(read, out.as_mut_ptr(), OUTPUT_LEN, &mut report) };
    let untouched = out[form.len()..].iter().all(|b| *b == 0xA5);
    check.same("header", payload, (number, untouched, report), (0, true, [0, 0, 0, form.len() as u64]));
    check.same("header", payload, &out[..form.len()], &form[..]);
}

/// Reads the headers of a class with both sides, for the check and for the records that are to be written.
fn class(check: &mut Check, runs: &mut Vec<Run>, class: Class) {
    let (mut reads, mut ours, mut rust) = (Vec::new(), Vec::new(), Vec::new());
    for payload in class.payloads {
        let payload: &'static [u8] = Vec::leak(payload);
        let (mut read, mut alone) = ([0xA5; 13], [0xA5; 13]);
        let number = unsafe { header_read(payload.as_ptr(), payload.len(), &mut read) };
        let number_alone = unsafe { header_read_alone(payload.as_ptr(), payload.len(), &mut alone) };
        let record = Header::unmarshal(payload).ok();
        check.same("header", payload, record.is_some(), class.accepted);
        check_read(check, payload, number, &read);
        check_read(check, payload, number_alone, &alone);
        record.as_ref().map(|record| check_write(check, payload, &read, record));
        reads.push(Call(payload.as_ptr(), payload.len(), null(), 0));
        ours.push(Call(kept(read), 0, null(), 0));
        rust.extend(record.map(|record| Call(kept(record), 0, null(), 0)));
    }
    let what = if class.accepted { "read" } else { "refused" };
    for (kind, ours) in [("header", ours_read as Side), ("alone", ours_read_alone)] {
        add(runs, kind, &class.name, what, [("ours", ours, &reads), ("rust", rust_read, &reads)]);
    }
    if class.accepted {
        add(runs, "header", &class.name, "write", [("ours", ours_write, &ours), ("rust", rust_write, &rust)]);
    }
}

fn headers() -> (Check, Vec<Run>) {
    let (mut check, mut runs) = (Check::default(), Vec::new());
    for of in payloads::of_kind("header") {
        class(&mut check, &mut runs, of);
    }
    (check, runs)
}

#[no_mangle]
pub extern "C" fn main(argc: i32, argv: *const *const std::ffi::c_char) -> i32 {
    passes::command(argc, argv, || headers().0.agree(), || headers().1)
}
