//! What is measured. Every side is an `extern "C"` function of the same form, with its record on its own stack: ours
//! calls the archive, the other one the crate `pfcp`, both from outside, as their users do. A call can't be inlined
//! there, so it stores its whole record; bench/run looks for the calls.

use crate::passes::{bytes, Side};
use std::mem::MaybeUninit;

/// The output that a write is lent.
pub const OUTPUT_LEN: usize = 65535;
static mut OUTPUT: [u8; OUTPUT_LEN] = [0; OUTPUT_LEN];

/// The length of a report.
pub const REPORT: usize = 40;

pub fn output() -> *mut u8 {
    &raw mut OUTPUT as *mut u8
}

/// Reading and writing of one kind.
pub struct Kind {
    pub name: &'static str,
    /// How long an image is.
    pub size: usize,
    /// Payload, image; the answer's number.
    pub read: fn(&[u8], &mut [u8]) -> u64,
    /// Image, texts, output, report; the answer's number.
    pub write: fn(&[u8], &[u8], &mut [u8], &mut [u8]) -> u64,
    pub ours_read: Side,
    pub rust_read: Side,
    pub ours_write: Side,
    pub rust_write: Side,
}

/// A write, and a call of it: `texts` where it is lent a text slice, `plain` where it isn't.
macro_rules! declare_write {
    (plain, $write:ident) => {
        extern "C" {
            fn $write(image: *const u8, n: usize, out: *mut u8, o: usize, report: *mut u8, r: usize) -> u64;
        }
    };
    (texts, $write:ident) => {
        extern "C" {
            #[rustfmt::skip]
            fn $write(image: *const u8, n: usize, texts: *const u8, t: usize, out: *mut u8, o: usize, report: *mut u8, r: usize) -> u64;
        }
    };
}

macro_rules! call_write {
    (plain, $write:ident, $image:expr, $n:expr, $texts:expr, $t:expr, $($rest:expr),*) => {{
        let _ = ($texts, $t);
        unsafe { $write($image, $n, $($rest),*) }
    }};
    (texts, $write:ident, $($all:expr),*) => {
        unsafe { $write($($all),*) }
    };
}

/// The four sides of a kind.
macro_rules! kind {
    ($name:ident, $type:ident, $size:literal, $read:ident, $write:ident, $form:ident) => {
        pub mod $name {
            use super::*;
            use pfcp::ie::$name::$type;

            pub const SIZE: usize = $size;

            extern "C" {
                fn $read(payload: *const u8, payload_len: usize, image: *mut u8, image_len: usize) -> u64;
            }
            declare_write!($form, $write);

            fn read(payload: &[u8], image: &mut [u8]) -> u64 {
                unsafe { $read(payload.as_ptr(), payload.len(), image.as_mut_ptr(), image.len()) }
            }

            fn write(image: &[u8], texts: &[u8], out: &mut [u8], report: &mut [u8]) -> u64 {
                let (to, to_len) = (out.as_mut_ptr(), out.len());
                let (told, told_len) = (report.as_mut_ptr(), report.len());
                call_write!(
                    $form,
                    $write,
                    image.as_ptr(),
                    image.len(),
                    texts.as_ptr(),
                    texts.len(),
                    to,
                    to_len,
                    told,
                    told_len
                )
            }

            #[inline(never)]
            extern "C" fn ours_read(p: *const u8, n: usize, _: *const u8, _: usize) {
                let mut image = MaybeUninit::<[u8; SIZE]>::uninit();
                unsafe { $read(p, n, image.as_mut_ptr() as *mut u8, SIZE) };
            }

            #[inline(never)]
            extern "C" fn rust_read(p: *const u8, n: usize, _: *const u8, _: usize) {
                drop($type::unmarshal(bytes(p, n)));
            }

            #[inline(never)]
            extern "C" fn ours_write(image: *const u8, n: usize, texts: *const u8, t: usize) {
                let mut report = MaybeUninit::<[u8; REPORT]>::uninit();
                let to = report.as_mut_ptr() as *mut u8;
                call_write!($form, $write, image, n, texts, t, output(), OUTPUT_LEN, to, REPORT);
            }

            #[inline(never)]
            extern "C" fn rust_write(record: *const u8, _: usize, _: *const u8, _: usize) {
                let record = unsafe { &*(record as *const $type) };
                drop(record.marshal());
            }

            pub fn kind() -> Kind {
                Kind { name: stringify!($name), size: SIZE, read, write, ours_read, rust_read, ours_write, rust_write }
            }
        }
    };
}

kind!(ue_ip_address, UeIpAddress, 64, yerondatt_ue_ip_address_read, yerondatt_ue_ip_address_write, plain);
kind!(f_teid, Fteid, 71, yerondatt_f_teid_read, yerondatt_f_teid_write, plain);
kind!(fseid, Fseid, 70, yerondatt_fseid_read, yerondatt_fseid_write, plain);
kind!(node_id, NodeId, 77, yerondatt_node_id_read, yerondatt_node_id_write, texts);
kind!(
    outer_header_creation,
    OuterHeaderCreation,
    94,
    yerondatt_outer_header_creation_read,
    yerondatt_outer_header_creation_write,
    plain
);
kind!(pfd_contents, PfdContents, 194, yerondatt_pfd_contents_read, yerondatt_pfd_contents_write, texts);

/// The check of std alone, on the name of a Node ID.
#[inline(never)]
pub extern "C" fn rust_utf8(p: *const u8, n: usize, _: *const u8, _: usize) {
    let _ = std::str::from_utf8(&bytes(p, n)[1..]);
}
