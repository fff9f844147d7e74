//! The calls into the archive: all of this crate's `unsafe`.
//!
//! What makes a call sound is the same for each. The functions are proved, and ask nothing of their caller: whatever
//! bytes and lengths they are lent, they read only the slices that are lent, write only those that are lent mutably, and
//! keep no pointer. A slice crosses as its pointer and its length. Both are good for the whole call, since the borrow
//! lasts that long, and the borrows make sure that no slice which is written overlaps another.
#![allow(unsafe_code)]

use crate::error::Kind;

type Read = unsafe extern "C" fn(*const u8, usize, *mut u8, usize) -> u64;
type Strict = unsafe extern "C" fn(*const u8, usize) -> u64;
type Write = unsafe extern "C" fn(*const u8, usize, *mut u8, usize, *mut u8, usize) -> u64;
type WriteTexts = unsafe extern "C" fn(*const u8, usize, *const u8, usize, *mut u8, usize, *mut u8, usize) -> u64;

#[rustfmt::skip]
extern "C" {
    fn yerondatt_layout_version() -> u64;

    // payload, image
    fn yerondatt_ue_ip_address_read(_: *const u8, _: usize, _: *mut u8, _: usize) -> u64;
    fn yerondatt_f_teid_read(_: *const u8, _: usize, _: *mut u8, _: usize) -> u64;
    fn yerondatt_fseid_read(_: *const u8, _: usize, _: *mut u8, _: usize) -> u64;
    fn yerondatt_node_id_read(_: *const u8, _: usize, _: *mut u8, _: usize) -> u64;
    fn yerondatt_outer_header_creation_read(_: *const u8, _: usize, _: *mut u8, _: usize) -> u64;
    fn yerondatt_pfd_contents_read(_: *const u8, _: usize, _: *mut u8, _: usize) -> u64;

    // image, output, report
    fn yerondatt_ue_ip_address_write(_: *const u8, _: usize, _: *mut u8, _: usize, _: *mut u8, _: usize) -> u64;
    fn yerondatt_f_teid_write(_: *const u8, _: usize, _: *mut u8, _: usize, _: *mut u8, _: usize) -> u64;
    fn yerondatt_fseid_write(_: *const u8, _: usize, _: *mut u8, _: usize, _: *mut u8, _: usize) -> u64;
    fn yerondatt_outer_header_creation_write(_: *const u8, _: usize, _: *mut u8, _: usize, _: *mut u8, _: usize) -> u64;

    // image, texts, output, report
    fn yerondatt_node_id_write(_: *const u8, _: usize, _: *const u8, _: usize, _: *mut u8, _: usize, _: *mut u8, _: usize) -> u64;
    fn yerondatt_pfd_contents_write(_: *const u8, _: usize, _: *const u8, _: usize, _: *mut u8, _: usize, _: *mut u8, _: usize) -> u64;

    // payload
    fn yerondatt_ue_ip_address_strict(_: *const u8, _: usize) -> u64;
    fn yerondatt_f_teid_strict(_: *const u8, _: usize) -> u64;
    fn yerondatt_fseid_strict(_: *const u8, _: usize) -> u64;
    fn yerondatt_node_id_strict(_: *const u8, _: usize) -> u64;
    fn yerondatt_outer_header_creation_strict(_: *const u8, _: usize) -> u64;
    fn yerondatt_pfd_contents_strict(_: *const u8, _: usize) -> u64;
}

/// The version of the record layouts that the archive has. This crate knows [`LAYOUT_VERSION`](crate::LAYOUT_VERSION).
pub fn layout_version() -> u64 {
    // SAFETY: it takes nothing and touches no memory.
    unsafe { yerondatt_layout_version() }
}

/// Reads a payload into an image, and gives the answer's number.
pub fn read(kind: Kind, payload: &[u8], image: &mut [u8]) -> u64 {
    let read: Read = match kind {
        Kind::UeIpAddress => yerondatt_ue_ip_address_read,
        Kind::Fteid => yerondatt_f_teid_read,
        Kind::Fseid => yerondatt_fseid_read,
        Kind::NodeId => yerondatt_node_id_read,
        Kind::OuterHeaderCreation => yerondatt_outer_header_creation_read,
        Kind::PfdContents => yerondatt_pfd_contents_read,
    };
    // SAFETY: the payload is only read and the image is written, each for its own length.
    unsafe { read(payload.as_ptr(), payload.len(), image.as_mut_ptr(), image.len()) }
}

/// Writes an image, whose texts are lent, into an output, and says in the report what came of it.
pub fn write(kind: Kind, image: &[u8], texts: &[u8], out: &mut [u8], report: &mut [u8]) -> u64 {
    match kind {
        Kind::UeIpAddress => plain(yerondatt_ue_ip_address_write, image, out, report),
        Kind::Fteid => plain(yerondatt_f_teid_write, image, out, report),
        Kind::Fseid => plain(yerondatt_fseid_write, image, out, report),
        Kind::OuterHeaderCreation => plain(yerondatt_outer_header_creation_write, image, out, report),
        Kind::NodeId => with_texts(yerondatt_node_id_write, image, texts, out, report),
        Kind::PfdContents => with_texts(yerondatt_pfd_contents_write, image, texts, out, report),
    }
}

fn plain(write: Write, image: &[u8], out: &mut [u8], report: &mut [u8]) -> u64 {
    let (image, image_len) = (image.as_ptr(), image.len());
    let (report, report_len) = (report.as_mut_ptr(), report.len());
    // SAFETY: `write` is one of the archive's. The image is only read, output and report are written, each for its length.
    unsafe { write(image, image_len, out.as_mut_ptr(), out.len(), report, report_len) }
}

fn with_texts(write: WriteTexts, image: &[u8], texts: &[u8], out: &mut [u8], report: &mut [u8]) -> u64 {
    let (image, image_len) = (image.as_ptr(), image.len());
    let (texts, texts_len) = (texts.as_ptr(), texts.len());
    let (report, report_len) = (report.as_mut_ptr(), report.len());
    // SAFETY: as in `plain`, and the texts are only read.
    unsafe { write(image, image_len, texts, texts_len, out.as_mut_ptr(), out.len(), report, report_len) }
}

/// The strict verdict on a payload.
pub fn strict(kind: Kind, payload: &[u8]) -> bool {
    let strict: Strict = match kind {
        Kind::UeIpAddress => yerondatt_ue_ip_address_strict,
        Kind::Fteid => yerondatt_f_teid_strict,
        Kind::Fseid => yerondatt_fseid_strict,
        Kind::NodeId => yerondatt_node_id_strict,
        Kind::OuterHeaderCreation => yerondatt_outer_header_creation_strict,
        Kind::PfdContents => yerondatt_pfd_contents_strict,
    };
    // SAFETY: the payload is only read, for its length.
    unsafe { strict(payload.as_ptr(), payload.len()) == 1 }
}
