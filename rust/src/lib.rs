//! Six PFCP payloads, read and written by proved functions: UE IP Address, F-TEID, F-SEID, Node ID, Outer Header
//! Creation and PFD Contents.
//!
//! Modules, types, fields and methods are named as in the crate rs-pfcp, so that its users change their `use` lines.
//! `docs/FROM-RS-PFCP.md` lists what stays and what changes. The bytes are read and written, and the strict verdict is
//! given, by the functions of the archive `libyerondatt.a`, which are proved. The types here carry a record to them and
//! back; they, the constructors and the builders are plain Rust, and tested.
//!
//! ```
//! use yerondatt::ie::fseid::Fseid;
//!
//! let payload = [0x02, 0, 0, 0, 0, 0, 0, 0, 5, 192, 0, 2, 1, 0xFF];
//! let (fseid, used) = Fseid::unmarshal_used(&payload)?;
//! assert_eq!((*fseid.seid, used), (5, 13));
//! assert_eq!(fseid.marshal(), payload[..used]);
//!
//! let refusal = Fseid::unmarshal(&payload[..12]).unwrap_err();
//! assert_eq!(refusal.to_string(), "F-SEID: the payload has 12 bytes, and its IPv4 address would end at byte 13");
//! # Ok::<(), yerondatt::Refusal>(())
//! ```
#![cfg_attr(not(test), no_std)]

extern crate alloc;

mod boundary;
pub mod error;
pub mod ie;
mod image;
pub mod types;

#[cfg(test)]
mod raw_lines;

pub use boundary::layout_version;
pub use error::Refusal;

/// The version of the record layouts that this crate knows. That of the archive is [`layout_version`]. Where the two
/// aren't the same, the numbers of an answer may be taken for what they aren't.
///
/// From 1 to 2 no place of any number has changed, but refusal 4 has a second value, `bad` of
/// [`Why::NotUtf8`](error::Why::NotUtf8). An archive of version 1 has 0 there, by which every broken text would pass
/// for a cut one.
pub const LAYOUT_VERSION: u64 = 2;
