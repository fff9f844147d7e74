//! Record images: bytes of a fixed layout, in which a record crosses to the archive and back.
//!
//! The layout of a kind stands at the top of `crates/KIND_image/specs`, and as numbers in its file under `ie`.

use crate::boundary;
use crate::error::{Kind, Refusal};
use core::net::{Ipv4Addr, Ipv6Addr};

/// The bytes of a head: the answer's number, its three values, and the used count or the written length.
pub const HEAD: usize = 40;
/// Where the flags of a record stand.
pub const FLAGS: usize = 40;
/// Where a record says which of its fields are given.
pub const GIVEN: usize = 41;

/// A record image of `N` bytes.
pub struct Image<const N: usize>(pub [u8; N]);

impl<const N: usize> Image<N> {
    pub fn new() -> Self {
        Image([0; N])
    }

    /// Whether a field is given.
    pub fn given(&self, bit: u8) -> bool {
        self.bit(GIVEN, bit)
    }

    pub fn bit(&self, at: usize, bit: u8) -> bool {
        self.0[at] >> bit & 1 == 1
    }

    pub fn number(&self, at: usize) -> u64 {
        number(&self.0, at)
    }

    /// A length or a place, which is below 2 to the 16th after reading.
    pub fn count(&self, at: usize) -> usize {
        self.number(at) as usize
    }

    pub fn ipv4(&self, at: usize) -> Ipv4Addr {
        Ipv4Addr::from(bytes::<4>(&self.0, at))
    }

    pub fn ipv6(&self, at: usize) -> Ipv6Addr {
        Ipv6Addr::from(bytes::<16>(&self.0, at))
    }

    pub fn set_bits(&mut self, at: usize, bits: &[bool]) {
        self.0[at] = bits.iter().rev().fold(0, |byte, bit| byte << 1 | u8::from(*bit));
    }

    pub fn set_number(&mut self, at: usize, number: u64) {
        self.0[at..at + 8].copy_from_slice(&number.to_le_bytes());
    }

    pub fn set_count(&mut self, at: usize, count: usize) {
        self.set_number(at, count as u64);
    }

    /// An absent address stays zeros.
    pub fn set_ipv4(&mut self, at: usize, address: Option<Ipv4Addr>) {
        if let Some(address) = address {
            self.0[at..at + 4].copy_from_slice(&address.octets());
        }
    }

    /// An absent address stays zeros.
    pub fn set_ipv6(&mut self, at: usize, address: Option<Ipv6Addr>) {
        if let Some(address) = address {
            self.0[at..at + 16].copy_from_slice(&address.octets());
        }
    }
}

fn bytes<const W: usize>(image: &[u8], at: usize) -> [u8; W] {
    let mut field = [0; W];
    field.copy_from_slice(&image[at..at + W]);
    field
}

fn number(image: &[u8], at: usize) -> u64 {
    u64::from_le_bytes(bytes(image, at))
}

/// What a head says: the used count or the written length, or the refusal.
fn told(kind: Kind, head: &[u8]) -> Result<usize, Refusal> {
    let values = [number(head, 8), number(head, 16), number(head, 24)];
    match number(head, 0) {
        0 => Ok(number(head, 32) as usize),
        refused => Err(Refusal::told(kind, refused, values)),
    }
}

/// Reads a payload: the image of its record, and the used count.
pub fn read<const N: usize>(kind: Kind, payload: &[u8]) -> Result<(Image<N>, usize), Refusal> {
    let mut image = Image::new();
    boundary::read(kind, payload, &mut image.0);
    let used = told(kind, &image.0)?;
    Ok((image, used))
}

/// Writes the record of an image, whose texts are lent: the written length. Refused, the output is as before.
pub fn write(kind: Kind, image: &[u8], texts: &[u8], out: &mut [u8]) -> Result<usize, Refusal> {
    let mut report = [0; HEAD];
    boundary::write(kind, image, texts, out, &mut report);
    told(kind, &report)
}
