//! F-SEID.

use crate::error::{Kind, Refusal};
use crate::image::{Image, FLAGS, GIVEN};
use crate::types::Seid;
use alloc::vec::Vec;
use core::net::{Ipv4Addr, Ipv6Addr};

/// A session endpoint identifier, and the addresses at which it counts.
#[derive(Debug, Clone, Copy, PartialEq, Eq)]
pub struct Fseid {
    /// The V4 flag, bit 1.
    pub v4: bool,
    /// The V6 flag, bit 0.
    pub v6: bool,
    /// The identifier.
    pub seid: Seid,
    /// The IPv4 address, read where V4 is set.
    pub ipv4_address: Option<Ipv4Addr>,
    /// The IPv6 address, read where V6 is set.
    pub ipv6_address: Option<Ipv6Addr>,
}

kind!(Fseid, Kind::Fseid);
marshal_short!(Fseid, 29);

const SEID: usize = 42;
const IPV4: usize = 50;
const IPV6: usize = 54;

impl Fseid {
    /// An F-SEID whose flags say which addresses are given.
    pub fn new(seid: impl Into<Seid>, ipv4_address: Option<Ipv4Addr>, ipv6_address: Option<Ipv6Addr>) -> Self {
        let (v4, v6) = (ipv4_address.is_some(), ipv6_address.is_some());
        Fseid { v4, v6, seid: seid.into(), ipv4_address, ipv6_address }
    }

    fn of_image(image: &Image<70>, _payload: &[u8]) -> Self {
        Fseid {
            v6: image.bit(FLAGS, 0),
            v4: image.bit(FLAGS, 1),
            seid: Seid(image.number(SEID)),
            ipv4_address: image.given(0).then(|| image.ipv4(IPV4)),
            ipv6_address: image.given(1).then(|| image.ipv6(IPV6)),
        }
    }

    fn to_image(self) -> (Image<70>, [u8; 0]) {
        let mut image = Image::new();
        image.set_bits(FLAGS, &[self.v6, self.v4]);
        image.set_bits(GIVEN, &[self.ipv4_address.is_some(), self.ipv6_address.is_some()]);
        image.set_number(SEID, self.seid.0);
        image.set_ipv4(IPV4, self.ipv4_address);
        image.set_ipv6(IPV6, self.ipv6_address);
        (image, [])
    }
}
