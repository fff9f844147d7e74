//! UE IP Address.

use crate::error::{Kind, Refusal};
use crate::image::{Image, FLAGS, GIVEN};
use alloc::vec::Vec;
use core::net::{Ipv4Addr, Ipv6Addr};

/// The addresses of a user's equipment, or the wish that the user plane choose them.
#[derive(Debug, Clone, PartialEq, Eq)]
pub struct UeIpAddress {
    /// The V4 flag, bit 1.
    pub v4: bool,
    /// The V6 flag, bit 0.
    pub v6: bool,
    /// The S/D flag, bit 2.
    pub source_destination: bool,
    /// The IPv6D flag, bit 3.
    pub ipv6_prefix_delegation: bool,
    /// The CHV4 flag, bit 4.
    pub choose_ipv4: bool,
    /// The CHV6 flag, bit 5.
    pub choose_ipv6: bool,
    /// The IP6PL flag, bit 6.
    pub ipv6_prefix_length_present: bool,
    /// The IPv4 address, read where V4 is set.
    pub ipv4_address: Option<Ipv4Addr>,
    /// The IPv6 address, read where V6 is set.
    pub ipv6_address: Option<Ipv6Addr>,
    /// How many bits of the prefix are delegated, read where IPv6D is set.
    pub ipv6_prefix_delegation_bits: Option<u8>,
    /// The length of the prefix in bits, read where IP6PL is set.
    pub ipv6_prefix_length: Option<u8>,
}

kind!(UeIpAddress, Kind::UeIpAddress);
marshal_short!(UeIpAddress, 23);

const DELEGATION_BITS: usize = 42;
const PREFIX_LENGTH: usize = 43;
const IPV4: usize = 44;
const IPV6: usize = 48;

impl UeIpAddress {
    /// The given addresses, with the flags that say which.
    pub fn new(ipv4_address: Option<Ipv4Addr>, ipv6_address: Option<Ipv6Addr>) -> Self {
        UeIpAddress { ipv4_address, ipv6_address, ..Self::flagged(ipv4_address.is_some(), ipv6_address.is_some()) }
    }

    /// The wish that the user plane choose an IPv4 address, an IPv6 prefix or both.
    pub fn choose(ipv4: bool, ipv6: bool) -> Self {
        UeIpAddress { choose_ipv4: ipv4, choose_ipv6: ipv6, ..Self::flagged(false, false) }
    }

    /// These two flags, and nothing else.
    fn flagged(v4: bool, v6: bool) -> Self {
        UeIpAddress {
            v4,
            v6,
            source_destination: false,
            ipv6_prefix_delegation: false,
            choose_ipv4: false,
            choose_ipv6: false,
            ipv6_prefix_length_present: false,
            ipv4_address: None,
            ipv6_address: None,
            ipv6_prefix_delegation_bits: None,
            ipv6_prefix_length: None,
        }
    }

    fn of_image(image: &Image<64>, _payload: &[u8]) -> Self {
        let flag = |bit| image.bit(FLAGS, bit);
        UeIpAddress {
            v6: flag(0),
            v4: flag(1),
            source_destination: flag(2),
            ipv6_prefix_delegation: flag(3),
            choose_ipv4: flag(4),
            choose_ipv6: flag(5),
            ipv6_prefix_length_present: flag(6),
            ipv4_address: image.given(0).then(|| image.ipv4(IPV4)),
            ipv6_address: image.given(1).then(|| image.ipv6(IPV6)),
            ipv6_prefix_delegation_bits: image.given(2).then_some(image.0[DELEGATION_BITS]),
            ipv6_prefix_length: image.given(3).then_some(image.0[PREFIX_LENGTH]),
        }
    }

    fn to_image(&self) -> (Image<64>, [u8; 0]) {
        let flags = [
            self.v6,
            self.v4,
            self.source_destination,
            self.ipv6_prefix_delegation,
            self.choose_ipv4,
            self.choose_ipv6,
            self.ipv6_prefix_length_present,
        ];
        let given = [
            self.ipv4_address.is_some(),
            self.ipv6_address.is_some(),
            self.ipv6_prefix_delegation_bits.is_some(),
            self.ipv6_prefix_length.is_some(),
        ];
        let mut image = Image::new();
        image.set_bits(FLAGS, &flags);
        image.set_bits(GIVEN, &given);
        image.0[DELEGATION_BITS] = self.ipv6_prefix_delegation_bits.unwrap_or(0);
        image.0[PREFIX_LENGTH] = self.ipv6_prefix_length.unwrap_or(0);
        image.set_ipv4(IPV4, self.ipv4_address);
        image.set_ipv6(IPV6, self.ipv6_address);
        (image, [])
    }
}
