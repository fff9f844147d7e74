//! Outer Header Creation.

use crate::error::{Kind, Refusal};
use crate::image::{Image, FLAGS, GIVEN};
use crate::types::Teid;
use alloc::vec::Vec;
use core::net::{Ipv4Addr, Ipv6Addr};

/// The flags of an Outer Header Creation, in the order of their bits.
#[derive(Debug, Clone, Copy, PartialEq, Eq, Default)]
pub struct OuterHeaderCreationFlags {
    /// GTP-U/UDP/IPv4, bit 0.
    pub gtpu_udp_ipv4: bool,
    /// GTP-U/UDP/IPv6, bit 1.
    pub gtpu_udp_ipv6: bool,
    /// UDP/IPv4, bit 2.
    pub udp_ipv4: bool,
    /// UDP/IPv6, bit 3.
    pub udp_ipv6: bool,
    /// IPv4, bit 4.
    pub ipv4: bool,
    /// IPv6, bit 5.
    pub ipv6: bool,
    /// C-TAG, bit 6.
    pub ctag: bool,
    /// S-TAG, bit 7.
    pub stag: bool,
}

impl OuterHeaderCreationFlags {
    /// The empty set.
    pub fn new() -> Self {
        Self::default()
    }

    /// GTP-U/UDP/IPv4 alone.
    pub fn gtpu_ipv4() -> Self {
        Self { gtpu_udp_ipv4: true, ..Self::default() }
    }

    /// GTP-U/UDP/IPv6 alone.
    pub fn gtpu_ipv6() -> Self {
        Self { gtpu_udp_ipv6: true, ..Self::default() }
    }

    /// UDP/IPv4 alone.
    pub fn udp_ipv4() -> Self {
        Self { udp_ipv4: true, ..Self::default() }
    }

    /// UDP/IPv6 alone.
    pub fn udp_ipv6() -> Self {
        Self { udp_ipv6: true, ..Self::default() }
    }
}

/// The outer header that forwarded packets get.
#[derive(Debug, Clone, PartialEq, Eq)]
pub struct OuterHeaderCreation {
    /// The flags. A field is read and written only under its flags.
    pub description: OuterHeaderCreationFlags,
    /// The tunnel's identifier, under a GTP-U flag.
    pub teid: Option<Teid>,
    /// The IPv4 address, under any flag of IPv4.
    pub ipv4_address: Option<Ipv4Addr>,
    /// The IPv6 address, under any flag of IPv6.
    pub ipv6_address: Option<Ipv6Addr>,
    /// The port, under a flag of UDP without GTP-U.
    pub port_number: Option<u16>,
    /// The C-TAG, under its flag. The low 24 bits are written.
    pub ctag: Option<u32>,
    /// The S-TAG, under its flag. The low 24 bits are written.
    pub stag: Option<u32>,
}

kind!(OuterHeaderCreation, Kind::OuterHeaderCreation);
marshal_short!(OuterHeaderCreation, 34);

const TEID: usize = 42;
const PORT: usize = 50;
const CTAG: usize = 58;
const STAG: usize = 66;
const IPV4: usize = 74;
const IPV6: usize = 78;

/// The bits of a tag that are written.
const TAG_BITS: u32 = (1 << 24) - 1;

impl OuterHeaderCreation {
    /// These flags, and no field.
    pub fn new(description: OuterHeaderCreationFlags) -> Self {
        OuterHeaderCreation {
            description,
            teid: None,
            ipv4_address: None,
            ipv6_address: None,
            port_number: None,
            ctag: None,
            stag: None,
        }
    }

    /// A GTP-U tunnel over IPv4.
    pub fn gtpu_ipv4(teid: impl Into<Teid>, ipv4: Ipv4Addr) -> Self {
        let flags = OuterHeaderCreationFlags::gtpu_ipv4();
        OuterHeaderCreation { teid: Some(teid.into()), ipv4_address: Some(ipv4), ..Self::new(flags) }
    }

    /// A GTP-U tunnel over IPv6.
    pub fn gtpu_ipv6(teid: impl Into<Teid>, ipv6: Ipv6Addr) -> Self {
        let flags = OuterHeaderCreationFlags::gtpu_ipv6();
        OuterHeaderCreation { teid: Some(teid.into()), ipv6_address: Some(ipv6), ..Self::new(flags) }
    }

    /// UDP over IPv4.
    pub fn udp_ipv4(ipv4: Ipv4Addr, port: u16) -> Self {
        let flags = OuterHeaderCreationFlags::udp_ipv4();
        OuterHeaderCreation { ipv4_address: Some(ipv4), port_number: Some(port), ..Self::new(flags) }
    }

    /// The same with a C-TAG, its low 24 bits, and the flag.
    pub fn with_ctag(mut self, ctag: u32) -> Self {
        self.description.ctag = true;
        self.ctag = Some(ctag & TAG_BITS);
        self
    }

    /// The same with an S-TAG, its low 24 bits, and the flag.
    pub fn with_stag(mut self, stag: u32) -> Self {
        self.description.stag = true;
        self.stag = Some(stag & TAG_BITS);
        self
    }

    fn of_image(image: &Image<94>, _payload: &[u8]) -> Self {
        let flag = |bit| image.bit(FLAGS, bit);
        OuterHeaderCreation {
            description: OuterHeaderCreationFlags {
                gtpu_udp_ipv4: flag(0),
                gtpu_udp_ipv6: flag(1),
                udp_ipv4: flag(2),
                udp_ipv6: flag(3),
                ipv4: flag(4),
                ipv6: flag(5),
                ctag: flag(6),
                stag: flag(7),
            },
            ipv4_address: image.given(0).then(|| image.ipv4(IPV4)),
            ipv6_address: image.given(1).then(|| image.ipv6(IPV6)),
            teid: image.given(2).then(|| Teid(image.number(TEID) as u32)),
            port_number: image.given(3).then(|| image.number(PORT) as u16),
            ctag: image.given(4).then(|| image.number(CTAG) as u32),
            stag: image.given(5).then(|| image.number(STAG) as u32),
        }
    }

    fn to_image(&self) -> (Image<94>, [u8; 0]) {
        let d = &self.description;
        let flags = [d.gtpu_udp_ipv4, d.gtpu_udp_ipv6, d.udp_ipv4, d.udp_ipv6, d.ipv4, d.ipv6, d.ctag, d.stag];
        let given = [
            self.ipv4_address.is_some(),
            self.ipv6_address.is_some(),
            self.teid.is_some(),
            self.port_number.is_some(),
            self.ctag.is_some(),
            self.stag.is_some(),
        ];
        let mut image = Image::new();
        image.set_bits(FLAGS, &flags);
        image.set_bits(GIVEN, &given);
        image.set_number(TEID, self.teid.map_or(0, |teid| teid.0.into()));
        image.set_number(PORT, self.port_number.map_or(0, u64::from));
        image.set_number(CTAG, self.ctag.map_or(0, u64::from));
        image.set_number(STAG, self.stag.map_or(0, u64::from));
        image.set_ipv4(IPV4, self.ipv4_address);
        image.set_ipv6(IPV6, self.ipv6_address);
        (image, [])
    }
}
